//! An entry beside another: one or two of its fields changed to a number that is near something in the tables.

use super::case::{Case, Numbers, MADE_FIELDS};
use super::space;
use crate::random::Random;
use second::check::entry::*;
use second::check::Table;

/// Adds entries made from the first one.
pub fn add(case: &mut Case, r: &mut Random, more: u64) {
    for _ in 0..more {
        let mut entry = case.entries[0];
        for _ in 0..r.between(1, 2) {
            change(case, r, &mut entry);
        }
        case.entries.push(entry);
    }
}

/// A cell of a column of a table, or `otherwise` in an empty table.
fn cell(case: &Case, r: &mut Random, table: Table, place: usize, otherwise: u64) -> u64 {
    let rows = &case.tables[table as usize];
    match rows.count() as u64 {
        0 => otherwise,
        count => rows.cells[r.below(count) as usize * rows.width() + place],
    }
}

fn near(r: &mut Random, number: u64) -> u64 {
    r.pick(&[number, number + 1, number.saturating_sub(1)])
}

fn change(case: &Case, r: &mut Random, entry: &mut Numbers) {
    let place = r.below(MADE_FIELDS as u64) as usize;
    entry[place] = match place {
        PRK | HPK | AGE | SEX | WEIGHT | SURFACE | MONTHS => datum(case, r, place),
        LOWEST | HIGHEST => return dose(case, r, entry),
        GPK => r.pick(&[0, 1, 2, 3, 4, 99_999_999]),
        CARE => space::care(r) as u32,
        REASON => r.pick(&space::REASONS) as u32,
        ICPCTO => r.below(3) as u32,
        ROUTE => cell(case, r, Table::T642, 4, 0) as u32,
        COUNT => cell(case, r, Table::T643, 3, 1) as u32,
        TIME_UNIT => {
            let unit = cell(case, r, Table::T643, 4, 19) as u32;
            r.pick(&[unit, unit ^ 1, unit.wrapping_add(1), unit.saturating_sub(1)])
        }
        SRTCDE => cell(case, r, Table::T730, 0, 0) as u32,
        CODE => cell(case, r, Table::T730, 1, 0) as u32,
        _ => cell(case, r, Table::T730, 3, 233) as u32,
    };
    if entry[REASON] == 0 && r.percent(90) {
        entry[ICPCTO] = 0;
    }
}

/// What an entry may leave blank.
fn datum(case: &Case, r: &mut Random, place: usize) -> u32 {
    let number = match place {
        PRK | HPK => cell(case, r, Table::T641, place, 1).max(1),
        AGE if r.percent(30) => space::age(r),
        AGE => near_bound(case, r, 1, 1_000).min(1_800),
        SEX => r.between(1, 2),
        WEIGHT => near_bound(case, r, 5, 1).clamp(1, 999_999),
        SURFACE => near_bound(case, r, 7, 1).clamp(1, 9_999),
        _ => r.pick(&[MONTHS_OFF, MONTHS_ON]) as u64,
    };
    if r.percent(25) {
        BLANK
    } else {
        number.min(u32::MAX as u64) as u32
    }
}

/// At or beside a bound of 643; `low` is the place of the low one.
fn near_bound(case: &Case, r: &mut Random, low: usize, over: u64) -> u64 {
    let place = low + r.below(2) as usize;
    let bound = cell(case, r, Table::T643, place, 1) / over;
    near(r, bound)
}

fn dose(case: &Case, r: &mut Random, entry: &mut Numbers) {
    let limit = r.between(1, 3) as usize;
    let limit = cell(case, r, Table::T649, limit, 1);
    let dose = near(r, limit).clamp(1, 999_999_999) as u32;
    if r.percent(50) {
        entry[LOWEST] = dose;
        entry[HIGHEST] = entry[HIGHEST].max(dose);
    } else {
        entry[HIGHEST] = dose;
        entry[LOWEST] = entry[LOWEST].min(dose);
    }
}
