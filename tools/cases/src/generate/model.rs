//! A case that is compared (100): the chain of rows that its entry finds stands first in each table
//! (in 730 the base unit's row, then the entered unit's), rows that it must pass over behind them.

use super::case::{Case, Numbers, NO_ENTRY};
use super::space::{self, NO_UPPER, Q_GENERAL};
use crate::random::Random;
use second::check::entry::*;
use second::check::Table;

pub fn model(r: &mut Random) -> Case {
    let mut case = Case::empty();
    let mut entry = patient(r);
    product(r, &mut case, &mut entry);
    let basis = level(r, &mut case, &mut entry);
    let category = setting(r, &mut case, &mut entry, basis);
    let rule = rows(r, &mut case, &mut entry, category);
    limits(r, &mut case, &mut entry, rule);
    units(r, &mut case, &mut entry);
    case.entries.push(entry);
    case
}

fn patient(r: &mut Random) -> Numbers {
    let mut entry = NO_ENTRY;
    entry[GPK] = space::gpk(r) as u32;
    for place in [PRK, HPK] {
        entry[place] = if r.percent(50) { BLANK } else { space::product(r) as u32 };
    }
    entry[AGE] = space::age(r) as u32;
    entry[SEX] = r.pick(&[1, 2, BLANK]);
    entry[WEIGHT] = space::weight(r) as u32;
    entry[SURFACE] = space::surface(r) as u32;
    entry[CARE] = space::care(r) as u32;
    entry[REASON] = r.pick(&space::REASONS) as u32;
    entry[ICPCTO] = if entry[REASON] == 0 { 0 } else { r.below(3) as u32 };
    entry[ROUTE] = space::route(r) as u32;
    entry[COUNT] = space::count(r) as u32;
    entry[TIME_UNIT] = space::time_unit(r) as u32;
    entry[HIGHEST] = space::dose(r) as u32;
    entry[LOWEST] = if r.percent(60) { entry[HIGHEST] } else { r.between(1, entry[HIGHEST] as u64) as u32 };
    entry[MONTHS] = r.pick(&[MONTHS_OFF, MONTHS_ON, BLANK]);
    entry
}

fn product(r: &mut Random, case: &mut Case, entry: &mut Numbers) {
    let gpk = entry[GPK] as u64;
    let gpdgst = r.between(1, 3);
    case.push(Table::T640, &[gpk, gpdgst, r.below(2)]);
    if gpdgst != 3 {
        entry[SEX] = gpdgst as u32;
    }
    for other in (0..5).filter(|other| *other != gpk) {
        case.push(Table::T640, &[other, r.between(1, 3), r.below(2)]);
    }
}

/// The basis, found at HPK, PRK or base level.
fn level(r: &mut Random, case: &mut Case, entry: &mut Numbers) -> u64 {
    let gpk = entry[GPK] as u64;
    let basis = space::basis(r);
    let other = |r: &mut Random| r.between(101, 103);
    match r.below(3) {
        0 => {
            entry[HPK] = space::product(r) as u32;
            case.push(Table::T641, &[gpk, r.below(3), entry[HPK] as u64, 2, basis]);
        }
        1 => {
            entry[PRK] = space::product(r) as u32;
            case.push(Table::T641, &[gpk, entry[PRK] as u64, 0, 2, basis]);
        }
        _ => {
            let codes = [r.pick(&[0, 0, 2]), r.pick(&[0, 0, 2])];
            case.push(Table::T641, &[gpk, codes[0], codes[1], 1, basis]);
        }
    }
    let at_base = case.rows(Table::T641).row(0)[3] == 1;
    if r.percent(50) {
        // A level above whose rows have other codes; its code must be given.
        entry[HPK] = if entry[HPK] == BLANK { 1 } else { entry[HPK] };
        case.push(Table::T641, &[gpk, r.below(4), entry[HPK] as u64 + 5, 2, other(r)]);
    }
    if r.percent(50) && at_base {
        entry[PRK] = if entry[PRK] == BLANK { 1 } else { entry[PRK] };
        case.push(Table::T641, &[gpk, entry[PRK] as u64 + 5, 0, 2, other(r)]);
    }
    if r.percent(50) && !at_base {
        case.push(Table::T641, &[gpk, 0, 0, 1, other(r)]);
    }
    if r.percent(30) {
        case.push(Table::T641, &[gpk, 0, 0, 2, other(r)]);
    }
    case.push(Table::T641, &[gpk + 1, 0, 0, 1, other(r)]);
    basis
}

/// The category, found directly or by a fallback.
fn setting(r: &mut Random, case: &mut Case, entry: &mut Numbers, basis: u64) -> u64 {
    let category = space::category(r);
    let care = if entry[CARE] == 2 && r.percent(40) { 3 } else { entry[CARE] as u64 };
    let (icpc, icpcto) = match entry[REASON] as u64 {
        0 => (Q_GENERAL, 0),
        reason => r.pick(&[(reason, entry[ICPCTO] as u64), (reason, 0), (Q_GENERAL, 0)]),
    };
    let route = if r.percent(40) { 0 } else { entry[ROUTE] as u64 };
    case.push(Table::T642, &[basis, care, icpc, icpcto, route, category]);
    let other = |r: &mut Random| r.between(101, 103);
    if care == 2 {
        // Group 2 has rows, so group 3 is not looked at.
        case.push(Table::T642, &[basis, 3, icpc, icpcto, entry[ROUTE] as u64, other(r)]);
    }
    if icpc != Q_GENERAL && icpc == entry[REASON] as u64 && r.percent(70) {
        case.push(Table::T642, &[basis, care, Q_GENERAL, 0, entry[ROUTE] as u64, other(r)]);
    }
    case.push(Table::T642, &[basis, care, icpc, icpcto, entry[ROUTE] as u64 + 5, other(r)]);
    case.push(Table::T642, &[basis + 1, care, icpc, icpcto, route, other(r)]);
    category
}

/// The rule, of the one row that age, frequency, weight and surface leave.
fn rows(r: &mut Random, case: &mut Case, entry: &mut Numbers, category: u64) -> u64 {
    let rule = space::rule(r);
    let age = 1_000 * entry[AGE] as u64;
    let (count, unit) = (entry[COUNT] as u64, entry[TIME_UNIT] as u64);
    let age = match age > NO_UPPER {
        true => (r.below(NO_UPPER + 1), NO_UPPER),
        false => space::around(r, age),
    };
    let weight = space::around(r, entry[WEIGHT] as u64);
    let surface = space::around(r, entry[SURFACE] as u64);
    let chain = [category, age.0, age.1, count, unit, weight.0, weight.1, surface.0, surface.1, rule];
    case.push(Table::T643, &chain);
    rows_to_pass_over(r, case, entry, chain);
    case.push(Table::T643, &[category + 1, 0, NO_UPPER, count, unit, 0, NO_UPPER, 0, NO_UPPER, rule]);
    blank_where_it_cannot_matter(r, case, entry);
    rule
}

/// Rows of the category that differ from the chain's in one respect.
fn rows_to_pass_over(r: &mut Random, case: &mut Case, entry: &Numbers, chain: [u64; 10]) {
    let mut other = chain;
    (other[6], other[8], other[9]) = (70_000.max(chain[5]), 1_500.max(chain[7]), 100);
    let mut push = |r: &mut Random, chance: u64, change: &dyn Fn(&mut Random, &mut [u64; 10])| {
        if r.percent(chance) {
            let mut row = other;
            change(r, &mut row);
            row[9] += r.between(1, 3);
            case.push(Table::T643, &row);
        }
    };
    push(r, 60, &|r, row| (row[1], row[2]) = space::beside(r, 1_000 * entry[AGE] as u64));
    push(r, 60, &|_, row| row[3] = row[3] % 999 + 1);
    // Hidden behind the exact row, should it be the twin.
    push(r, 60, &|r, row| row[4] = r.pick(&[row[4] ^ 1, row[4] + 1]));
    push(r, 40, &|r, row| (row[5], row[6]) = space::beside(r, entry[WEIGHT] as u64));
    push(r, 40, &|r, row| {
        (row[5], row[6]) = (chain[5], chain[6]);
        (row[7], row[8]) = space::beside(r, entry[SURFACE] as u64);
    });
}

/// Weight or surface blank, where all rows leave it open.
fn blank_where_it_cannot_matter(r: &mut Random, case: &mut Case, entry: &mut Numbers) {
    for (place, low) in [(WEIGHT, 5), (SURFACE, 7)] {
        let open = case.rows(Table::T643).cells.chunks(10).all(|row| row[low] == 0 && row[low + 1] == NO_UPPER);
        if open && r.percent(50) {
            entry[place] = BLANK;
        }
    }
}

fn limits(r: &mut Random, case: &mut Case, entry: &mut Numbers, rule: u64) {
    let near = |r: &mut Random, dose: u32| {
        let dose = dose as u64;
        let limit = r.pick(&[dose, dose + 1, dose - 1, dose / 2, 2 * dose, 0, 0, 999_999_999]);
        limit.min(999_999_999)
    };
    let minimum = near(r, entry[LOWEST]);
    let maximum = near(r, entry[HIGHEST]);
    let absolute = near(r, entry[HIGHEST]);
    case.push(Table::T649, &[rule, minimum, maximum, absolute]);
    for other in (1..=6).filter(|other| *other != rule) {
        case.push(Table::T649, &[other, space::limit(r), space::limit(r), space::limit(r)]);
    }
}

fn units(r: &mut Random, case: &mut Case, entry: &mut Numbers) {
    let (srtcde, code) = (r.below(3), r.below(3));
    let base = r.pick(&space::UNITS);
    let mut entered = r.pick(&space::UNITS);
    if entered == base {
        entered = 229;
    }
    case.push(Table::T730, &[srtcde, code, space::amount(r), base]);
    case.push(Table::T730, &[srtcde, code, space::amount(r), entered]);
    case.push(Table::T730, &[srtcde + 1, code, space::amount(r), base]);
    case.push(Table::T730, &[srtcde, code + 1, space::amount(r), entered]);
    case.push(Table::T730, &[srtcde, code, space::amount(r), 999_999]);
    entry[SRTCDE] = srtcde as u32;
    entry[CODE] = code as u32;
    entry[BASE_UNIT] = base as u32;
    entry[ENTERED_UNIT] = if r.percent(60) { entered } else { base } as u32;
}
