//! Step 2.

use super::first;
use crate::generate::case::Case;
use crate::generate::space;
use crate::random::Random;
use second::check::entry::{BASE_UNIT, CODE, ENTERED_UNIT, SRTCDE};
use second::check::Table::T730;

/// Sets the entered unit to that of the second 730 row, so that 730 is searched.
fn convert(case: &mut Case) {
    if case.rows(T730).count() > 1 {
        first(case)[ENTERED_UNIT] = case.tables[T730 as usize].cells[7] as u32;
    }
}

fn unit_rows(case: &mut Case, unit: u32) -> (u64, u64, u64) {
    (first(case)[SRTCDE] as u64, first(case)[CODE] as u64, unit as u64)
}

fn unit_absent(case: &mut Case, unit: u32) {
    let (srtcde, code, unit) = unit_rows(case, unit);
    case.rows(T730).retain(|row| (row[0], row[1], row[3]) != (srtcde, code, unit));
}

fn unit_again(case: &mut Case, amount: u64, unit: u32) {
    let (srtcde, code, unit) = unit_rows(case, unit);
    case.push(T730, &[srtcde, code, amount, unit]);
}

pub fn base_unit_absent(case: &mut Case, _: &mut Random) {
    convert(case);
    let unit = first(case)[BASE_UNIT];
    unit_absent(case, unit);
}

pub fn entered_unit_absent(case: &mut Case, _: &mut Random) {
    convert(case);
    let unit = first(case)[ENTERED_UNIT];
    unit_absent(case, unit);
}

pub fn base_unit_several(case: &mut Case, r: &mut Random) {
    convert(case);
    let unit = first(case)[BASE_UNIT];
    unit_again(case, space::amount(r), unit);
}

pub fn entered_unit_several(case: &mut Case, r: &mut Random) {
    convert(case);
    let unit = first(case)[ENTERED_UNIT];
    unit_again(case, space::amount(r), unit);
}

pub fn equal_unit_rows(case: &mut Case, r: &mut Random) {
    convert(case);
    if case.rows(T730).count() > 1 {
        case.rows(T730).double(r.below(2) as usize);
    }
}

fn set_amounts(case: &mut Case, r: &mut Random, amounts: &[u64]) {
    convert(case);
    let either = r.below(3);
    for row in 0..case.rows(T730).count().min(2) {
        if either == 2 || either == row as u64 {
            case.rows(T730).row(row)[2] = r.pick(amounts);
        }
    }
}

pub fn amount_zero(case: &mut Case, r: &mut Random) {
    set_amounts(case, r, &[0]);
}

pub fn amount_above(case: &mut Case, r: &mut Random) {
    set_amounts(case, r, &[10_000_000_000, 10_000_000_001, 999_999_999_999, 9_999_999_999]);
}
