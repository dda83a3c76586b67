//! Categories of 512 rows, and of one more: step 7's bound, and rows that all filters or but one of them let pass.

use super::case::{Case, Numbers};
use super::order::sort;
use super::proof_table::changed;
use super::space::{NO_UPPER, Q_GENERAL};
use crate::random::Random;
use second::check::entry::{AGE, COUNT, GPK, HIGHEST, LOWEST, SURFACE, TIME_UNIT, WEIGHT};
use second::check::Table::*;

/// Three categories, each in three places.
pub const VARIANTS: usize = 9;
/// One that has a row too many.
pub const TOO_LONG: usize = 2;
/// GPK, basis, category and rule; no other row of a case has it.
pub const KEY: u64 = 5_000_000;
/// Rows of other categories put among the category's.
const OTHERS: u64 = 16;

const MONTHS: u32 = 240;
const KILOGRAMS: u32 = 75_000;
const SQUARE_METRES: u32 = 1_500;

/// Adds the category and an entry for it. All 512 rows fit (123), one of 512 (100), or one of 513 (120); they stand
/// behind the case's other rows, among them, or where the keys rise.
pub fn add(case: &mut Case, variant: usize, r: &mut Random) {
    let (kind, standing) = (variant % 3, variant / 3);
    let count = if kind == 2 { 513 } else { 512 };
    let any = r.below(count);
    let one = r.pick(&[0, count - 1, any]);
    case.push(T640, &[KEY, 3, 0]);
    case.push(T641, &[KEY, 0, 0, 1, KEY]);
    case.push(T642, &[KEY, 3, Q_GENERAL, 0, 0, KEY]);
    case.push(T649, &[KEY, 0, 1_000, 0]);
    for place in 0..count {
        let row = if kind == 0 || place == one { fitting(place) } else { passed_over(place) };
        case.push(T643, &row);
    }
    if standing > 0 {
        (1..=OTHERS / 2).for_each(|n| [KEY - n, KEY + n].iter().for_each(|other| case.push(T643, &open(*other))));
        case.rows(T643).shuffle(r);
    }
    if standing == 2 {
        case.tables.iter_mut().for_each(sort);
    }
    case.entries.push(entry());
}

fn open(category: u64) -> [u64; 10] {
    [category, 0, NO_UPPER, 1, 19, 0, NO_UPPER, 0, NO_UPPER, KEY]
}

/// Open, or as narrow as can be.
fn fitting(place: u64) -> [u64; 10] {
    let (age, weight, surface) = (1_000 * MONTHS as u64, KILOGRAMS as u64, SQUARE_METRES as u64);
    match place % 2 {
        0 => open(KEY),
        _ => [KEY, age, age, 1, 19, weight, weight, surface, surface, KEY],
    }
}

/// By one filter each: age, count, unit, weight, surface.
fn passed_over(place: u64) -> [u64; 10] {
    let mut row = open(KEY);
    match place % 5 {
        0 => row[2] = 1_000 * MONTHS as u64 - 1,
        1 => row[3] = 2,
        2 => row[4] = 20,
        3 => row[5] = KILOGRAMS as u64 + 1,
        _ => row[8] = SQUARE_METRES as u64 - 1,
    }
    row
}

fn entry() -> Numbers {
    changed(&[
        (GPK, KEY as u32),
        (AGE, MONTHS),
        (WEIGHT, KILOGRAMS),
        (SURFACE, SQUARE_METRES),
        (COUNT, 1),
        (TIME_UNIT, 19),
        (LOWEST, 1_000),
        (HIGHEST, 1_000),
    ])
}

/// The category alone, or with the rows put among it.
pub fn full(variant: usize, r: &mut Random) -> Case {
    let mut case = Case::empty();
    add(&mut case, variant, r);
    case
}
