//! Steps 8 to 11: the rows of the category.

use super::first;
use crate::generate::case::Case;
use crate::generate::space::{self, NO_UPPER};
use crate::random::Random;
use second::check::entry::{AGE, BLANK, COUNT, SURFACE, TIME_UNIT, WEIGHT};
use second::check::Table::{T640, T641, T642, T643};

/// Changes each row of the chain's category.
fn each_row(case: &mut Case, mut change: impl FnMut(&mut [u64])) {
    let category = case.tables[T643 as usize].cells.first().copied().unwrap_or(0);
    for row in 0..case.rows(T643).count() {
        let row = case.rows(T643).row(row);
        if row[0] == category {
            change(row);
        }
    }
}

pub fn age_no_row(case: &mut Case, r: &mut Random) {
    let age = first(case)[AGE];
    if age != BLANK {
        each_row(case, |row| (row[1], row[2]) = space::beside(r, 1_000 * age as u64));
    }
}

pub fn only_count_differs(case: &mut Case, r: &mut Random) {
    let count = first(case)[COUNT] as u64;
    each_row(case, |row| row[3] = if row[3] == count { r.pick(&[count % 999 + 1, 500]) } else { row[3] });
}

pub fn only_unit_differs(case: &mut Case, r: &mut Random) {
    each_row(case, |row| row[4] = r.pick(&[45, 46, 77, 999_999]));
    first(case)[TIME_UNIT] = r.pick(&[19, 47, 45]);
}

pub fn both_differ(case: &mut Case, r: &mut Random) {
    only_count_differs(case, r);
    only_unit_differs(case, r);
}

pub fn weight_missing(case: &mut Case, r: &mut Random) {
    each_row(case, |row| (row[5], row[6]) = r.pick(&[(0, 999_998), (1, NO_UPPER), (70_000, 80_000), (0, NO_UPPER)]));
    first(case)[WEIGHT] = BLANK;
}

pub fn weight_no_row(case: &mut Case, r: &mut Random) {
    let weight = first(case)[WEIGHT];
    if weight != BLANK {
        each_row(case, |row| (row[5], row[6]) = space::beside(r, weight as u64));
    }
}

pub fn surface_missing(case: &mut Case, r: &mut Random) {
    each_row(case, |row| (row[7], row[8]) = r.pick(&[(0, 999_998), (1, NO_UPPER), (1_000, 1_500), (0, NO_UPPER)]));
    first(case)[SURFACE] = BLANK;
}

pub fn surface_no_row(case: &mut Case, r: &mut Random) {
    let surface = first(case)[SURFACE];
    if surface != BLANK {
        each_row(case, |row| (row[7], row[8]) = space::beside(r, surface as u64));
    }
}

pub fn rows_several(case: &mut Case, r: &mut Random) {
    if case.rows(T643).count() > 0 {
        let mut row = case.rows(T643).row(0).to_vec();
        row[9] = space::rule(r);
        case.push(T643, &row);
    }
}

pub fn equal_rows(case: &mut Case, r: &mut Random) {
    let table = r.pick(&[T640, T641, T642, T643]);
    if case.rows(table).count() > 0 {
        case.rows(table).double(0);
    }
}
