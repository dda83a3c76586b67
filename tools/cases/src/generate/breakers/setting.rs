//! Step 6.

use super::first;
use crate::generate::case::Case;
use crate::generate::space;
use crate::random::Random;
use second::check::entry::{ICPCTO, REASON, ROUTE};
use second::check::Table::T642;

pub fn setting_absent(case: &mut Case, r: &mut Random) {
    let basis = case.tables[T642 as usize].cells.first().copied().unwrap_or(1);
    case.rows(T642).retain(|row| row[0] != basis);
    if r.percent(70) {
        let care = r.between(2, 3);
        case.push(T642, &[basis, care, r.pick(&space::REASONS), r.below(3), r.between(1, 8), 1]);
    }
}

pub fn setting_several(case: &mut Case, r: &mut Random) {
    if case.rows(T642).count() > 0 {
        let mut row = case.rows(T642).row(0).to_vec();
        row[5] = r.pick(&[row[5], row[5] + 1]);
        case.push(T642, &row);
    }
}

/// The reason has a row, but neither for the entered route nor for 0.
pub fn route_absent(case: &mut Case, _: &mut Random) {
    let route = first(case)[ROUTE] as u64;
    let (icpc, to) = (first(case)[REASON] as u64, first(case)[ICPCTO] as u64);
    for row in 0..case.rows(T642).count() {
        let row = case.rows(T642).row(row);
        if icpc != 0 && row[2] == icpc && row[3] == to || icpc == 0 && row[2] == space::Q_GENERAL {
            row[4] = route + 7;
        }
    }
}
