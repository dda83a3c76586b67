//! Step 5.

use super::first;
use crate::generate::case::Case;
use crate::generate::space;
use crate::random::Random;
use second::check::entry::{BLANK, GPK, HPK, PRK};
use second::check::Table::T641;

pub fn hpk_missing(case: &mut Case, r: &mut Random) {
    let gpk = first(case)[GPK] as u64;
    case.push(T641, &[gpk, r.below(3), space::product(r), 2, space::basis(r)]);
    first(case)[HPK] = BLANK;
}

pub fn hpk_several(case: &mut Case, r: &mut Random) {
    let gpk = first(case)[GPK] as u64;
    let hpk = space::product(r);
    first(case)[HPK] = hpk as u32;
    case.push(T641, &[gpk, r.below(3), hpk, 2, space::basis(r)]);
    case.push(T641, &[gpk, r.below(3), hpk, 2, space::basis(r)]);
}

/// No row with the entered HPK at HPK level.
fn no_hpk_row(case: &mut Case) -> u64 {
    let gpk = first(case)[GPK] as u64;
    let hpk = first(case)[HPK];
    case.rows(T641).retain(|row| row[0] != gpk || row[3] == 1 || (hpk != BLANK && row[2] != hpk as u64));
    gpk
}

pub fn prk_missing(case: &mut Case, r: &mut Random) {
    let gpk = no_hpk_row(case);
    case.push(T641, &[gpk, space::product(r), 0, 2, space::basis(r)]);
    first(case)[PRK] = BLANK;
}

pub fn prk_several(case: &mut Case, r: &mut Random) {
    let gpk = no_hpk_row(case);
    let prk = space::product(r);
    first(case)[PRK] = prk as u32;
    case.push(T641, &[gpk, prk, 0, 2, space::basis(r)]);
    case.push(T641, &[gpk, prk, 0, 2, space::basis(r)]);
}

pub fn base_level_absent(case: &mut Case, r: &mut Random) {
    let gpk = first(case)[GPK] as u64;
    case.rows(T641).retain(|row| row[0] != gpk);
    if r.percent(60) {
        case.push(T641, &[gpk, 0, 0, 2, space::basis(r)]);
    }
}

pub fn base_level_several(case: &mut Case, r: &mut Random) {
    let gpk = first(case)[GPK] as u64;
    case.rows(T641).retain(|row| row[0] != gpk);
    let row = [gpk, r.pick(&[0, 0, 2]), r.pick(&[0, 0, 2]), 1, space::basis(r)];
    case.push(T641, &row);
    if r.percent(30) {
        case.push(T641, &row);
    } else {
        case.push(T641, &[gpk, 0, 0, 1, space::basis(r)]);
    }
}
