//! Steps 3 and 4.

use super::first;
use crate::generate::case::Case;
use crate::random::Random;
use second::check::entry::{AGE, BLANK, GPK, SEX};
use second::check::Table::T640;

pub fn no_gpk(case: &mut Case, _: &mut Random) {
    first(case)[GPK] = 0;
}

pub fn gpk_absent(case: &mut Case, _: &mut Random) {
    let gpk = first(case)[GPK] as u64;
    case.rows(T640).retain(|row| row[0] != gpk);
}

pub fn gpk_several(case: &mut Case, r: &mut Random) {
    let gpk = first(case)[GPK] as u64;
    case.push(T640, &[gpk, r.between(1, 3), r.below(2)]);
}

pub fn age_missing(case: &mut Case, _: &mut Random) {
    first(case)[AGE] = BLANK;
}

fn for_one_sex(case: &mut Case, r: &mut Random) -> u32 {
    let gpk = first(case)[GPK] as u64;
    let sex = r.between(1, 2);
    for row in 0..case.rows(T640).count() {
        if case.rows(T640).row(row)[0] == gpk {
            case.rows(T640).row(row)[1] = sex;
        }
    }
    sex as u32
}

pub fn sex_missing(case: &mut Case, r: &mut Random) {
    for_one_sex(case, r);
    first(case)[SEX] = BLANK;
}

pub fn sex_differs(case: &mut Case, r: &mut Random) {
    let sex = for_one_sex(case, r);
    first(case)[SEX] = 3 - sex;
}
