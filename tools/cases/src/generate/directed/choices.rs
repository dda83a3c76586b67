//! Steps 4 to 6 and 9: all that an entry may say, against a few rows.

use crate::generate::case::Case;
use crate::generate::model::model;
use crate::generate::space::{self, Q_GENERAL, TIME_UNITS};
use crate::random::Random;
use second::check::entry::{
    AGE, BLANK, CARE, COUNT, GPK, HPK, ICPCTO, MONTHS, MONTHS_OFF, MONTHS_ON, PRK, REASON, ROUTE, SEX, TIME_UNIT,
};
use second::check::Table::{T640, T641, T642, T643};

pub fn sexes(variant: usize, r: &mut Random) -> Case {
    let mut case = model(r);
    case.rows(T640).row(0)[1] = variant as u64 % 3 + 1;
    for sex in [BLANK, 1, 2] {
        for age in [BLANK, case.entries[0][AGE]] {
            let mut entry = case.entries[0];
            (entry[SEX], entry[AGE]) = (sex, age);
            case.entries.push(entry);
        }
    }
    case
}

/// A few rows among the levels of one GPK; entries with each HPK and PRK, given or blank.
pub fn levels(r: &mut Random) -> Case {
    let mut case = model(r);
    let gpk = case.entries[0][GPK] as u64;
    let basis = case.rows(T641).row(0)[4];
    case.rows(T641).cells.clear();
    for _ in 0..r.between(1, 6) {
        let of = r.pick(&[gpk, gpk, gpk, gpk, gpk % 3 + 1]);
        let basis = r.pick(&[basis, basis, 101, 102]);
        case.push(T641, &[of, r.below(3), r.below(3), r.between(1, 2), basis]);
    }
    if r.percent(20) {
        case.rows(T641).double(0);
    }
    for hpk in [BLANK, 1, 2, 3] {
        for prk in [BLANK, 1, 2, 3] {
            let mut entry = case.entries[0];
            (entry[HPK], entry[PRK]) = (hpk, prk);
            case.entries.push(entry);
        }
    }
    case
}

/// A few rows among care groups, reasons and routes; entries over all of them.
pub fn settings(r: &mut Random) -> Case {
    let mut case = model(r);
    let basis = case.rows(T642).row(0)[0];
    let category = case.rows(T643).row(0)[0];
    case.rows(T642).retain(|row| row[0] != basis);
    for _ in 0..r.between(1, 8) {
        let icpc = r.pick(&[Q_GENERAL, Q_GENERAL, 5_000, 5_000, 17_552, 0]);
        let to = r.pick(&[0, 0, 1, 2]);
        let category = r.pick(&[category, category, 101]);
        case.push(T642, &[basis, r.between(2, 3), icpc, to, r.below(2), category]);
    }
    for _ in 0..24 {
        let mut entry = case.entries[0];
        entry[CARE] = space::care(r) as u32;
        entry[REASON] = r.pick(&[0, 5_000, Q_GENERAL as u32, 17_552, 6_000]);
        entry[ICPCTO] = if entry[REASON] == 0 { 0 } else { r.below(3) as u32 };
        entry[ROUTE] = r.below(3) as u32;
        case.entries.push(entry);
    }
    case
}

/// An entered time unit against rows of one or two units, with each months setting.
pub fn twins(place: usize, r: &mut Random) -> Case {
    let mut case = model(r);
    let entered = TIME_UNITS[place] as u32;
    let near = [entered as u64, entered as u64 ^ 1, entered as u64 + 1, (entered as u64).saturating_sub(1)];
    let mut chain = case.rows(T643).row(0).to_vec();
    let category = chain[0];
    case.rows(T643).retain(|row| row[0] != category);
    let count = case.entries[0][COUNT] as u64;
    for rule in 1..=r.between(1, 3) {
        let any = space::time_unit(r);
        chain[4] = r.pick(&[near[0], near[1], near[2], near[3], near[1], any]);
        chain[3] = r.pick(&[count, count, count, count % 999 + 1]);
        chain[9] = rule;
        case.push(T643, &chain);
    }
    let mut entry = case.entries.remove(0);
    entry[TIME_UNIT] = entered;
    for months in [MONTHS_OFF, MONTHS_ON, BLANK, 7] {
        entry[MONTHS] = months;
        case.entries.push(entry);
    }
    entry[MONTHS] = r.pick(&[MONTHS_OFF, MONTHS_ON, BLANK]);
    entry[COUNT] = entry[COUNT] % 999 + 1;
    case.entries.push(entry);
    case
}
