//! Step 11: the limits.

use crate::generate::case::Case;
use crate::generate::space;
use crate::random::Random;
use second::check::Table::{T643, T649};

fn chain_rule(case: &Case) -> u64 {
    case.tables[T643 as usize].cells.get(9).copied().unwrap_or(0)
}

pub fn limits_absent(case: &mut Case, _: &mut Random) {
    let rule = chain_rule(case);
    case.rows(T649).retain(|row| row[0] != rule);
}

pub fn limits_several(case: &mut Case, r: &mut Random) {
    let rule = chain_rule(case);
    case.push(T649, &[rule, space::limit(r), space::limit(r), space::limit(r)]);
}

pub fn equal_limits(case: &mut Case, _: &mut Random) {
    if case.rows(T649).count() > 0 {
        case.rows(T649).double(0);
    }
}
