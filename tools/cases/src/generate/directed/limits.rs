//! Step 12: doses at, and a fraction beside, a limit.

use crate::generate::case::Case;
use crate::generate::model::model;
use crate::generate::space::{self, PRIMES};
use crate::random::Random;
use second::check::entry::{ENTERED_UNIT, HIGHEST, LOWEST};
use second::check::Table::{T649, T730};

/// Doses that equal a limit after conversion, and doses a fraction above and below it; also the greatest numbers.
pub fn exact_limits(r: &mut Random) -> Case {
    let mut case = model(r);
    let prime = |r: &mut Random| r.pick(&PRIMES);
    let (base, entered) = match r.below(4) {
        0 => (prime(r), prime(r)),
        1 => (9_999_999_999, r.pick(&[9_999_999_999, 9_999_999_998, 9_999_999_967, 1, 3])),
        2 => (r.pick(&[1, 3, 9_999_999_998]), 9_999_999_999),
        _ => (space::amount(r), space::amount(r)),
    };
    case.rows(T730).row(0)[2] = base;
    case.rows(T730).row(1)[2] = entered;
    let second = case.rows(T730).row(1)[3] as u32;
    case.entries[0][ENTERED_UNIT] = second;
    // dose times base over entered: a multiple of `entered` gives a whole limit.
    let most = 999_999_999;
    let times = r.between(1, (most / entered.max(base)).max(1));
    let dose = if entered * times <= most { entered * times } else { space::dose(r) };
    let exact = dose as u128 * base as u128 / entered as u128;
    let limit = (exact.min(most as u128) as u64).max(1);
    let limit_above = (limit + 1).min(most);
    let choose = |r: &mut Random| r.pick(&[limit, limit, limit_above, limit - 1, 0, most]);
    let (minimum, absolute) = (choose(r), choose(r));
    let maximum = if r.percent(50) { limit } else { choose(r) };
    case.rows(T649).row(0)[1..].copy_from_slice(&[minimum, maximum, absolute]);
    for beside in [dose, dose + 1, dose.saturating_sub(1), most, 1] {
        let beside = beside.clamp(1, most) as u32;
        let mut entry = case.entries[0];
        (entry[LOWEST], entry[HIGHEST]) = (beside, beside);
        case.entries.push(entry);
        (entry[LOWEST], entry[HIGHEST]) = (beside.min(dose as u32), beside.max(dose as u32));
        case.entries.push(entry);
    }
    case
}
