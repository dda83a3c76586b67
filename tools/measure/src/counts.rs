//! A range of 16 counts over the large tables (P2), and the same 16 counts as single checks.

use cases::generate::case::Case;
use cases::generate::counts::{CountCase, Range};
use second::check::counts::COUNTS_MOST;
use second::check::entry::COUNT;

/// The counts from 1 on, as many as a range may have.
const LAST: u32 = COUNTS_MOST as u32;

/// The last entry of the case with its range, for `counts`.
pub fn range(case: Case) -> CountCase {
    CountCase { case: single(case, 1), ranges: vec![Range { first: 1, last: LAST, places: LAST }] }
}

/// The same counts as entries of one case, whose tables are tested once, for `answers`.
pub fn each(case: Case) -> Case {
    let mut one = single(case, 1);
    one.entries = (1..=LAST).map(|count| single(one.clone(), count).entries[0]).collect();
    one
}

/// One of these counts as the only entry of a case, so that the tables are tested for it alone.
pub fn single(mut case: Case, count: u32) -> Case {
    let mut entry = *case.entries.last().expect("a case with entries");
    entry[COUNT] = count;
    case.entries = vec![entry];
    case
}
