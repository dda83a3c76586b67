//! The same for ranges of counts (P2): at each place what the edition gives, and the range's own refusals before all.

use super::each::{bad_tables, each, tables, too_long};
use super::{with_edition, EDITIONS};
use crate::generate::case::{Case, Numbers};
use crate::generate::counts::{CountCase, Range};
use crate::generate::proof_ranges;
use crate::generate::proof_table::{changed, with_edition as k_case};
use second::check::entry::*;

/// The proof table with K1 to K15, each for 1, 2 and 3, in an edition.
pub fn k_1_to_3(edition: u32) -> CountCase {
    CountCase { case: k_case(edition), ..proof_ranges::k_1_to_3() }
}

/// P4's examples over it, each for 1 to 4, in an edition.
pub fn quiet_1_to_4(edition: u32) -> CountCase {
    let mut made = proof_ranges::quiet_1_to_4();
    made.case.entries.iter_mut().for_each(|entry| entry[EDITION] = edition);
    made
}

/// Each entry for its own count alone.
fn alone(case: Case) -> CountCase {
    let range = |entry: &Numbers| Range { first: entry[COUNT], last: entry[COUNT], places: 1 };
    CountCase { ranges: case.entries.iter().map(range).collect(), case }
}

/// K1, whose count stands first, last and between others; behind 0, beside 1,000; then 131 and 132.
const RANGES: [[u32; 3]; 8] =
    [[2, 4, 3], [1, 2, 2], [1, 3, 64], [0, 2, 3], [998, 1_001, 4], [3, 2, 64], [1, 17, 64], [1, 3, 2]];
/// Numbers that are no edition.
const NONE_IN_RANGES: [u32; 4] = [0, 3, BLANK, 258];

/// K1 for each of these ranges, in both editions and in none; and in both editions, without a months setting, where the
/// signal is suppressed for 1 and 3 and not for 4.
fn others() -> CountCase {
    let dose = [(WEIGHT, 60_000), (LOWEST, 999), (HIGHEST, 999)];
    let suppressed = changed(&[&[(QUIET, QUIET_ON), (MONTHS, BLANK)][..], &dose].concat());
    let mut made = CountCase { case: tables(), ranges: vec![] };
    let in_editions = |entry: Numbers, editions: &[u32]| editions.iter().map(|e| with_edition(entry, *e)).collect();
    let entries: [Vec<Numbers>; 3] = [
        in_editions(changed(&[]), &EDITIONS),
        in_editions(changed(&[]), &NONE_IN_RANGES),
        in_editions(suppressed, &EDITIONS),
    ];
    for entry in entries.concat() {
        for [first, last, places] in RANGES {
            made.case.entries.push(entry);
            made.ranges.push(Range { first, last, places });
        }
    }
    made
}

/// All that is asked, for its own count; other ranges; tables that are refused, and a category of 513 rows.
pub fn ranges(seed: u64) -> Vec<CountCase> {
    let mut made = vec![alone(each()), others()];
    made.extend(bad_tables().map(alone));
    made.push(alone(too_long(seed)));
    made
}
