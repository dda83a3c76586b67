//! Document 02, P7: editions, and entries that differ in nothing else.

mod each;
mod ranges;

pub use each::{asked, bad_tables, each, too_long, Asked, KEY};
pub use ranges::{k_1_to_3, quiet_1_to_4, ranges};

use super::case::{Case, Numbers};
use crate::random::Random;
use second::check::entry::{BLANK, EDITION, EDITION_1, EDITION_2};

pub const EDITIONS: [u32; 2] = [EDITION_1, EDITION_2];

/// Numbers that are no edition (125): below, above, not given; 1 and 2 in 8 bits, in 16 and without the sign; and the
/// greatest that is given.
pub const NO_EDITIONS: [u32; 10] =
    [0, 3, BLANK, 257, 258, 65_537, 65_538, (1 << 31) + EDITION_1, (1 << 31) + EDITION_2, BLANK - 1];

/// The other edition, of one that is in range.
pub fn other(edition: u32) -> Option<u32> {
    match edition {
        EDITION_1 => Some(EDITION_2),
        EDITION_2 => Some(EDITION_1),
        _ => None,
    }
}

pub fn with_edition(mut entry: Numbers, edition: u32) -> Numbers {
    entry[EDITION] = edition;
    entry
}

/// On top of a case: an edition for each entry. In two fifths of the cases some entries stand behind the others once
/// more, in the other edition.
pub fn add(case: &mut Case, r: &mut Random) {
    for entry in &mut case.entries {
        entry[EDITION] = any(r);
    }
    if case.entries.is_empty() || !r.percent(40) {
        return;
    }
    let there = case.entries.len() as u64;
    for _ in 0..r.between(1, 3) {
        let entry = case.entries[r.below(there) as usize];
        let edition = other(entry[EDITION]).unwrap_or_else(|| r.pick(&EDITIONS));
        case.entries.push(with_edition(entry, edition));
    }
}

/// 1 for half of the entries, 2 for almost all others.
fn any(r: &mut Random) -> u32 {
    match r.below(100) {
        0..49 => EDITION_1,
        49..97 => EDITION_2,
        _ => r.pick(&NO_EDITIONS),
    }
}

/// The entry of a full category, the last, once more in edition 1 and in none.
pub fn over_full(case: &mut Case) {
    let Some(last) = case.entries.last().copied() else { return };
    case.entries.extend([EDITION_1, NO_EDITIONS[0]].map(|edition| with_edition(last, edition)));
}
