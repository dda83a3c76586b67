//! The program `counts`: each entry is followed by the first count, the last count and the places of the list. One line
//! for each answer, or for a refusal its number.

use super::{numbers, Program, ENTRY};
use crate::check::counts::{check_counts, PLACE};
use crate::check::{push_line, Entry, Lent};

/// Bytes of an entry with its three numbers.
pub const ENTRY_AND_RANGE: usize = ENTRY + 12;
/// A case with a list of more places is broken.
pub const PLACES_MOST: u32 = 64;

pub const COUNTS: Program = Program { entry: ENTRY_AND_RANGE, lines };

struct Asked {
    entry: Entry,
    first: u32,
    last: u32,
    places: u32,
}

impl Asked {
    fn new(bytes: &[u8]) -> Asked {
        let [first, last, places] = numbers(&bytes[ENTRY..]);
        Asked { entry: Entry::new(numbers(bytes)), first, last, places }
    }
}

/// All entries are looked at before the first line: a broken case has no line of its own.
fn lines(lent: &Lent, entries: &[u8]) -> Option<Vec<u8>> {
    let mut lines = vec![];
    for asked in entries.chunks_exact(ENTRY_AND_RANGE).map(Asked::new) {
        if asked.places > PLACES_MOST {
            return None;
        }
        push_lines(lent, &asked, &mut lines);
    }
    Some(lines)
}

/// The answers as the list has them.
fn push_lines(lent: &Lent, asked: &Asked, out: &mut Vec<u8>) {
    let mut list = vec![0; PLACE * asked.places as usize];
    match check_counts(lent, &asked.entry, asked.first, asked.last, &mut list) {
        Ok(answers) => list.chunks_exact(PLACE).take(answers).for_each(|numbers| push_line(numbers, out)),
        Err(refusal) => push_line(&[refusal], out),
    }
}
