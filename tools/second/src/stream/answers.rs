//! The program `answers`: one line for each entry.

use super::{numbers, Program, ENTRY};
use crate::check::{check, Entry, Lent};

pub const ANSWERS: Program = Program { entry: ENTRY, lines };

fn lines(lent: &Lent, entries: &[u8]) -> Option<Vec<u8>> {
    let mut lines = vec![];
    for entry in entries.chunks_exact(ENTRY) {
        check(lent, &Entry::new(numbers(entry))).line(&mut lines);
    }
    Some(lines)
}
