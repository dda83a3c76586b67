//! The lines that the proved programs owe for the entries. The entries alone say which: so a line too few, too many
//! or of another kind is known as such.

use crate::columns::{EDITION, QUIET};
use crate::edition::Edition;
use crate::links::{Links, Said};
use crate::number::ON;
use crate::range::Range;
use crate::sheet::Sheet;

/// A line of a program, and of what is printed.
pub struct Due {
    /// The entry, by its place in the file.
    pub row: usize,
    /// Whether the entry says quiet on: only then may a signal be suppressed (P4).
    pub is_quiet: bool,
    /// Which texts the entry's host has for a missing frequency (P7).
    pub edition: Edition,
    /// What table 70 says of the entry's HPK (P5).
    pub said: Said,
    pub what: What,
}

pub enum What {
    /// The answer of an entry with one count, by `answers`.
    Answer,
    /// The answer of one count of a range, by `counts`.
    AnswerOf(u64),
    /// 131 for the whole range, by `counts`.
    Refusal(Range),
}

/// In the order of the entries; the counts of a range rise.
pub fn of(entries: &Sheet, links: &Links) -> Vec<Due> {
    let mut due = Vec::with_capacity(entries.len());
    let [quiet, edition] = [QUIET, EDITION].map(|name| entries.place(name));
    for (row, range) in entries.ranges().iter().enumerate() {
        let is_quiet = entries.row(row)[quiet] == ON;
        let edition = Edition::of(entries.row(row)[edition]);
        let one = |what| Due { row, is_quiet, edition, said: links.of(entries, row), what };
        match *range {
            None => due.push(one(What::Answer)),
            Some(range) if range.is_refused() => due.push(one(What::Refusal(range))),
            Some(range) => due.extend(range.counts().map(|count| one(What::AnswerOf(count)))),
        }
    }
    due
}

impl Due {
    /// Whether `counts` owes it, and not `answers`.
    pub fn is_of_range(&self) -> bool {
        !matches!(self.what, What::Answer)
    }
}
