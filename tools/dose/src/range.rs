//! A range of counts, as in "1 to 3 times a day" (document 02, P2).

use std::fmt;
use std::ops::RangeInclusive;

/// A range of over 16 counts is refused with 131.
pub const MOST_COUNTS: u64 = 16;

#[derive(Clone, Copy)]
pub struct Range {
    pub first: u64,
    pub last: u64,
}

impl Range {
    /// Whether the program must refuse the range with 131.
    pub fn is_refused(self) -> bool {
        self.first > self.last || self.last - self.first + 1 > MOST_COUNTS
    }

    /// The counts, rising; those of a range that is not refused have one answer each.
    pub fn counts(self) -> RangeInclusive<u64> {
        self.first..=self.last
    }
}

impl fmt::Display for Range {
    fn fmt(&self, out: &mut fmt::Formatter) -> fmt::Result {
        write!(out, "{}-{}", self.first, self.last)
    }
}
