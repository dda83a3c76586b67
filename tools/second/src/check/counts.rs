//! Document 02, P2: a range of counts, "1 to 3 times a day", each count checked by itself (001, 3.4.1).

use super::entry::{COUNT, MONTHS, MONTHS_ON};
use super::{check, Entry, Lent, NUMBERS};

/// A range of more counts is refused.
pub const COUNTS_MOST: u64 = 16;
/// A place of the list holds one answer.
pub const PLACE: usize = NUMBERS;

pub const NO_RANGE: u32 = 131;
pub const TOO_SHORT: u32 = 132;

/// Writes one answer for each count, rising, from the front of the list on; what is behind them stays. How many, or the
/// refusal, which stands before all tests of the check and writes nothing.
pub fn check_counts(lent: &Lent, entry: &Entry, first: u32, last: u32, list: &mut [u32]) -> Result<usize, u32> {
    let counts = counts(first, last).ok_or(NO_RANGE)?;
    if list.len() / PLACE < counts {
        return Err(TOO_SHORT);
    }
    let entry = &with_months(entry);
    for (place, count) in list.chunks_exact_mut(PLACE).zip(first..=last) {
        place.copy_from_slice(&check(lent, &with_count(entry, count)).numbers);
    }
    Ok(counts)
}

/// How many counts a range has; none where the first is above the last, or where they are too many.
fn counts(first: u32, last: u32) -> Option<usize> {
    if first > last {
        return None;
    }
    let counts = last as u64 - first as u64 + 1;
    (counts <= COUNTS_MOST).then_some(counts as usize)
}

/// P3: a range says on where its entry gives no months setting. Quiet is handed on as it is given.
fn with_months(entry: &Entry) -> Entry {
    let mut numbers = entry.numbers;
    if entry.months.is_none() {
        numbers[MONTHS] = MONTHS_ON;
    }
    Entry::new(numbers)
}

/// The entry's own count is not looked at.
fn with_count(entry: &Entry, count: u32) -> Entry {
    let mut numbers = entry.numbers;
    numbers[COUNT] = count;
    Entry::new(numbers)
}
