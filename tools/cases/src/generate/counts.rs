//! Document 02, P2: cases whose entries have a range of counts and a list for the answers.

use super::case::{push_numbers, Case, Numbers};
use super::{case, light_made, months, LONG_CASES, ROUND};
use crate::random::Random;
use second::check::counts::COUNTS_MOST;
use second::check::entry::{COUNT, COUNT_MOST};
use second::check::Table;
use second::stream::counts::{ENTRY_AND_RANGE, PLACES_MOST};
use second::stream::{numbers, ENTRY};

/// The three numbers behind an entry.
#[derive(Clone, Copy, PartialEq, Eq, Debug)]
pub struct Range {
    pub first: u32,
    pub last: u32,
    pub places: u32,
}

impl Range {
    /// How many counts, 0 where the first is above the last.
    pub fn counts(&self) -> u64 {
        (self.last as u64 + 1).saturating_sub(self.first as u64)
    }
}

/// A case, and a range for each of its entries.
#[derive(Clone)]
pub struct CountCase {
    pub case: Case,
    pub ranges: Vec<Range>,
}

impl CountCase {
    /// The case as it stands in the stream.
    pub fn write(&self, out: &mut Vec<u8>) {
        self.case.write_front(out);
        for (entry, Range { first, last, places }) in self.case.entries.iter().zip(&self.ranges) {
            push_numbers(entry, out);
            push_numbers(&[*first, *last, *places], out);
        }
    }

    pub fn bytes(&self) -> Vec<u8> {
        let mut out = vec![];
        self.write(&mut out);
        out
    }

    /// The case at the front of a stream, if it is whole.
    pub fn take(stream: &mut &[u8]) -> Option<CountCase> {
        let (mut case, entries) = Case::take_front(stream, ENTRY_AND_RANGE)?;
        let entries = entries.chunks_exact(ENTRY_AND_RANGE);
        case.entries = entries.clone().map(numbers).collect();
        let range = |bytes: &[u8]| {
            let [first, last, places] = numbers(&bytes[ENTRY..]);
            Range { first, last, places }
        };
        Some(CountCase { case, ranges: entries.map(range).collect() })
    }
}

/// What the single check is asked for a count of an entry's range: by P3 with months on, where the entry gives no
/// setting.
pub fn at_count(entry: Numbers, count: u32) -> Numbers {
    let mut entry = with_count(entry, count);
    months::say_on(std::slice::from_mut(&mut entry));
    entry
}

pub fn with_count(mut entry: Numbers, count: u32) -> Numbers {
    entry[COUNT] = count;
    entry
}

/// Case `number` of the run, with ranges.
pub fn count_case(seed: u64, number: u64) -> CountCase {
    with_ranges(case(seed, number), seed, number)
}

/// Case `number` as it was made, without long tables, with ranges: what is stored rests on it.
pub fn made_count_case(seed: u64, number: u64) -> CountCase {
    with_ranges(light_made(seed, number), seed, number)
}

/// The ranges have random numbers of their own, so that the cases stay as they are.
fn with_ranges(mut case: Case, seed: u64, number: u64) -> CountCase {
    let r = &mut Random::of_case(seed ^ 0x7261_6e67, number);
    let mut ranges = vec![];
    for place in 0..case.entries.len() {
        let own = case.entries[place][COUNT];
        if LONG_CASES.contains(&(number % ROUND)) {
            // Few entries: each is answered.
            ranges.push(Range { first: own, last: own, places: 1 });
            continue;
        }
        let (first, last) = range(r, &case, own);
        let range = Range { first, last, places: 0 };
        ranges.push(Range { places: places(r, range.counts()), ..range });
        if r.percent(20) {
            // The entry's own count is not looked at.
            let any = r.next() as u32;
            case.entries[place][COUNT] = r.pick(&[0, 1, 2, COUNT_MOST, COUNT_MOST + 1, u32::MAX, any]);
        }
    }
    CountCase { case, ranges }
}

/// The first and the last count: mostly about the entry's own, so that rows are found.
fn range(r: &mut Random, case: &Case, own: u32) -> (u32, u32) {
    match r.below(20) {
        0 => turned(r, own),
        1 => too_many(r, own),
        2 => edges(r, own),
        3 => about_a_row(r, case, own),
        4 => with_length(r, own, COUNTS_MOST as u32),
        5 => {
            let length = r.between(4, COUNTS_MOST) as u32;
            with_length(r, own, length)
        }
        _ => {
            let (before, behind) = (r.pick(&[0, 0, 1, 1, 2]), r.pick(&[0, 0, 1, 1, 2]));
            let least = if r.percent(80) { own.min(1) } else { 0 };
            (own.saturating_sub(before).max(least), own.saturating_add(behind))
        }
    }
}

/// The first above the last: by one, by more.
fn turned(r: &mut Random, own: u32) -> (u32, u32) {
    let any = r.below(1_000) as u32;
    let last = r.pick(&[own, own, 0, any]).min(u32::MAX - 1);
    let by = r.pick(&[1, 1, 2, 15, 16, 17, 255, 65_535, u32::MAX]);
    (last.saturating_add(by), last)
}

/// 17 counts, more, and so many that they are few in 8, 16 or 32 bits.
fn too_many(r: &mut Random, own: u32) -> (u32, u32) {
    let few = r.below(COUNTS_MOST + 1) as u32;
    let first = r.pick(&[0, 1, own]);
    let more = r.pick(&[16, 16, 16, 17, 31, 998, 256 + few, 65_536 + few, 1 << 31, u32::MAX - few, u32::MAX]);
    (first, first.saturating_add(more))
}

/// Few counts about 0, 999, and where a count is cut to 8, 16 or 32 bits or has a sign.
fn edges(r: &mut Random, own: u32) -> (u32, u32) {
    let middle = r.pick(&[0, 0, COUNT_MOST, COUNT_MOST, 256 + own % 256, 65_536 + own % 256, 1 << 31, u32::MAX]);
    let (before, behind) = (r.below(4) as u32, r.below(4) as u32);
    (middle.saturating_sub(before), middle.saturating_add(behind))
}

/// Up to the count of a row of 643, or from it on.
fn about_a_row(r: &mut Random, case: &Case, own: u32) -> (u32, u32) {
    let rows = &case.tables[Table::T643 as usize];
    let count = match rows.count() as u64 {
        0 => own,
        count => rows.cells[r.below(count) as usize * rows.width() + 3] as u32,
    };
    let other = r.below(COUNTS_MOST / 2) as u32;
    match r.percent(50) {
        true => (count.saturating_sub(other), count),
        false => (count, count.saturating_add(other)),
    }
}

/// So many counts, the own one among them, as far as there are numbers.
fn with_length(r: &mut Random, own: u32, length: u32) -> (u32, u32) {
    let first = own.saturating_sub(r.below(length as u64) as u32);
    (first, first.saturating_add(length - 1))
}

/// The places of the list: mostly enough.
fn places(r: &mut Random, counts: u64) -> u32 {
    let any = r.below(PLACES_MOST as u64 + 1);
    let counts = counts.min(COUNTS_MOST + 1);
    let few = r.below(counts.max(1));
    let places = match r.below(10) {
        0..5 => counts,
        5 => counts + 1,
        6 => r.pick(&[16, 17, 63, 64]),
        7 => any,
        8 => counts.saturating_sub(1),
        _ => r.pick(&[0, few, few]),
    };
    places as u32
}

#[cfg(test)]
mod tests {
    use super::*;

    #[test]
    fn a_case_gets_ranges_and_keeps_all_but_its_own_counts() {
        let mut other = 0;
        for number in 0..2_000 {
            let (mut with, case) = (count_case(8, number), case(8, number));
            assert_eq!(with.ranges.len(), case.entries.len());
            for (entry, made) in with.case.entries.iter_mut().zip(&case.entries) {
                other += (entry[COUNT] != made[COUNT]) as u64;
                entry[COUNT] = made[COUNT];
            }
            assert!(with.case.bytes() == case.bytes(), "case {number}");
        }
        assert!(other > 1_000, "{other}");
    }
}
