//! Smaller cases of ranges.

use super::{count, Piece};
use crate::generate::counts::{count_case, CountCase, Range};
use crate::run::show;
use second::stream::counts::{COUNTS, PLACES_MOST};
use second::stream::run;

impl Piece for CountCase {
    const OF: &'static str = "counts";
    const NAME: &'static str = "cases of ranges";

    fn of_run(seed: u64, number: u64) -> CountCase {
        count_case(seed, number)
    }

    /// No case of it is broken.
    fn read(input: &[u8]) -> Option<Vec<CountCase>> {
        let (mut cases, mut rest) = (vec![], input);
        while !rest.is_empty() {
            let case = CountCase::take(&mut rest)?;
            if case.ranges.iter().any(|range| range.places > PLACES_MOST) {
                return None;
            }
            cases.push(case);
        }
        Some(cases)
    }

    fn joined(cases: &[CountCase]) -> Vec<u8> {
        let mut bytes = vec![];
        cases.iter().for_each(|case| case.write(&mut bytes));
        bytes
    }

    fn lines(cases: &[CountCase]) -> Vec<Vec<u8>> {
        cases.iter().map(lines).collect()
    }

    fn smaller(&self) -> Box<dyn Iterator<Item = CountCase> + '_> {
        let alone = (0..self.ranges.len()).filter(|_| self.ranges.len() > 1).map(|place| self.alone(place));
        let cases = self.case.with_these_entries();
        let cases = cases.map(|case| CountCase { case, ranges: self.ranges.clone() });
        Box::new(alone.chain(with_smaller_ranges(self)).chain(cases))
    }

    fn end_matters(&self) -> bool {
        false
    }

    fn shown(&self, second: &str, program: &str) -> String {
        let mut shown = show::tables(&self.case);
        let (second, program): (Vec<&str>, Vec<&str>) = (second.lines().collect(), program.lines().collect());
        let mut place = 0;
        for at in 0..self.ranges.len() {
            let behind = place + count(&lines(&self.alone(at)));
            let of = |lines: &[&str]| match lines.get(place..lines.len().min(behind)) {
                None | Some([]) => "(no line)".to_string(),
                Some(lines) => lines.join("\n         "),
            };
            if of(&second) != of(&program) {
                shown += &format!("entry:   {}\n", show::entry(&self.case.entries[at]));
                let Range { first, last, places } = self.ranges[at];
                shown += &format!("range:   counts {first} to {last}, places {places}\n");
                shown += &format!("second:  {}\nprogram: {}\n", of(&second), of(&program));
            }
            place = behind;
        }
        if second.len() != program.len() {
            shown += &format!("lines:   second {}, program {}\n", second.len(), program.len());
        }
        shown
    }
}

impl CountCase {
    /// The case with one of its entries.
    fn alone(&self, place: usize) -> CountCase {
        let mut case = self.case.clone();
        case.entries = vec![self.case.entries[place]];
        CountCase { case, ranges: vec![self.ranges[place]] }
    }
}

/// What the second program writes for a case.
fn lines(case: &CountCase) -> Vec<u8> {
    let mut lines = vec![];
    run(&COUNTS, &case.bytes()[..], &mut lines).expect("a slice is read and a vector written");
    lines
}

fn with_smaller_ranges(case: &CountCase) -> impl Iterator<Item = CountCase> + '_ {
    (0..case.ranges.len()).flat_map(move |place| {
        smaller_ranges(case.ranges[place]).map(move |range| {
            let mut case = case.clone();
            case.ranges[place] = range;
            case
        })
    })
}

/// Lower counts; fewer counts, with as many places or with fewer; fewer places. Great steps first: a range may have 2^32
/// counts.
fn smaller_ranges(range: Range) -> impl Iterator<Item = Range> {
    let Range { first, last, places } = range;
    let bounds = [(first, first), (last, last), (first, last.saturating_sub(1)), (first.saturating_add(1), last)];
    let with_list = bounds.map(|(first, last)| {
        let fewer = Range { first, last, places };
        let gone = range.counts().saturating_sub(fewer.counts()).min(places as u64);
        Range { places: places - gone as u32, ..fewer }
    });
    let lower =
        [0, 1, 2, first / 1_000, first / 10].map(|lower| (lower, lower.saturating_add(last.wrapping_sub(first))));
    let ends = [0, 1, last / 1_000, last / 10].map(|last| (first, last));
    let starts = [0, 1, first / 1_000, first / 10].map(|first| (first, last));
    let of_places = move |(first, last): (u32, u32)| Range { first, last, places };
    let great = lower.into_iter().chain(ends).chain(starts).map(of_places);
    let small = with_list.into_iter().chain(bounds.map(of_places));
    let lists = [0, 1, range.counts().min(places as u64) as u32, places / 2, places.saturating_sub(1)];
    let all = great.chain(small).chain(lists.map(|places| Range { places, ..range }));
    all.filter(move |smaller| weight_of_range(smaller) < weight_of_range(&range))
}

fn weight_of_range(range: &Range) -> u64 {
    3 * range.first.abs_diff(range.last) as u64 + range.first as u64 + range.last as u64 + range.places as u64
}

/// Of the case, then of its ranges: no step makes one of them greater.
#[cfg(test)]
pub fn weight(case: &CountCase) -> (usize, u64) {
    (super::case::weight(&case.case), case.ranges.iter().map(weight_of_range).sum())
}
