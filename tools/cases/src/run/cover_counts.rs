//! How often each outcome of a range of counts occurred (document 02, P2).

use super::answers_of;
use super::cover::tests;
use super::edition::{self, editions, Edition};
use super::exchange::{self, exchange, Came, Exchange};
use crate::generate::case::{Case, Numbers};
use crate::generate::counts::{at_count, CountCase, Range};
use crate::generate::months::{Setting, MONTH_TWINS};
use second::check::counts::{COUNTS_MOST, NO_RANGE, TOO_SHORT};
use second::check::entry::{COUNT, COUNT_MOST, EDITION};
use second::check::{Answer, Code, Filling, Test};
use second::stream::counts::PLACES_MOST;
use std::collections::BTreeMap;

/// By how much a number is missed.
#[derive(Clone, Copy, PartialEq, Eq, PartialOrd, Ord, Debug)]
pub enum By {
    One,
    More,
}

/// How many counts there are, if over 16.
#[derive(Clone, Copy, PartialEq, Eq, PartialOrd, Ord, Debug)]
pub enum Many {
    Seventeen,
    More,
    /// 0 to 16 of them in 8 bits, in 16 and in 32.
    FewIn8Bits,
    FewIn16Bits,
    NoneIn32Bits,
}

/// The list to a range that is answered.
#[derive(Clone, Copy, PartialEq, Eq, PartialOrd, Ord, Debug)]
pub enum Room {
    Exact,
    OneMore,
    More,
    Greatest,
}

/// The entry's own count to a range that is answered.
#[derive(Clone, Copy, PartialEq, Eq, PartialOrd, Ord, Debug)]
pub enum Own {
    First,
    Among,
    Last,
    Beside,
    OutOfRange,
}

/// What is counted.
#[derive(Clone, Copy, PartialEq, Eq, PartialOrd, Ord, Debug)]
pub enum Seen {
    /// 131: the first count above the last
    Turned(By),
    /// 131: over 16 counts
    TooMany(Many),
    /// 132: no places
    NoPlaces,
    /// 132: some places, and too few
    TooShort(By),
    /// 131 where the list is too short for a range, 131 or 132 where the check would give this number
    Before(u32, u32),
    /// A range of so many counts, answered.
    Counts(u64),
    Room(Room),
    Own(Own),
    /// 125 for a count of 0 at the first place, or above 999 from some place on, beside counts that are in range
    ZeroAmong,
    AboveAmong,
    /// So many different answers at the places of one range; 4 is four or more.
    Different(usize),
    /// 100 at the first place, between others, at the last.
    Compared(Own),
    /// At a place.
    Test(Test),
    /// A signal suppressed at the first place, between others, at the last.
    Suppressed(Own),
    /// What came of the HPK, at a place.
    Filling(Filling),
    /// At a place.
    Edition(Edition),
    /// 131 or 132 where the check would give 125 for the edition.
    BeforeEdition(u32),
    /// Rows of the unit beside the entered one, at a place, by the months setting.
    Exchange(Exchange),
    /// Months not given, and a twin that needs them on at the first place, between others, at the last.
    MonthTwin(Own),
}

/// What months not given means in a range (P3).
const MONTHS_NOT_GIVEN: Setting = Setting::On;

#[derive(Default)]
pub struct Coverage {
    pub counts: BTreeMap<Seen, u64>,
    pub cases: u64,
    pub ranges: u64,
}

impl Coverage {
    pub fn add(&mut self, case: &CountCase) {
        self.cases += 1;
        for (place, entry) in case.case.entries.iter().enumerate() {
            self.ranges += 1;
            for seen in seen(&case.case, entry, &case.ranges[place]) {
                *self.counts.entry(seen).or_default() += 1;
            }
        }
    }

    /// What can occur and did not.
    pub fn missing(&self) -> Vec<Seen> {
        required().into_iter().filter(|seen| !self.counts.contains_key(seen)).collect()
    }

    pub fn print(&self) {
        println!("{} cases, {} ranges", self.cases, self.ranges);
        for seen in required() {
            println!("{:>9}  {seen:?}", self.counts.get(&seen).unwrap_or(&0));
        }
    }
}

fn seen(case: &Case, entry: &Numbers, range: &Range) -> Vec<Seen> {
    let counts = range.counts();
    match () {
        _ if counts == 0 => refused(NO_RANGE, Seen::Turned(by((range.first - range.last) as u64)), case, entry, range),
        _ if counts > COUNTS_MOST => refused(NO_RANGE, Seen::TooMany(many(counts)), case, entry, range),
        _ if range.places == 0 => refused(TOO_SHORT, Seen::NoPlaces, case, entry, range),
        _ if (range.places as u64) < counts => {
            refused(TOO_SHORT, Seen::TooShort(by(counts - range.places as u64)), case, entry, range)
        }
        _ => answered(case, entry, range),
    }
}

fn by(number: u64) -> By {
    match number {
        1 => By::One,
        _ => By::More,
    }
}

fn many(counts: u64) -> Many {
    match counts {
        17 => Many::Seventeen,
        _ if counts as u32 == 0 => Many::NoneIn32Bits,
        _ if counts as u16 as u64 <= COUNTS_MOST => Many::FewIn16Bits,
        _ if counts as u8 as u64 <= COUNTS_MOST => Many::FewIn8Bits,
        _ => Many::More,
    }
}

/// The entries with these counts, over the tables of the case.
fn with_counts(case: &Case, entry: &Numbers, counts: impl Iterator<Item = u32>) -> Case {
    Case { tables: case.tables.clone(), entries: counts.map(|count| at_count(*entry, count)).collect() }
}

/// What the check would give for a count that is in range, where it belongs to step 1.
fn refused(number: u32, seen: Seen, case: &Case, entry: &Numbers, range: &Range) -> Vec<Seen> {
    let mut all = vec![seen];
    if number == NO_RANGE && (range.places as u64) < range.counts() {
        all.push(Seen::Before(NO_RANGE, TOO_SHORT));
    }
    let Answer { numbers: [answer, ..], test, .. } = answers_of(&with_counts(case, entry, [1].into_iter()))[0];
    all.extend((answer == 121 || answer == 122 || answer == 125).then_some(Seen::Before(number, answer)));
    let by_edition = matches!(test, Test::Entry(place, _) if place as usize == EDITION);
    all.extend(by_edition.then_some(Seen::BeforeEdition(number)));
    all
}

fn answered(case: &Case, entry: &Numbers, range: &Range) -> Vec<Seen> {
    let Range { first, last, places } = *range;
    let single = with_counts(case, entry, first..=last);
    let answers = answers_of(&single);
    let mut all: Vec<Seen> = vec![Seen::Counts(range.counts()), Seen::Own(own(entry[COUNT], range))];
    all.push(Seen::Room(match places as u64 - range.counts() {
        0 => Room::Exact,
        1 => Room::OneMore,
        _ if places == PLACES_MOST => Room::Greatest,
        _ => Room::More,
    }));
    all.extend(answers.iter().map(|answer| Seen::Test(answer.test)));
    all.extend(answers.iter().filter_map(|answer| answer.filled).map(|filled| Seen::Filling(filled.filling)));
    let in_range = |count: u32| (1..=COUNT_MOST).contains(&count);
    let others_in_range = answers.iter().any(|answer| answer.numbers[0] != 125);
    all.extend((first == 0 && others_in_range).then_some(Seen::ZeroAmong));
    all.extend((!in_range(last) && last > 0 && others_in_range).then_some(Seen::AboveAmong));
    let mut different: Vec<_> = answers.iter().map(|answer| answer.numbers).collect();
    different.sort();
    different.dedup();
    all.push(Seen::Different(different.len().min(4)));
    let compared = answers.iter().zip(first..).filter(|(answer, _)| answer.numbers[0] == 100 && different.len() > 1);
    all.extend(compared.map(|(_, count)| Seen::Compared(own(count, range))));
    let suppressed = answers.iter().zip(first..).filter(|(answer, _)| answer.test == Test::Suppressed && first < last);
    all.extend(suppressed.map(|(_, count)| Seen::Suppressed(own(count, range))));
    let editions = answers.iter().zip(&single.entries).flat_map(|(answer, entry)| editions(&single, answer, entry));
    all.extend(editions.map(Seen::Edition));
    all.extend(Setting::of(entry).into_iter().flat_map(|setting| exchanges(&single, &answers, setting, range)));
    all
}

/// At the places of a range whose entry has this setting.
fn exchanges(single: &Case, answers: &[Answer], setting: Setting, range: &Range) -> Vec<Seen> {
    let mut all = vec![];
    for (answer, entry) in answers.iter().zip(&single.entries) {
        let Some(seen) = exchange(single, answer, entry, setting) else { continue };
        all.push(Seen::Exchange(seen));
        let by_months = setting == Setting::NotGiven && MONTH_TWINS.contains(&seen.unit) && seen.came == Came::Twin;
        all.extend((by_months && range.counts() > 1).then_some(Seen::MonthTwin(own(entry[COUNT], range))));
    }
    all
}

fn own(count: u32, range: &Range) -> Own {
    match count {
        0 => Own::OutOfRange,
        _ if count > COUNT_MOST => Own::OutOfRange,
        _ if count == range.first => Own::First,
        _ if count == range.last => Own::Last,
        _ if (range.first..range.last).contains(&count) => Own::Among,
        _ => Own::Beside,
    }
}

/// All that can occur.
pub fn required() -> Vec<Seen> {
    let mut all: Vec<Seen> = [By::One, By::More].map(Seen::Turned).to_vec();
    use Many::*;
    all.extend([Seventeen, Many::More, FewIn8Bits, FewIn16Bits, NoneIn32Bits].map(Seen::TooMany));
    all.push(Seen::NoPlaces);
    all.extend([By::One, By::More].map(Seen::TooShort));
    all.push(Seen::Before(NO_RANGE, TOO_SHORT));
    all.extend(
        [NO_RANGE, TOO_SHORT].into_iter().flat_map(|refusal| [125, 121, 122].map(|of| Seen::Before(refusal, of))),
    );
    all.extend((1..=COUNTS_MOST).map(Seen::Counts));
    all.extend([Room::Exact, Room::OneMore, Room::More, Room::Greatest].map(Seen::Room));
    all.extend([Own::First, Own::Among, Own::Last, Own::Beside, Own::OutOfRange].map(Seen::Own));
    all.extend([Seen::ZeroAmong, Seen::AboveAmong]);
    all.extend([1, 2, 3, 4].map(Seen::Different));
    all.extend([Own::First, Own::Among, Own::Last].map(Seen::Compared));
    all.extend([Own::First, Own::Among, Own::Last].map(Seen::Suppressed));
    all.extend(tests().into_iter().map(Seen::Test));
    all.extend([Filling::HpkBlank, Filling::NoRow, Filling::Nothing].map(Seen::Filling));
    all.extend([Code::Prk, Code::Gpk, Code::Both].map(|code| Seen::Filling(Filling::Some(code))));
    all.extend(edition::required().into_iter().filter(Edition::is_of_one_entry).map(Seen::Edition));
    all.extend([NO_RANGE, TOO_SHORT].map(Seen::BeforeEdition));
    all.extend(exchange::required(MONTHS_NOT_GIVEN).into_iter().map(Seen::Exchange));
    all.extend([Own::First, Own::Among, Own::Last].map(Seen::MonthTwin));
    all
}
