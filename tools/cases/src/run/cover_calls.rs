//! How often each outcome of a call of file 730 and of file 070 occurred, and each damage of a stream.

use crate::generate::calls::{file_of, CallCase};
use second::record::calls::{take, Call, Damage, File, Record, BYTES_MOST};
use second::record::*;
use std::collections::BTreeMap;
use std::ops::Range;

/// The fixed parts of a record.
fn fixed(file: File) -> &'static [(usize, &'static [u8])] {
    match file {
        File::F730 => &[(0, FILE), (KIND_AT, KIND_THESAURUS), (UNIT_AT, UNIT_THESAURUS), (SPACES_AT, SPACES)],
        File::F070 => &[(0, f070::FILE), (f070::SPACES_AT, f070::SPACES)],
    }
}

/// The places where the digits of its numbers stand, behind the mutation digit.
fn digits(file: File) -> Vec<Range<usize>> {
    let parts = match file {
        File::F730 => {
            vec![(SRTCDE_AT, SRTCDE_WIDTH), (CODE_AT, CODE_WIDTH), (CDHOEV_AT, CDHOEV_WIDTH), (CDEENH_AT, CDEENH_WIDTH)]
        }
        File::F070 => f070::PARTS.map(|(_, place, width)| (place, width)).to_vec(),
    };
    parts.into_iter().map(|(place, width)| place..place + width).collect()
}

/// Where the place of a writing lies.
#[derive(Clone, Copy, PartialEq, Eq, PartialOrd, Ord, Debug)]
pub enum Place {
    /// The record fills the buffer.
    Whole,
    First,
    Inside,
    Last,
    /// Room for 63 characters.
    OneShort,
    Short,
    AtEnd,
    Past,
    /// 2^32 or more.
    Far,
    /// 64 more is past 2^64.
    Wraps,
    EmptyBuffer,
}

/// What is counted.
#[derive(Clone, Copy, PartialEq, Eq, PartialOrd, Ord, Debug)]
pub enum Seen {
    /// The mutation digit.
    Read(u32),
    /// 201: the length: 0, 63, 65, 4,096, another below 64, another above it
    Length(usize),
    /// 202: one fixed part alone
    Fixed(usize),
    /// 202: a record of the other file, or one that has the other's number in front
    OtherFile,
    OtherNumber,
    /// 203: the digits of one number alone, 0 the mutation digit
    Digit(usize),
    /// 204: the digit
    Mutation(u32),
    /// 202 before 203, 202 before 204, 203 before 204
    ReadOrder(u32, u32),
    Written(Place),
    /// The mutation digit, and whether all numbers are 0, or all the greatest.
    WrittenNumbers(u32, Ends),
    /// 205: one number alone, 0 the mutation digit, and whether by one
    Wide(usize, bool),
    /// 205 before 206
    WideWithoutRoom,
    NoRoom(Place),
    Damaged(Damage),
    Whole,
}

#[derive(Clone, Copy, PartialEq, Eq, PartialOrd, Ord, Debug)]
pub enum Ends {
    Lowest,
    Between,
    Greatest,
}

/// By the file of the call; without one where none is named, or where a stream is whole.
pub type OfFile = (Option<File>, Seen);

#[derive(Default)]
pub struct Coverage {
    pub counts: BTreeMap<OfFile, u64>,
}

impl Coverage {
    pub fn add(&mut self, case: &CallCase) {
        let bytes = case.bytes();
        let mut rest = &bytes[..];
        while !rest.is_empty() {
            let named = named(rest);
            match take(&mut rest) {
                Ok(call) => self.count(named, &seen(&call)),
                Err(damage) => return self.count(named, &[Seen::Damaged(damage)]),
            }
        }
        self.count(None, &[Seen::Whole]);
    }

    fn count(&mut self, file: Option<File>, all: &[Seen]) {
        all.iter().for_each(|seen| *self.counts.entry((file, *seen)).or_default() += 1);
    }

    /// What can occur and did not.
    pub fn missing(&self) -> Vec<OfFile> {
        required().into_iter().filter(|seen| !self.counts.contains_key(seen)).collect()
    }

    pub fn print(&self) {
        for seen in required() {
            let of = seen.0.map_or(String::new(), |file| format!(" of {}", file.number()));
            println!("{:>9}  calls{of}: {:?}", self.counts.get(&seen).unwrap_or(&0), seen.1);
        }
    }
}

/// The file that the call at the front of a stream names.
fn named(stream: &[u8]) -> Option<File> {
    let number = u32::from_le_bytes(*stream.first_chunk()?);
    File::ALL.into_iter().find(|file| file.number() == number)
}

fn seen(call: &Call) -> Vec<Seen> {
    match call {
        Call::Read(file, text) => seen_read(*file, text),
        Call::Write { record, buffer, place } => seen_write(record, buffer.len() as u64, *place),
    }
}

fn seen_read(file: File, text: &[u8]) -> Vec<Seen> {
    if text.len() != RECORD {
        let length = match text.len() {
            length @ (0 | 63 | 65) => length,
            length if length == BYTES_MOST as usize => length,
            length => length.clamp(62, 66),
        };
        return vec![Seen::Length(length)];
    }
    let (bad_fixed, bad_digits) = faults(file, text);
    let other = File::ALL[1 - file as usize];
    let mutation = text[MUTATION_AT].wrapping_sub(b'0') as u32;
    let above = (4..10).contains(&mutation);
    match (&bad_fixed[..], &bad_digits[..], above) {
        ([], [], false) => vec![Seen::Read(mutation)],
        ([], [], true) => vec![Seen::Mutation(mutation)],
        ([], [part], false) => vec![Seen::Digit(*part)],
        ([], _, true) => vec![Seen::ReadOrder(203, 204)],
        (_, _, false) if faults(other, text) == (vec![], vec![]) => vec![Seen::OtherFile],
        ([0], [], false) if text.starts_with(fixed(other)[0].1) => vec![Seen::OtherNumber],
        ([part], [], false) => vec![Seen::Fixed(*part)],
        ([_, ..], [], true) => vec![Seen::ReadOrder(202, 204)],
        ([_, ..], [_, ..], _) => vec![Seen::ReadOrder(202, 203)],
        _ => vec![],
    }
}

/// The fixed parts of a record that differ, and its numbers that have no digit at some place, 0 the mutation digit.
fn faults(file: File, text: &[u8]) -> (Vec<usize>, Vec<usize>) {
    let places = |bad: Vec<bool>| (0..bad.len()).filter(|place| bad[*place]).collect();
    let fixed = fixed(file).iter().map(|(place, part)| !text[*place..].starts_with(part));
    let mut numbers = digits(file);
    numbers.insert(0, MUTATION_AT..MUTATION_AT + 1);
    let digits = numbers.into_iter().map(|part| !text[part].iter().all(u8::is_ascii_digit));
    (places(fixed.collect()), places(digits.collect()))
}

/// The mutation digit and the other numbers, each of these with the first that is too wide for it.
fn numbers_of(record: &Record) -> (u32, Vec<(u64, u64)>) {
    let (mutation, numbers) = match record {
        Record::Unit(unit) => {
            (unit.mutation, vec![unit.srtcde as u64, unit.code as u64, unit.cdhoev, unit.cdeenh as u64])
        }
        Record::Link(link) => (link.mutation, link.numbers.map(u64::from).to_vec()),
    };
    let widths = digits(file_of(record)).into_iter().map(|part| 10u64.pow(part.len() as u32));
    (mutation, numbers.into_iter().zip(widths).collect())
}

fn seen_write(record: &Record, length: u64, place: u64) -> Vec<Seen> {
    let (mutation, numbers) = numbers_of(record);
    let beyond = |part: usize| numbers[part].0.checked_sub(numbers[part].1);
    let wide = (0..numbers.len()).filter_map(|part| Some(Seen::Wide(part + 1, beyond(part)? == 0)));
    let mut wide: Vec<Seen> = wide.collect();
    if mutation > MUTATION_MOST {
        wide.push(Seen::Wide(0, mutation == MUTATION_MOST + 1));
    }
    let place = place_of(length, place);
    let fits = place <= Place::Last;
    if !wide.is_empty() {
        wide.truncate(if wide.len() == 1 { 1 } else { 0 });
        wide.extend((!fits).then_some(Seen::WideWithoutRoom));
        return wide;
    }
    if !fits {
        return vec![Seen::NoRoom(place)];
    }
    let ends = match () {
        _ if numbers.iter().all(|(number, _)| *number == 0) => Ends::Lowest,
        _ if numbers.iter().all(|(number, wide)| number + 1 == *wide) => Ends::Greatest,
        _ => Ends::Between,
    };
    vec![Seen::Written(place), Seen::WrittenNumbers(mutation, ends)]
}

fn place_of(length: u64, place: u64) -> Place {
    let record = RECORD as u64;
    match () {
        _ if place.checked_add(record).is_none() => Place::Wraps,
        _ if place > u32::MAX as u64 => Place::Far,
        _ if length == 0 => Place::EmptyBuffer,
        _ if place > length => Place::Past,
        _ if place == length => Place::AtEnd,
        _ if place + record - 1 == length => Place::OneShort,
        _ if place + record > length => Place::Short,
        _ if length == record => Place::Whole,
        _ if place == 0 => Place::First,
        _ if place + record == length => Place::Last,
        _ => Place::Inside,
    }
}

/// All that can occur.
pub fn required() -> Vec<OfFile> {
    let mut all = vec![];
    for file in File::ALL {
        all.extend(required_of(file).into_iter().map(|seen| (Some(file), seen)));
    }
    all.extend([Damage::File, Damage::EndsInNumbers].map(|damage| (None, Seen::Damaged(damage))));
    all.push((None, Seen::Whole));
    all
}

fn required_of(file: File) -> Vec<Seen> {
    let numbers = digits(file).len();
    let mut all: Vec<Seen> = (0..=MUTATION_MOST).map(Seen::Read).collect();
    all.extend([0, 62, 63, 65, 66, BYTES_MOST as usize].map(Seen::Length));
    all.extend((0..fixed(file).len()).map(Seen::Fixed));
    all.extend([Seen::OtherFile, Seen::OtherNumber]);
    all.extend((0..=numbers).map(Seen::Digit));
    all.extend((4..10).map(Seen::Mutation));
    all.extend([(202, 203), (202, 204), (203, 204)].map(|(first, second)| Seen::ReadOrder(first, second)));
    use Place::*;
    all.extend([Whole, First, Inside, Last].map(Seen::Written));
    for mutation in 0..=MUTATION_MOST {
        all.extend([Ends::Lowest, Ends::Between, Ends::Greatest].map(|ends| Seen::WrittenNumbers(mutation, ends)));
    }
    all.extend((0..=numbers).flat_map(|part| [true, false].map(|by_one| Seen::Wide(part, by_one))));
    all.push(Seen::WideWithoutRoom);
    all.extend([OneShort, Short, AtEnd, Past, Far, Wraps, EmptyBuffer].map(Seen::NoRoom));
    use Damage::*;
    all.extend([What, ReadLength, WriteLength, EndsInNumbers, EndsInBytes].map(Seen::Damaged));
    all
}
