//! Calls of files 730 and 070, and damaged streams of them.

use super::case::push_numbers;
use super::records::{good, number, record};
use crate::random::Random;
use second::record::calls::{Call, File, Record, BYTES_MOST, READ, WRITE};
use second::record::f070::Link;
use second::record::{Unit, RECORD};

/// Calls that are whole, and perhaps a damaged one that ends the stream.
#[derive(Clone)]
pub struct CallCase {
    pub whole: Vec<Call>,
    pub damaged: Option<Vec<u8>>,
}

impl CallCase {
    pub fn bytes(&self) -> Vec<u8> {
        let mut bytes = stream(&self.whole);
        bytes.extend(self.damaged.iter().flatten());
        bytes
    }
}

/// Calls of file 730, with calls of file 070 among them (P5), which have random numbers of their own.
pub fn call_case(seed: u64, number: u64) -> CallCase {
    let mut case = made_call_case(seed, number);
    let r = &mut Random::of_case(seed ^ 0x6630_3730, number);
    for _ in 0..r.between(1, 3) {
        let place = r.below(case.whole.len() as u64 + 1) as usize;
        case.whole.insert(place, call(r, File::F070));
    }
    if r.percent(10) {
        case.whole.push(of_the_other(r));
    }
    if r.percent(20) {
        case.damaged = Some(damaged(r, File::F070));
    }
    case
}

/// A record of the other file is read, or one with the other's number in front.
fn of_the_other(r: &mut Random) -> Call {
    let (file, other) = r.pick(&[(File::F730, File::F070), (File::F070, File::F730)]);
    let (mut text, front) = (good(r, file), good(r, other));
    if r.percent(50) {
        return Call::Read(file, front.to_vec());
    }
    text[..4].copy_from_slice(&front[..4]);
    Call::Read(file, text.to_vec())
}

/// Calls of file 730, as they were made before P5: what is stored rests on them.
pub fn made_call_case(seed: u64, number: u64) -> CallCase {
    of_file(&mut Random::of_case(seed, number), File::F730)
}

/// Calls of file 070 alone.
pub fn call_case_070(seed: u64, number: u64) -> CallCase {
    of_file(&mut Random::of_case(seed, number), File::F070)
}

fn of_file(r: &mut Random, file: File) -> CallCase {
    let whole = (0..r.between(1, 3)).map(|_| call(r, file)).collect();
    let damaged = r.percent(25).then(|| damaged(r, file));
    CallCase { whole, damaged }
}

/// The calls as a stream.
pub fn stream(calls: &[Call]) -> Vec<u8> {
    let mut out = vec![];
    calls.iter().for_each(|call| put(call, &mut out));
    out
}

fn put(call: &Call, out: &mut Vec<u8>) {
    match call {
        Call::Read(file, text) => {
            push_numbers(&[file.number(), READ, text.len() as u32], out);
            out.extend(text);
        }
        Call::Write { record, buffer, place } => {
            push_numbers(&[file_of(record).number(), WRITE, buffer.len() as u32], out);
            out.extend(place.to_le_bytes());
            match record {
                Record::Unit(unit) => {
                    push_numbers(&[unit.mutation, unit.srtcde, unit.code], out);
                    out.extend(unit.cdhoev.to_le_bytes());
                    push_numbers(&[unit.cdeenh], out);
                }
                Record::Link(link) => {
                    push_numbers(&[link.mutation], out);
                    push_numbers(&link.numbers, out);
                }
            }
            out.extend(buffer);
        }
    }
}

/// The file whose record it is.
pub fn file_of(record: &Record) -> File {
    match record {
        Record::Unit(_) => File::F730,
        Record::Link(_) => File::F070,
    }
}

fn call(r: &mut Random, file: File) -> Call {
    match r.percent(45) {
        true => Call::Read(file, text(r, file)),
        false => writing(r, file),
    }
}

/// What is read: a record, good or damaged, or one of another length.
fn text(r: &mut Random, file: File) -> Vec<u8> {
    match r.below(100) {
        0..35 => record(r, file),
        35..60 => one_character(r, file),
        60..80 => good(r, file).to_vec(),
        80..85 => good(r, file)[..RECORD - 1].to_vec(),
        85..90 => [&good(r, file)[..], b" "].concat(),
        90..93 => vec![],
        93..99 => (0..r.below(200)).map(|_| r.next() as u8).collect(),
        _ => good(r, file).repeat(BYTES_MOST as usize / RECORD),
    }
}

/// One character of a good record exchanged: any place, and a character of each class.
fn one_character(r: &mut Random, file: File) -> Vec<u8> {
    let mut record = good(r, file);
    let any = r.next() as u8;
    let place = r.below(RECORD as u64) as usize;
    let high_bit = record[place] | 128;
    record[place] =
        r.pick(&[0, b'\t', b'\r', b'\n', b' ', b'/', b'0', b'9', b':', b'A', b'x', 127, 255, high_bit, any]);
    record.to_vec()
}

fn writing(r: &mut Random, file: File) -> Call {
    let buffer = buffer(r, file);
    let place = place(r, buffer.len() as u64);
    let record = match file {
        File::F730 => Record::Unit(unit(r)),
        File::F070 => Record::Link(link(r)),
    };
    Call::Write { record, buffer, place }
}

/// What the lent buffer holds: any bytes, or a record that is written over.
fn buffer(r: &mut Random, file: File) -> Vec<u8> {
    let any = r.between(RECORD as u64, 200);
    let length = match r.percent(1) {
        true => BYTES_MOST as u64,
        false => r.pick(&[0, 1, 63, 64, 64, 65, 128, 130, 200, any, any]),
    };
    let old = good(r, file);
    match r.percent(80) {
        true => (0..length).map(|_| r.next() as u8).collect(),
        false => old.iter().copied().cycle().take(length as usize).collect(),
    }
}

fn place(r: &mut Random, length: u64) -> u64 {
    let last = length.saturating_sub(RECORD as u64);
    let (fits, below) = (r.below(last + 1), r.below(64));
    match r.below(10) {
        0..5 => r.pick(&[0, last, fits]),
        5 => r.pick(&[1, last + 1, last.saturating_sub(1)]),
        6 => r.pick(&[length.saturating_sub(1), length, length + 1]),
        7 => r.pick(&[length + 64, length + below, 4_096, 4_097]),
        8 => r.pick(&[u64::MAX, u64::MAX - below, u64::MAX - 63, u64::MAX - 64, (u64::MAX - 63).wrapping_add(length)]),
        _ => r.pick(&[1 << 31, 1 << 32, (1 << 32) + fits, 1 << 63, (1 << 63) + fits]),
    }
}

/// Numbers at both ends of each width, together or each by itself, and now and then beyond.
fn unit(r: &mut Random) -> Unit {
    let mutation = r.below(4) as u32;
    match r.below(20) {
        0 => return Unit { mutation, ..Unit::default() },
        1 => return Unit { mutation, srtcde: 999_999, code: 99_999_999, cdhoev: 999_999_999_999, cdeenh: 999_999 },
        _ => {}
    }
    let chance = r.pick(&[0, 0, 0, 20, 20]);
    let mut wide = |most: u64, beyond: &[u64]| match r.percent(chance) {
        true => r.pick(beyond).max(most + 1),
        false => number(r, most),
    };
    let greatest = u32::MAX as u64;
    let six = [1_000_000, 1_000_001, 1 << 24, 1 << 31, greatest];
    let low = (1 << 44) + 4_096;
    Unit {
        mutation: wide(3, &[4, 4, 5, 9, 10, 255, 256, 258, greatest]) as u32,
        srtcde: wide(999_999, &six) as u32,
        code: wide(99_999_999, &[100_000_000, 100_000_001, 1 << 31, greatest]) as u32,
        cdhoev: wide(999_999_999_999, &[1_000_000_000_000, 1_000_000_000_001, low, 1 << 63, u64::MAX - 1, u64::MAX]),
        cdeenh: wide(999_999, &six) as u32,
    }
}

/// The same of file 070.
fn link(r: &mut Random) -> Link {
    let mutation = r.below(4) as u32;
    let greatest = [99_999_999, 99_999_999, 999_999, 99_999_999, 999_999, 999_999];
    match r.below(20) {
        0 => return Link { mutation, ..Link::default() },
        1 => return Link { mutation, numbers: greatest },
        _ => {}
    }
    let chance = r.pick(&[0, 0, 0, 15, 15]);
    let mut wide = |most: u32, beyond: &[u32]| match r.percent(chance) {
        true => r.pick(beyond).max(most + 1),
        false => number(r, most as u64) as u32,
    };
    let eight = [100_000_000, 100_000_001, 1 << 31, u32::MAX];
    let six = [1_000_000, 1_000_001, 1 << 24, 1 << 31, u32::MAX];
    let mutation = wide(3, &[4, 4, 5, 9, 10, 255, 256, 258, u32::MAX]);
    let numbers = greatest.map(|most| wide(most, if most == 999_999 { &six } else { &eight }));
    Link { mutation, numbers }
}

/// Numbers that are no file's: those beside one, and those that are one in 8 or in 16 bits.
const NO_FILES: [u32; 8] = [0, 69, 71, 7, 700, 70 << 8, 70 | 1 << 16, u32::MAX];

/// The front of a call, and behind it what nobody may read: one more call.
fn damaged(r: &mut Random, file: File) -> Vec<u8> {
    let call = call(r, file);
    let mut bytes = stream(&[call]);
    let number = |bytes: &mut Vec<u8>, place: usize, number: u32| {
        bytes[place..place + 4].copy_from_slice(&number.to_le_bytes());
    };
    let any = r.next() as u32 | 8_192;
    match r.below(6) {
        0 if file == File::F070 => number(&mut bytes, 0, r.pick(&NO_FILES)),
        0 => number(&mut bytes, 0, r.pick(&[0, 1, 729, 731, 730 << 8, 730 | 1 << 16, u32::MAX, any])),
        1 => number(&mut bytes, 4, r.pick(&[2, 2, 3, 256, 1 << 16, 1 << 31, u32::MAX, any])),
        2 => number(&mut bytes, 8, r.pick(&[BYTES_MOST + 2, 1 << 13, 1 << 16, 1 << 31, u32::MAX, any])),
        3 => {
            number(&mut bytes, 8, BYTES_MOST + 1);
            bytes.extend(vec![b' '; BYTES_MOST as usize + 1]);
        }
        _ => {
            bytes.truncate(r.between(1, bytes.len() as u64 - 1) as usize);
            return bytes;
        }
    }
    bytes.extend(stream(&[self::call(r, file)]));
    bytes
}
