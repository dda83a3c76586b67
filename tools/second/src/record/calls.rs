//! The stream of calls: readings and writings of a record of 730 or of 070, one line for each.

use super::f070::{read::read as read_070, write::write as write_070, Link};
use super::{read::read, write::write, Unit};
use crate::check::push_number;
use crate::stream::BROKEN;

pub const READ: u32 = 0;
pub const WRITE: u32 = 1;
/// Bytes of a text that is read, or of a buffer that is lent.
pub const BYTES_MOST: u32 = 4_096;

#[derive(Clone, Copy, PartialEq, Eq, PartialOrd, Ord, Debug)]
pub enum File {
    F730,
    F070,
}

impl File {
    pub const ALL: [File; 2] = [File::F730, File::F070];

    /// As a call names it.
    pub fn number(self) -> u32 {
        [730, 70][self as usize]
    }
}

/// What a record says.
#[derive(Clone, Copy, PartialEq, Eq, Debug)]
pub enum Record {
    Unit(Unit),
    Link(Link),
}

#[derive(Clone, PartialEq, Eq, Debug)]
pub enum Call {
    Read(File, Vec<u8>),
    Write { record: Record, buffer: Vec<u8>, place: u64 },
}

/// What a stream is damaged by.
#[derive(Clone, Copy, PartialEq, Eq, PartialOrd, Ord, Debug)]
pub enum Damage {
    File,
    What,
    ReadLength,
    WriteLength,
    EndsInNumbers,
    EndsInBytes,
}

/// The whole output for the whole input: a damaged stream keeps the lines of the calls before the damage.
pub fn calls(input: &[u8]) -> Vec<u8> {
    let mut out = vec![];
    let mut rest = input;
    while !rest.is_empty() {
        let Ok(call) = take(&mut rest) else {
            out.extend(BROKEN);
            break;
        };
        line(call, &mut out);
    }
    out
}

/// The next call of the stream, which is not at its end.
pub fn take(rest: &mut &[u8]) -> Result<Call, Damage> {
    let file = file(number(rest)?).ok_or(Damage::File)?;
    match number(rest)? {
        READ => {
            let length = length(rest, Damage::ReadLength)?;
            Ok(Call::Read(file, bytes(rest, length)?))
        }
        WRITE => taken_write(file, rest),
        _ => Err(Damage::What),
    }
}

fn file(number: u32) -> Option<File> {
    File::ALL.into_iter().find(|file| file.number() == number)
}

fn taken_write(file: File, rest: &mut &[u8]) -> Result<Call, Damage> {
    let length = length(rest, Damage::WriteLength)?;
    let place = long(rest)?;
    let record = match file {
        File::F730 => Record::Unit(unit(rest)?),
        File::F070 => Record::Link(link(rest)?),
    };
    Ok(Call::Write { record, buffer: bytes(rest, length)?, place })
}

/// The amount has 64 bits.
fn unit(rest: &mut &[u8]) -> Result<Unit, Damage> {
    Ok(Unit {
        mutation: number(rest)?,
        srtcde: number(rest)?,
        code: number(rest)?,
        cdhoev: long(rest)?,
        cdeenh: number(rest)?,
    })
}

fn link(rest: &mut &[u8]) -> Result<Link, Damage> {
    let mut link = Link { mutation: number(rest)?, ..Link::default() };
    for part in &mut link.numbers {
        *part = number(rest)?;
    }
    Ok(link)
}

fn number(rest: &mut &[u8]) -> Result<u32, Damage> {
    chunk(rest).map(u32::from_le_bytes)
}

fn long(rest: &mut &[u8]) -> Result<u64, Damage> {
    chunk(rest).map(u64::from_le_bytes)
}

fn chunk<const N: usize>(rest: &mut &[u8]) -> Result<[u8; N], Damage> {
    let (chunk, behind) = rest.split_first_chunk().ok_or(Damage::EndsInNumbers)?;
    *rest = behind;
    Ok(*chunk)
}

fn length(rest: &mut &[u8], above: Damage) -> Result<usize, Damage> {
    match number(rest)? {
        length if length > BYTES_MOST => Err(above),
        length => Ok(length as usize),
    }
}

fn bytes(rest: &mut &[u8], length: usize) -> Result<Vec<u8>, Damage> {
    let (bytes, behind) = rest.split_at_checked(length).ok_or(Damage::EndsInBytes)?;
    *rest = behind;
    Ok(bytes.to_vec())
}

fn line(call: Call, out: &mut Vec<u8>) {
    match call {
        Call::Read(file, text) => match read_of(file, &text) {
            Ok(record) => read_line(&record, out),
            Err(refusal) => push_number(out, refusal as u64),
        },
        Call::Write { record, mut buffer, place } => {
            let place = usize::try_from(place).unwrap_or(usize::MAX);
            let written = match record {
                Record::Unit(unit) => write(&unit, &mut buffer, place),
                Record::Link(link) => write_070(&link, &mut buffer, place),
            };
            let refusal = written.err().unwrap_or(0);
            push_number(out, refusal as u64);
            out.push(b' ');
            buffer.iter().for_each(|byte| hexadecimal(*byte, out));
        }
    }
    out.push(b'\n');
}

fn read_of(file: File, text: &[u8]) -> Result<Record, u32> {
    match file {
        File::F730 => read(text).map(Record::Unit),
        File::F070 => read_070(text).map(Record::Link),
    }
}

/// 0, the mutation digit, and the file's numbers in their order.
fn read_line(record: &Record, out: &mut Vec<u8>) {
    let numbers = match record {
        Record::Unit(unit) => {
            vec![unit.mutation as u64, unit.srtcde as u64, unit.code as u64, unit.cdhoev, unit.cdeenh as u64]
        }
        Record::Link(link) => [link.mutation].iter().chain(&link.numbers).map(|number| *number as u64).collect(),
    };
    push_number(out, 0);
    for number in numbers {
        out.push(b' ');
        push_number(out, number);
    }
}

fn hexadecimal(byte: u8, out: &mut Vec<u8>) {
    let digits = b"0123456789abcdef";
    out.push(digits[byte as usize / 16]);
    out.push(digits[byte as usize % 16]);
}
