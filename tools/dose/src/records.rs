//! Records of file 070 (BST070T), read one by one by the proved program `record_calls`.

use crate::failure::{Failure, Fault};
use crate::{program, talk};
use std::io::{self, Write};
use std::path::{Path, PathBuf};

/// The number by which a call names the file, and that of a reading.
const FILE: u32 = 70;
const READ: u32 = 0;
/// A call takes a text of at most so many bytes; a record has 64 characters.
const LONGEST_CALL: usize = 4096;
const NOT_64: u32 = 201;
const REFUSALS: std::ops::RangeInclusive<u32> = NOT_64..=204;
const NUMBERS: usize = 6;
/// The mutation digit of a record that is withdrawn.
const WITHDRAWN: u64 = 1;

/// What reading a record gave: its mutation digit and its numbers in the file's order, or the refusal.
pub type Read = Result<(u64, [u64; NUMBERS]), u32>;

/// `dose products`: a file of 070 records, listed.
pub struct Products {
    pub file: PathBuf,
    pub program: Option<PathBuf>,
}

pub fn run(products: &Products) -> Result<(), Failure> {
    let bytes = bytes(&products.file).map_err(|fault| Failure::Refused(vec![fault]))?;
    let records = read(&bytes, products.program.as_deref(), "--program").map_err(Failure::Program)?;
    let mut list = String::new();
    for record in records {
        list += &match record {
            Ok((_, numbers)) => numbers.map(|number| number.to_string()).join(" "),
            Err(refusal) => format!("refused {refusal}"),
        };
        list.push('\n');
    }
    let written = io::stdout().lock().write_all(list.as_bytes());
    written.map_err(|e| Failure::Program(format!("the list cannot be written: {e}")))
}

pub fn bytes(file: &Path) -> Result<Vec<u8>, Fault> {
    let refused = |e| Fault::of_file(&file.display().to_string(), format!("cannot be read: {e}"));
    std::fs::read(file).map_err(refused)
}

/// The cells of table 70: those of all records but the withdrawn, which are counted. A refused record is a fault.
pub fn cells(file: &str, records: Vec<Read>) -> Result<(Vec<u64>, usize), Vec<Fault>> {
    let (mut cells, mut withdrawn, mut faults) = (Vec::new(), 0, Vec::new());
    for (i, record) in records.into_iter().enumerate() {
        match record {
            Ok((WITHDRAWN, _)) => withdrawn += 1,
            Ok((_, numbers)) => cells.extend(numbers),
            Err(refusal) => faults.push(Fault::of_line(file, i + 1, refused(refusal))),
        }
    }
    match faults[..] {
        [] => Ok((cells, withdrawn)),
        _ => Err(faults),
    }
}

fn refused(refusal: u32) -> String {
    let why = match refusal {
        NOT_64 => "it has not 64 characters",
        202 => "a fixed part differs: 0070 in front, or the spaces from 48 on",
        203 => "a digit is expected and absent",
        _ => "the mutation digit is above 3",
    };
    format!("the record is refused with {refusal}: {why}")
}

/// The text before each CR LF is a record, and the rest unless it is empty.
fn texts(bytes: &[u8]) -> Vec<&[u8]> {
    let (mut texts, mut rest) = (Vec::new(), bytes);
    while let Some(end) = rest.windows(2).position(|pair| pair == b"\r\n") {
        texts.push(&rest[..end]);
        rest = &rest[end + 2..];
    }
    texts.extend((!rest.is_empty()).then_some(rest));
    texts
}

/// Each record as the program reads it. One that is too long for a call is not sent: 201.
pub fn read(bytes: &[u8], given: Option<&Path>, option: &'static str) -> Result<Vec<Read>, String> {
    let texts = texts(bytes);
    let sent: Vec<&[u8]> = texts.iter().copied().filter(|text| text.len() <= LONGEST_CALL).collect();
    let program = program::find(&program::record_calls(option), given)?;
    let mut lines = Vec::with_capacity(sent.len());
    let hear = |line: &str| {
        let place = format!("line {} of the program {}", lines.len() + 1, program.display());
        lines.push(heard(line).ok_or(format!("{place}: `{line}` is neither a record nor a refusal"))?);
        Ok(())
    };
    talk::run(&program, |out| send(&sent, out), hear)?;
    if lines.len() != sent.len() {
        let (lines, records) = (lines.len(), sent.len());
        return Err(format!("the program {} wrote {lines} lines for {records} records", program.display()));
    }
    let mut lines = lines.into_iter();
    let line = |text: &[u8]| match text.len() <= LONGEST_CALL {
        true => lines.next().expect("a line for each record that was sent"),
        false => Err(NOT_64),
    };
    Ok(texts.into_iter().map(line).collect())
}

/// A call for each record: file, reading, length, the text.
fn send(texts: &[&[u8]], out: &mut dyn Write) -> io::Result<()> {
    for text in texts {
        for number in [FILE, READ, text.len() as u32] {
            out.write_all(&number.to_le_bytes())?;
        }
        out.write_all(text)?;
    }
    out.flush()
}

/// A line: 0, the mutation digit and the six numbers, or a refusal alone.
fn heard(line: &str) -> Option<Read> {
    let is_number = |word: &str| !word.is_empty() && word.bytes().all(|b| b.is_ascii_digit());
    let number = |word: &str| if is_number(word) { word.parse::<u32>().ok() } else { None };
    let numbers: Vec<u32> = line.split(' ').map(number).collect::<Option<_>>()?;
    match numbers[..] {
        [refusal] => REFUSALS.contains(&refusal).then_some(Err(refusal)),
        [0, mutation, a, b, c, d, e, f] => Some(Ok((mutation.into(), [a, b, c, d, e, f].map(u64::from)))),
        _ => None,
    }
}
