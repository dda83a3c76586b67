//! The stream of cases: seven table lengths in bytes, the number of entries, the tables, the entries.

pub mod answers;
pub mod counts;

use crate::check::entry::FIELDS;
use crate::check::{Lent, TABLES};
use std::io::{self, Read, Write};

pub const HEADER: usize = 4 * (TABLES + 1);
pub const ENTRY: usize = 4 * FIELDS;
/// The whole case: header, tables and entries.
pub const CASE_MOST: u64 = 4 * 1024 * 1024;
pub const BROKEN: &[u8] = b"broken\n";

/// A program over the stream.
pub struct Program {
    /// Bytes of an entry, and of what follows it.
    pub entry: usize,
    /// The lines of a case's entries; none where the case is broken.
    pub lines: fn(&Lent, &[u8]) -> Option<Vec<u8>>,
}

/// The sizes that a header spells.
pub struct Header {
    pub tables: [u64; TABLES],
    pub entries: u64,
}

impl Header {
    pub fn new(bytes: &[u8; HEADER]) -> Header {
        let [tables @ .., entries] = numbers::<{ TABLES + 1 }>(bytes).map(u64::from);
        Header { tables, entries }
    }

    /// Bytes of the whole case, where an entry has so many.
    pub fn case(&self, entry: usize) -> u64 {
        HEADER as u64 + self.tables.iter().sum::<u64>() + self.entries * entry as u64
    }
}

/// The numbers that bytes begin with.
pub fn numbers<const N: usize>(bytes: &[u8]) -> [u32; N] {
    std::array::from_fn(|n| u32::from_le_bytes([bytes[4 * n], bytes[4 * n + 1], bytes[4 * n + 2], bytes[4 * n + 3]]))
}

/// The bytes behind the header, cut into the tables and the entries.
pub fn parts<'b>(header: &Header, body: &'b [u8]) -> ([&'b [u8]; TABLES], &'b [u8]) {
    let mut rest = body;
    let tables = header.tables.map(|length| {
        let (table, after) = rest.split_at(length as usize);
        rest = after;
        table
    });
    (tables, rest)
}

/// The lines of all cases, or the line `broken` where the stream ends inside a case, or a case is too long, or the
/// program finds it broken.
pub fn run(program: &Program, mut input: impl Read, mut output: impl Write) -> io::Result<()> {
    let mut body = Vec::new();
    loop {
        let mut bytes = [0; HEADER];
        match fill(&mut input, &mut bytes)? {
            0 => return output.flush(),
            HEADER => {}
            _ => break,
        }
        let header = Header::new(&bytes);
        if header.case(program.entry) > CASE_MOST {
            break;
        }
        body.resize(header.case(program.entry) as usize - HEADER, 0);
        if fill(&mut input, &mut body)? < body.len() {
            break;
        }
        let (tables, entries) = parts(&header, &body);
        let Some(lines) = (program.lines)(&Lent::new(tables), entries) else { break };
        output.write_all(&lines)?;
    }
    output.write_all(BROKEN)?;
    output.flush()
}

/// Reads until the room is full or the input ends; the number of bytes read.
fn fill(input: &mut impl Read, room: &mut [u8]) -> io::Result<usize> {
    let mut done = 0;
    while done < room.len() {
        match input.read(&mut room[done..]) {
            Ok(0) => break,
            Ok(read) => done += read,
            Err(error) if error.kind() == io::ErrorKind::Interrupted => {}
            Err(error) => return Err(error),
        }
    }
    Ok(done)
}
