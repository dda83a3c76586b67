//! The cases that the proved programs `answers` and `counts` read: numbers of 32 bits, little-endian, CDHOEV of 64
//! bits. A case is the seven tables' lengths in bytes, the number of entries, the tables, the entries. In `counts` each
//! entry is followed by first, last and the places of its list.

use crate::columns::{Column, Content, ENTRY, TABLES};
use crate::failure::Fault;
use crate::range::MOST_COUNTS;
use crate::sheet::Sheet;
use std::io::{self, Write};

pub const LONGEST_CASE: usize = 4 * 1024 * 1024;
const NUMBER: usize = 4;
const HEAD: usize = (TABLES.len() + 1) * NUMBER;
/// First, last and places.
const AFTER_ENTRY: usize = 3;
/// As many places as a range may have counts, so that the list is never too short (132).
const PLACES: u64 = MOST_COUNTS;

/// The tables' bytes, which each case has.
pub struct Tables {
    folder: String,
    bytes: Vec<Vec<u8>>,
}

impl Tables {
    pub fn new(folder: String, tables: &[Sheet]) -> Tables {
        let bytes = |table: &Sheet| table.rows().flat_map(|row| numbers(table.columns(), row)).collect();
        Tables { folder, bytes: tables.iter().map(bytes).collect() }
    }
}

pub struct Stream<'a> {
    tables: &'a Tables,
    entries: Vec<u8>,
    entry_length: usize,
    per_case: usize,
}

impl Stream<'_> {
    /// The entries with one count, for `answers`.
    pub fn of_answers<'a>(tables: &'a Tables, entries: &Sheet) -> Result<Stream<'a>, Fault> {
        let rows = entries.rows().zip(entries.ranges()).filter(|(_, range)| range.is_none());
        let bytes = rows.flat_map(|(row, _)| numbers(entries.columns(), row)).collect();
        Stream::new(tables, bytes, ENTRY.len() * NUMBER)
    }

    /// The entries with a range, for `counts`.
    pub fn of_counts<'a>(tables: &'a Tables, entries: &Sheet) -> Result<Stream<'a>, Fault> {
        let mut bytes = Vec::new();
        for (row, range) in entries.rows().zip(entries.ranges()) {
            if let Some(range) = range {
                bytes.extend(numbers(entries.columns(), row));
                bytes.extend([range.first, range.last, PLACES].into_iter().flat_map(number));
            }
        }
        Stream::new(tables, bytes, (ENTRY.len() + AFTER_ENTRY) * NUMBER)
    }

    /// The entries over as few cases as hold them. Refused if the tables leave no room for one entry.
    fn new(tables: &Tables, entries: Vec<u8>, entry_length: usize) -> Result<Stream<'_>, Fault> {
        let fixed: usize = HEAD + tables.bytes.iter().map(Vec::len).sum::<usize>();
        let per_case = LONGEST_CASE.saturating_sub(fixed) / entry_length;
        if per_case == 0 {
            return Err(Fault::of_file(&tables.folder, too_long(&tables.bytes, fixed + entry_length)));
        }
        Ok(Stream { tables, entries, entry_length, per_case })
    }

    /// How many entries are sent.
    pub fn len(&self) -> usize {
        self.entries.len() / self.entry_length
    }

    pub fn write(&self, out: &mut dyn Write) -> io::Result<()> {
        for entries in self.entries.chunks(self.per_case * self.entry_length) {
            for table in &self.tables.bytes {
                out.write_all(&word(table.len()))?;
            }
            out.write_all(&word(entries.len() / self.entry_length))?;
            for table in &self.tables.bytes {
                out.write_all(table)?;
            }
            out.write_all(entries)?;
        }
        out.flush()
    }
}

fn word(length: usize) -> [u8; NUMBER] {
    u32::try_from(length).expect("a case is at most 4 MiB").to_le_bytes()
}

fn number(number: u64) -> [u8; NUMBER] {
    (number as u32).to_le_bytes()
}

fn numbers(columns: &[Column], row: &[u64]) -> Vec<u8> {
    let mut bytes = Vec::new();
    for (column, &cell) in columns.iter().zip(row) {
        match column.content {
            Content::Wide => bytes.extend(cell.to_le_bytes()),
            _ => bytes.extend(number(cell)),
        }
    }
    bytes
}

fn too_long(tables: &[Vec<u8>], length: usize) -> String {
    let sizes: Vec<String> =
        TABLES.iter().zip(tables).map(|(table, bytes)| format!("{} {}", table.file, bytes.len())).collect();
    format!(
        "the tables are too long for the program: with the head and one entry they make {length} bytes, and a case \
         has at most {LONGEST_CASE}. Bytes by table: {}",
        sizes.join(", ")
    )
}
