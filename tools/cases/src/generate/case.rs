//! A case under construction: seven tables of numbers, odd bytes behind them, and entries.

use crate::random::Random;
use second::check::cells::cell;
use second::check::entry::{EDITION, EDITION_2, FIELDS, QUIET};
use second::check::fields::CDHOEV;
use second::check::{Table, TABLES};
use second::stream::{numbers, parts, Header, ENTRY, HEADER};

pub type Numbers = [u32; FIELDS];

/// The fields that entries were made of before P4: quiet is put behind them, and behind it the edition.
pub const MADE_FIELDS: usize = QUIET;
/// What an entry is made from: by P7 those of the proof table, and all that were there before, say edition 2.
pub const NO_ENTRY: Numbers = {
    let mut numbers = [0; FIELDS];
    numbers[EDITION] = EDITION_2;
    numbers
};
/// The tables that cases were made of before P5: table 70 is put behind them.
pub const MADE_TABLES: [Table; 6] = [Table::T640, Table::T641, Table::T642, Table::T643, Table::T649, Table::T730];

#[derive(Clone)]
pub struct Case {
    pub tables: [Rows; TABLES],
    pub entries: Vec<Numbers>,
}

/// The rows of one table, and the bytes behind its last whole row.
#[derive(Clone)]
pub struct Rows {
    pub table: Table,
    pub cells: Vec<u64>,
    pub tail: Vec<u8>,
}

impl Rows {
    pub fn width(&self) -> usize {
        self.table.fields().len()
    }

    pub fn count(&self) -> usize {
        self.cells.len() / self.width()
    }

    pub fn push(&mut self, row: &[u64]) {
        assert_eq!(row.len(), self.width());
        self.cells.extend(row);
    }

    pub fn row(&mut self, place: usize) -> &mut [u64] {
        let width = self.width();
        &mut self.cells[place * width..(place + 1) * width]
    }

    pub fn double(&mut self, place: usize) {
        let row = self.row(place).to_vec();
        self.push(&row);
    }

    /// Keeps the rows that pass.
    pub fn retain(&mut self, keep: impl Fn(&[u64]) -> bool) {
        let width = self.width();
        self.cells = self.cells.chunks_exact(width).filter(|row| keep(row)).flatten().copied().collect();
    }

    pub fn shuffle(&mut self, random: &mut Random) {
        let width = self.width();
        let mut rows: Vec<Vec<u64>> = self.cells.chunks_exact(width).map(|row| row.to_vec()).collect();
        random.shuffle(&mut rows);
        self.cells = rows.concat();
    }

    pub fn length(&self) -> usize {
        self.count() * self.table.row_bytes() + self.tail.len()
    }

    /// As they stand in the stream.
    pub fn write(&self, out: &mut Vec<u8>) {
        for row in self.cells.chunks_exact(self.width()) {
            for (place, cell) in row.iter().enumerate() {
                if self.table == Table::T730 && place == CDHOEV {
                    out.extend(cell.to_le_bytes());
                } else {
                    out.extend((*cell as u32).to_le_bytes());
                }
            }
        }
        out.extend(&self.tail);
    }
}

impl Case {
    pub fn empty() -> Case {
        Case { tables: Table::ALL.map(|table| Rows { table, cells: vec![], tail: vec![] }), entries: vec![] }
    }

    pub fn rows(&mut self, table: Table) -> &mut Rows {
        &mut self.tables[table as usize]
    }

    pub fn push(&mut self, table: Table, row: &[u64]) {
        self.rows(table).push(row);
    }

    pub fn shuffle(&mut self, random: &mut Random) {
        self.tables.iter_mut().for_each(|rows| rows.shuffle(random));
    }

    /// The case as it stands in the stream.
    pub fn write(&self, out: &mut Vec<u8>) {
        self.write_front(out);
        self.entries.iter().for_each(|entry| push_numbers(entry, out));
    }

    /// What stands before the entries.
    pub fn write_front(&self, out: &mut Vec<u8>) {
        for rows in &self.tables {
            out.extend((rows.length() as u32).to_le_bytes());
        }
        out.extend((self.entries.len() as u32).to_le_bytes());
        self.tables.iter().for_each(|rows| rows.write(out));
    }

    pub fn bytes(&self) -> Vec<u8> {
        let mut out = vec![];
        self.write(&mut out);
        out
    }

    /// The case at the front of a stream, if it is whole.
    pub fn take(stream: &mut &[u8]) -> Option<Case> {
        let (mut case, entries) = Case::take_front(stream, ENTRY)?;
        case.entries = entries.chunks_exact(ENTRY).map(numbers).collect();
        Some(case)
    }

    /// The case without its entries, and their bytes, so many for each.
    pub fn take_front<'b>(stream: &mut &'b [u8], entry: usize) -> Option<(Case, &'b [u8])> {
        let header = Header::new(stream.first_chunk::<HEADER>()?);
        let (case, behind) = stream.split_at_checked(header.case(entry) as usize)?;
        *stream = behind;
        let (tables, entries) = parts(&header, &case[HEADER..]);
        let read = |table: Table| {
            let rows = tables[table as usize].chunks_exact(table.row_bytes());
            let tail = rows.remainder().to_vec();
            let cells = rows.flat_map(|row| (0..table.fields().len()).map(|place| cell(table, row, place))).collect();
            Rows { table, cells, tail }
        };
        Some((Case { tables: Table::ALL.map(read), entries: vec![] }, entries))
    }
}

pub fn push_numbers(numbers: &[u32], out: &mut Vec<u8>) {
    numbers.iter().for_each(|number| out.extend(number.to_le_bytes()));
}
