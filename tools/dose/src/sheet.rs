//! A CSV file read against its columns: all of it, or every fault in it.

use crate::columns::{Column, NAME};
use crate::failure::Fault;
use crate::number::{Value, BLANK};
use crate::range::Range;
use crate::{csv, header, number};
use std::borrow::Cow;
use std::path::Path;

pub struct Sheet {
    columns: &'static [Column],
    /// The cells of all rows, one row after the other.
    numbers: Vec<u64>,
    /// For each row its name, or its line where the file has no names.
    labels: Vec<String>,
    /// For each row its range of counts, if it has one.
    ranges: Vec<Option<Range>>,
    pub is_named: bool,
}

impl Sheet {
    /// Of cells that do not stand in a CSV file; the rows are called by their numbers.
    pub fn of_cells(columns: &'static [Column], numbers: Vec<u64>) -> Sheet {
        let rows = numbers.len() / columns.len();
        let labels = (1..=rows).map(|row| row.to_string()).collect();
        Sheet { columns, numbers, labels, ranges: vec![None; rows], is_named: false }
    }

    pub fn len(&self) -> usize {
        self.labels.len()
    }

    pub fn rows(&self) -> impl Iterator<Item = &[u64]> {
        self.numbers.chunks_exact(self.columns.len())
    }

    pub fn row(&self, row: usize) -> &[u64] {
        &self.numbers[row * self.columns.len()..][..self.columns.len()]
    }

    pub fn columns(&self) -> &'static [Column] {
        self.columns
    }

    pub fn label(&self, row: usize) -> &str {
        &self.labels[row]
    }

    pub fn ranges(&self) -> &[Option<Range>] {
        &self.ranges
    }

    pub fn has_ranges(&self) -> bool {
        self.ranges.iter().any(Option::is_some)
    }

    /// The place of a field in a row.
    pub fn place(&self, name: &str) -> usize {
        self.columns.iter().position(|column| column.name == name).expect("a field of this file")
    }

    /// Puts the number into the field of every row where it is blank.
    pub fn fill(&mut self, name: &str, number: u64) {
        let place = self.place(name);
        for row in self.numbers.chunks_exact_mut(self.columns.len()) {
            if row[place] == BLANK {
                row[place] = number;
            }
        }
    }
}

/// Whether the first column may be the name of the row.
#[derive(Clone, Copy, PartialEq)]
pub enum Names {
    Allowed,
    None,
}

pub fn read(path: &Path, columns: &'static [Column], names: Names) -> Result<Sheet, Vec<Fault>> {
    let file = path.display().to_string();
    let bytes =
        std::fs::read(path).map_err(|e| vec![Fault::of_file(&file, format!("cannot be read: {e}"))])?;
    let lines = csv::lines(&bytes).map_err(|line| {
        vec![Fault::of_line(&file, line, "is not UTF-8 text: save the file as CSV UTF-8".to_string())]
    })?;
    let sheet = Sheet::of_cells(columns, Vec::new());
    let mut reader = Reader { file: &file, sheet, places: Vec::new(), faults: Vec::new() };
    reader.header(lines.first().unwrap_or(&""), names);
    if reader.faults.is_empty() {
        for (i, line) in lines.iter().enumerate().skip(1) {
            reader.row(i + 1, line);
        }
    }
    if reader.faults.is_empty() {
        Ok(reader.sheet)
    } else {
        Err(reader.faults)
    }
}

struct Reader<'a> {
    file: &'a str,
    sheet: Sheet,
    /// For each column the place of its cell in a line; none if it is absent.
    places: Vec<Option<usize>>,
    faults: Vec<Fault>,
}

impl Reader<'_> {
    fn header(&mut self, line: &str, names: Names) {
        let cells = match csv::cells(line) {
            Ok(cells) => cells,
            Err(bad) => {
                let what = format!("column {}: {}", bad.place + 1, bad.what);
                return self.faults.push(Fault::of_line(self.file, 1, what));
            }
        };
        let mut found: Vec<&str> = cells.iter().map(|cell| cell.as_ref()).collect();
        self.sheet.is_named = names == Names::Allowed && found[0] == NAME;
        if self.sheet.is_named {
            found.remove(0);
        }
        let before = self.before();
        let place = |column: &Column| found.iter().position(|name| *name == column.name);
        self.places = self.sheet.columns.iter().map(|column| Some(place(column)? + before)).collect();
        let faults = header::faults(self.sheet.columns, &found, 1 + before);
        self.faults.extend(faults.into_iter().map(|what| Fault::of_line(self.file, 1, what)));
    }

    /// The number of columns before document 01's.
    fn before(&self) -> usize {
        usize::from(self.sheet.is_named)
    }

    fn row(&mut self, line: usize, text: &str) {
        let cells = match csv::cells(text) {
            Ok(cells) => cells,
            Err(bad) => {
                let fault = Fault::of_field(self.file, line, &self.field(bad.place), bad.what.to_string());
                return self.faults.push(fault);
            }
        };
        if let Some(what) = self.wrong_count(&cells) {
            return self.faults.push(Fault::of_line(self.file, line, what));
        }
        let mut row_range = None;
        for (column, place) in self.sheet.columns.iter().zip(&self.places) {
            let cell = place.map_or("", |place| cells[place].as_ref());
            match number::read(cell, column.content) {
                Ok(Value::Number(number)) => self.sheet.numbers.push(number),
                // the program `counts` does not look at the entry's own count: the first stands in its place
                Ok(Value::Range(range)) => {
                    self.sheet.numbers.push(range.first);
                    row_range = Some(range);
                }
                Err(what) => self.faults.push(Fault::of_field(self.file, line, column.name, what)),
            }
        }
        if self.sheet.is_named && cells[0].is_empty() {
            self.faults.push(Fault::of_field(self.file, line, NAME, "the cell is blank".to_string()));
        }
        self.sheet.ranges.push(row_range);
        self.sheet.labels.push(if self.sheet.is_named { cells[0].to_string() } else { line.to_string() });
    }

    /// The field of the cell at this place of a line.
    fn field(&self, place: usize) -> String {
        if place < self.before() {
            return NAME.to_string();
        }
        match self.places.iter().position(|&of_column| of_column == Some(place)) {
            Some(column) => self.sheet.columns[column].name.to_string(),
            None => format!("column {}", place + 1),
        }
    }

    fn wrong_count(&self, cells: &[Cow<str>]) -> Option<String> {
        let wanted = self.before() + self.places.iter().flatten().count();
        if cells.len() == wanted {
            return None;
        }
        if cells.len() == 1 && cells[0].is_empty() {
            return Some("the line is empty".to_string());
        }
        let said = format!("{} cells stand on this line and {wanted} in the header", cells.len());
        Some(match cells.len() < wanted {
            true => format!("{said}: it ends before {}", self.field(cells.len())),
            false => format!("{said}: nothing may stand after {}", self.field(wanted - 1)),
        })
    }
}
