//! Smaller cases.

use super::{parts, Piece};
use crate::generate::{self, case::Case};
use crate::run::{answers_of, show};
use second::check::entry::{BLANK, EDITION, EDITION_2, MAY_BE_BLANK, RANGES};
use second::check::fields::{BOUND_MOST, LOW_BOUNDS};
use second::check::Table;

/// The numbers of a case with more rows are left as they are: there are rows enough to leave out.
const ROWS_MOST: usize = 40;

impl Piece for Case {
    const OF: &'static str = "answers";
    const NAME: &'static str = "cases";

    fn of_run(seed: u64, number: u64) -> Case {
        generate::case(seed, number)
    }

    fn read(input: &[u8]) -> Option<Vec<Case>> {
        let (mut cases, mut rest) = (vec![], input);
        while !rest.is_empty() {
            cases.push(Case::take(&mut rest)?);
        }
        Some(cases)
    }

    fn joined(cases: &[Case]) -> Vec<u8> {
        let mut bytes = vec![];
        cases.iter().for_each(|case| case.write(&mut bytes));
        bytes
    }

    fn lines(cases: &[Case]) -> Vec<Vec<u8>> {
        let lines = |case: &Case| {
            let mut lines = vec![];
            answers_of(case).iter().for_each(|answer| answer.line(&mut lines));
            lines
        };
        cases.iter().map(lines).collect()
    }

    fn smaller(&self) -> Box<dyn Iterator<Item = Case> + '_> {
        let alone = (0..self.entries.len()).filter(|_| self.entries.len() > 1).map(|place| {
            let mut case = self.clone();
            case.entries = vec![self.entries[place]];
            case
        });
        Box::new(alone.chain(self.with_these_entries()))
    }

    fn end_matters(&self) -> bool {
        false
    }

    fn shown(&self, second: &str, program: &str) -> String {
        let mut shown = show::tables(self);
        let (second, program): (Vec<&str>, Vec<&str>) = (second.lines().collect(), program.lines().collect());
        for (place, (entry, answer)) in self.entries.iter().zip(answers_of(self)).enumerate() {
            let (second, program) = (second[place], program.get(place).unwrap_or(&"(no line)"));
            if second != *program {
                shown += &format!("entry:   {}\n", show::entry(entry));
                shown += &format!("second:  {second} (by the test {:?})\nprogram: {program}\n", answer.test);
            }
        }
        if second.len() != program.len() {
            shown += &format!("lines:   second {}, program {}\n", second.len(), program.len());
        }
        shown
    }
}

impl Case {
    /// Smaller cases with as many entries.
    pub fn with_these_entries(&self) -> impl Iterator<Item = Case> + '_ {
        let rows = Table::ALL.into_iter().flat_map(|table| without_rows(self, table));
        let tails = Table::ALL.into_iter().filter(|table| !self.tables[*table as usize].tail.is_empty()).map(|table| {
            let mut case = self.clone();
            case.rows(table).tail.pop();
            case
        });
        let all: usize = self.tables.iter().map(|rows| rows.count()).sum();
        let numbers = (all <= ROWS_MOST).then(|| with_smaller_numbers(self)).into_iter().flatten();
        rows.chain(tails).chain(numbers)
    }
}

fn without_rows(case: &Case, table: Table) -> impl Iterator<Item = Case> + '_ {
    let width = table.fields().len();
    parts(case.tables[table as usize].count()).map(move |left_out| {
        let mut case = case.clone();
        case.rows(table).cells.drain(left_out.start * width..left_out.end * width);
        case
    })
}

/// One number plainer; or a number plainer wherever it stands, since rows and entry find each other by it.
fn with_smaller_numbers(case: &Case) -> impl Iterator<Item = Case> + '_ {
    let weight = weight(case);
    let mut numbers: Vec<u64> = places(case).map(|place| number(case, place)).collect();
    numbers.sort();
    numbers.dedup();
    let everywhere = numbers.into_iter().rev().flat_map(move |old| {
        plainer(old).map(move |new| {
            let mut smaller = case.clone();
            places(case).filter(|at| number(case, *at) == old).for_each(|at| set(&mut smaller, at, new));
            smaller
        })
    });
    let one = places(case).flat_map(move |place| {
        let old = number(case, place);
        std::iter::once(plain(place)).chain(plainer(old)).map(move |new| {
            let mut smaller = case.clone();
            set(&mut smaller, place, new);
            smaller
        })
    });
    everywhere.chain(one).filter(move |case| self::weight(case) < weight)
}

/// Where a number stands: a table and the place among its cells, or no table and the place in the entry.
#[derive(Clone, Copy)]
struct Place {
    table: Option<Table>,
    row: usize,
    column: usize,
}

fn places(case: &Case) -> impl Iterator<Item = Place> {
    let of = |table: Option<Table>, rows: usize, columns: usize| {
        (0..rows).flat_map(move |row| (0..columns).map(move |column| Place { table, row, column }))
    };
    let mut all: Vec<Place> = vec![];
    for rows in &case.tables {
        all.extend(of(Some(rows.table), rows.count(), rows.width()));
    }
    all.extend(of(None, case.entries.len(), RANGES.len()));
    all.into_iter()
}

fn number(case: &Case, place: Place) -> u64 {
    match place.table {
        Some(table) => {
            let rows = &case.tables[table as usize];
            rows.cells[place.row * rows.width() + place.column]
        }
        None => case.entries[place.row][place.column] as u64,
    }
}

fn set(case: &mut Case, place: Place, number: u64) {
    match place.table {
        Some(table) => case.rows(table).row(place.row)[place.column] = number,
        None => case.entries[place.row][place.column] = number as u32,
    }
}

const GPDGST: usize = 1;
const BOTH_SEXES: u64 = 3;

/// What says least at a place: blank, edition 2, both sexes, no upper bound, or the lowest permitted number.
fn plain(place: Place) -> u64 {
    match place.table {
        None if MAY_BE_BLANK.contains(&place.column) => BLANK as u64,
        None if place.column == EDITION => EDITION_2 as u64,
        None => RANGES[place.column].1 as u64,
        Some(Table::T640) if place.column == GPDGST => BOTH_SEXES,
        Some(Table::T643) if LOW_BOUNDS.iter().any(|low| place.column == low + 1) => BOUND_MOST,
        Some(table) => table.fields()[place.column].1,
    }
}

fn plainer(number: u64) -> impl Iterator<Item = u64> {
    (0..=9).chain([number / 1_000, number / 10]).filter(move |new| *new < number)
}

/// Numbers that say something, and their digits.
pub fn weight(case: &Case) -> usize {
    let of_place = |place: Place| match number(case, place) {
        number if number == plain(place) => 0,
        number => 10 * number.to_string().len() + number.min(9) as usize,
    };
    places(case).map(of_place).sum()
}
