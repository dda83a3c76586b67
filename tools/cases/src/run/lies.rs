//! Where an entry's age, weight and surface lie to the bounds of the rows that steps 8 and 10 look at.

use crate::generate::case::{Case, Numbers};
use crate::generate::joints::Bounded;
use crate::generate::space::NO_UPPER;
use second::check::entry::{COUNT, TIME_UNIT};
use second::check::{Answer, Table, Test};

/// A row has width, equal bounds, no upper bound, or goes from 999,999 to 999,999; on a joint one row with width ends
/// and another begins.
#[derive(Clone, Copy, PartialEq, Eq, PartialOrd, Ord, Debug)]
pub enum Lies {
    BelowLow,
    OnLow,
    Inside,
    OnHigh,
    AboveHigh,
    OnJoint,
    OnEqual,
    AboveEqual,
    OnLowWithoutUpper,
    AboveLowWithoutUpper,
    InTopRow,
}

impl Lies {
    pub const ALL: [Lies; 11] = [
        Lies::BelowLow,
        Lies::OnLow,
        Lies::Inside,
        Lies::OnHigh,
        Lies::AboveHigh,
        Lies::OnJoint,
        Lies::OnEqual,
        Lies::AboveEqual,
        Lies::OnLowWithoutUpper,
        Lies::AboveLowWithoutUpper,
        Lies::InTopRow,
    ];

    /// No surface comes up to 999,999.
    pub fn can_occur(self, of: Bounded) -> bool {
        self != Lies::InTopRow || of != Bounded::Surface
    }

    fn fits(self) -> bool {
        !matches!(self, Lies::BelowLow | Lies::OnHigh | Lies::AboveHigh | Lies::AboveEqual)
    }

    fn of(low: u64, high: u64, value: u64) -> Lies {
        match () {
            _ if value < low => Lies::BelowLow,
            _ if low == NO_UPPER && high == NO_UPPER => Lies::InTopRow,
            _ if high == NO_UPPER && value == low => Lies::OnLowWithoutUpper,
            _ if high == NO_UPPER => Lies::AboveLowWithoutUpper,
            _ if low == high && value == low => Lies::OnEqual,
            _ if low == high => Lies::AboveEqual,
            _ if value == low => Lies::OnLow,
            _ if value < high => Lies::Inside,
            _ if value == high => Lies::OnHigh,
            _ => Lies::AboveHigh,
        }
    }
}

/// Place of the category in the answer.
const CATEGORY: usize = 4;

pub type Row<'c> = &'c [u64];

fn bounds(of: Bounded, row: Row) -> (u64, u64) {
    (row[of.low()], row[of.low() + 1])
}

/// To each of these rows, and to two that meet.
fn to_rows(of: Bounded, rows: &[Row], value: u64) -> Vec<(Bounded, Lies)> {
    let mut all: Vec<_> =
        rows.iter().map(|row| bounds(of, row)).map(|(low, high)| Lies::of(low, high, value)).collect();
    let width = |row: &&Row| bounds(of, row).0 < bounds(of, row).1;
    let ends = rows.iter().filter(width).any(|row| bounds(of, row).1 == value);
    let begins = rows.iter().filter(width).any(|row| bounds(of, row).0 == value);
    all.extend((ends && begins).then_some(Lies::OnJoint));
    all.into_iter().map(|lies| (of, lies)).collect()
}

/// The rows of the category that a step looks at; none where none looks.
fn of_category<'c>(case: &'c Case, answer: &Answer) -> Vec<Row<'c>> {
    let category = answer.numbers[CATEGORY] as u64;
    if category == 0 || answer.test == Test::CategoryTooLong {
        return vec![];
    }
    let rows = &case.tables[Table::T643 as usize];
    rows.cells.chunks_exact(rows.width()).filter(|row| row[0] == category).collect()
}

/// Keeps the rows that a datum fits.
pub fn fit(of: Bounded, rows: &mut Vec<Row>, value: u64) {
    rows.retain(|row| Lies::of(bounds(of, row).0, bounds(of, row).1, value).fits());
}

/// The rows of the category that fit the age: those that step 9 looks at.
pub fn of_age<'c>(case: &'c Case, answer: &Answer, entry: &Numbers) -> Vec<Row<'c>> {
    let mut rows = of_category(case, answer);
    if let Some(value) = Bounded::Age.value(entry) {
        fit(Bounded::Age, &mut rows, value);
    }
    rows
}

/// Of the age to the rows of the category; of weight and surface, where they matter, to the rows that are left and have
/// the entered count and unit.
pub fn lies(case: &Case, answer: &Answer, entry: &Numbers) -> Vec<(Bounded, Lies)> {
    let (mut left, mut all) = (of_category(case, answer), vec![]);
    for of in Bounded::ALL {
        let looked_at = match of {
            Bounded::Age => true,
            Bounded::Weight => answer.ways.weight_matters == Some(true),
            Bounded::Surface => answer.ways.surface_matters == Some(true),
        };
        let Some(value) = of.value(entry).filter(|_| looked_at) else { continue };
        all.extend(to_rows(of, &left, value));
        fit(of, &mut left, value);
        left.retain(|row| (row[3], row[4]) == (entry[COUNT] as u64, entry[TIME_UNIT] as u64));
    }
    all
}
