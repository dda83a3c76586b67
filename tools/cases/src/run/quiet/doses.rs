//! The dose of an entry to the norm maxima that 001, 3.4.2, compares it with.

use crate::generate::case::{Case, Numbers};
use second::check::entry::{BASE_UNIT, CODE, COUNT, ENTERED_UNIT, SRTCDE};
use second::check::Table;

/// Columns of 649.
const MINIMUM: usize = 1;
pub const MAXIMUM: usize = 2;
pub const ABSOLUTE: usize = 3;

/// 3.4.2.4 and 3.4.2.5.
#[derive(Clone, Copy, PartialEq, Eq, PartialOrd, Ord, Debug)]
pub enum Comparison {
    Single,
    Day,
}

/// The dose to a norm maximum: just below, where one thousandth more would reach it; just above likewise.
#[derive(Clone, Copy, PartialEq, Eq, PartialOrd, Ord, Debug)]
pub enum Lies {
    Below,
    JustBelow,
    Equal,
    JustAbove,
    Above,
}

/// A rule of a row per day.
pub struct Rule {
    pub count: u128,
    pub limits: Vec<[u64; 4]>,
}

impl Rule {
    /// The limit of a column; 0 where there is no row, or several.
    pub fn limit(&self, column: usize) -> u128 {
        match self.limits[..] {
            [limits] => limits[column] as u128,
            _ => 0,
        }
    }

    pub fn can_suppress(&self) -> bool {
        self.limits.len() == 1 && self.limit(MINIMUM) == 0
    }
}

/// What is entered: dose, count, and what one of it is.
pub struct Entered {
    dose: u128,
    count: u128,
    base: u128,
    entered: u128,
}

impl Entered {
    pub fn new(case: &Case, entry: &Numbers, dose: usize) -> Entered {
        let (base, entered) = match entry[ENTERED_UNIT] == entry[BASE_UNIT] {
            true => (1, 1),
            false => (amount(case, entry, BASE_UNIT), amount(case, entry, ENTERED_UNIT)),
        };
        Entered { dose: entry[dose] as u128, count: entry[COUNT] as u128, base, entered }
    }

    /// Both sides of a comparison with a limit for so many per day: what is allowed, what is entered.
    pub fn sides(&self, of: Comparison, limit: u128, count: u128) -> (u128, u128) {
        match of {
            Comparison::Single => (limit * self.entered, self.dose * self.base),
            Comparison::Day => (limit * count * self.entered, self.dose * self.count * self.base),
        }
    }

    pub fn is_below(&self, of: Comparison, limit: u128, count: u128) -> bool {
        let (allowed, entered) = self.sides(of, limit, count);
        limit > 0 && entered < allowed
    }

    /// A limit of the rule, of this column, is above both at a time and in a day.
    pub fn is_suppressed_by(&self, rule: &Rule, column: usize) -> bool {
        let limit = rule.limit(column);
        [Comparison::Single, Comparison::Day].iter().all(|of| self.is_below(*of, limit, rule.count))
    }

    pub fn lies(&self, of: Comparison, rule: &Rule) -> Lies {
        let (allowed, entered) = self.sides(of, rule.limit(MAXIMUM), rule.count);
        let step = self.base * if of == Comparison::Day { self.count } else { 1 };
        match () {
            _ if entered == allowed => Lies::Equal,
            _ if entered < allowed && allowed - entered <= step => Lies::JustBelow,
            _ if entered < allowed => Lies::Below,
            _ if entered - allowed <= step => Lies::JustAbove,
            _ => Lies::Above,
        }
    }
}

fn amount(case: &Case, entry: &Numbers, unit: usize) -> u128 {
    let key = [SRTCDE, CODE, unit].map(|place| entry[place] as u64);
    let rows = &case.tables[Table::T730 as usize];
    let mut rows = rows.cells.chunks_exact(rows.width());
    rows.find(|row| [row[0], row[1], row[3]] == key).expect("a unit that step 2 found")[2] as u128
}
