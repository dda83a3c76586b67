//! Table 70 that is refused by 121 or by 122, whatever the entry says of its HPK.

use super::each::{tables, SAME};
use super::*;
use crate::generate::case::Numbers;
use crate::generate::counts::{CountCase, Range};
use crate::generate::proof_table::changed;
use second::check::entry::{AGE, BLANK, GPK, HPK, PRK};
use second::check::Table::*;

/// What is bad of table 70.
#[derive(Clone, Copy, Debug)]
pub enum Bad {
    /// So many bytes behind its last row.
    Tail(usize),
    /// The number of a row, counted from the first or from the last, at a place.
    Number { first: bool, place: usize, number: u64 },
}

const fn number(first: bool, place: usize, number: u64) -> Bad {
    Bad::Number { first, place, number }
}

impl Bad {
    /// Each number below its range and above it.
    pub const ALL: [Bad; 11] = [
        Bad::Tail(1),
        Bad::Tail(23),
        number(true, 0, 0),
        number(false, 0, 100_000_000),
        number(false, 1, 0),
        number(true, 1, 100_000_000),
        number(true, 2, 1_000_000),
        number(true, 3, 0),
        number(false, 3, 100_000_000),
        number(false, 4, 1_000_000),
        number(true, 5, 1_000_000),
    ];

    fn put(self, case: &mut Case) {
        let rows = case.rows(T70);
        match self {
            Bad::Tail(bytes) => rows.tail = vec![0; bytes],
            Bad::Number { first, place, number } => {
                let row = if first { 0 } else { rows.count() - 1 };
                rows.row(row)[place] = number;
            }
        }
    }
}

fn entry(hpk: u32, prk: u32, gpk: u32, age: u32) -> Numbers {
    changed(&[(HPK, hpk), (PRK, prk), (GPK, gpk), (AGE, age)])
}

/// Without an HPK, with one of no row, one row, several rows, and one whose row differs; then an age out of range.
fn entries() -> Vec<Numbers> {
    vec![
        entry(BLANK, BLANK, 16_004, 240),
        entry(1_709_926, BLANK, 16_004, 240),
        entry(216_267, BLANK, 0, 240),
        entry(SAME, BLANK, 0, 240),
        entry(216_267, 5_542, 16_005, 240),
        entry(BLANK, BLANK, 16_004, 1_801),
    ]
}

pub fn bad(bad: Bad) -> Case {
    let mut case = tables();
    bad.put(&mut case);
    case.entries = entries();
    case
}

/// Two of them for 1 and 2; 131 and 132 stand before.
pub fn bad_ranges(bad: Bad) -> CountCase {
    let mut case = self::bad(bad);
    case.entries.truncate(3);
    let ranges = [[1, 2, 2], [2, 1, 2], [1, 2, 1]].map(|[first, last, places]| Range { first, last, places });
    CountCase { case, ranges: ranges.to_vec() }
}

/// 121 of 730 and of 70; 122 of 730 and of 70; 122 of 640 and 121 of 70; 121 of 640 and 122 of 70.
pub fn both_bad() -> [Case; 4] {
    let [tail, _, number, ..] = Bad::ALL;
    [(T730, tail, true), (T730, number, false), (T640, tail, false), (T640, number, true)].map(
        |(table, of_70, whole)| {
            let mut case = bad(of_70);
            match whole {
                true => case.rows(table).tail.push(0),
                false => case.rows(table).row(0)[1] = 100_000_000,
            }
            case
        },
    )
}
