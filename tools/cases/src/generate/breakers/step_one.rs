//! Step 1: the entry and the tables out of range.

use super::first;
use crate::generate::case::{Case, MADE_FIELDS, MADE_TABLES};
use crate::generate::space::NO_UPPER;
use crate::random::Random;
use second::check::entry::{BLANK, MAY_BE_BLANK, RANGES};
use second::check::Table::{T643, T730};

/// A number just outside what is permitted, or far outside.
fn outside(r: &mut Random, low: u64, high: u64, most: u64) -> u64 {
    if low > 0 && r.percent(50) {
        return r.pick(&[low - 1, 0]);
    }
    let any = r.between(high + 1, most);
    r.pick(&[high + 1, any, most])
}

pub fn entry_out_of_range(case: &mut Case, r: &mut Random) {
    let place = r.below(MADE_FIELDS as u64) as usize;
    let (_, low, high) = RANGES[place];
    let most = if MAY_BE_BLANK.contains(&place) { BLANK - 1 } else { BLANK };
    first(case)[place] = outside(r, low as u64, high as u64, most as u64) as u32;
}

pub fn table_not_whole(case: &mut Case, r: &mut Random) {
    let table = r.pick(&MADE_TABLES);
    let tail = r.between(1, table.row_bytes() as u64 - 1);
    case.rows(table).tail = (0..tail).map(|_| r.next() as u8).collect();
}

pub fn table_out_of_range(case: &mut Case, r: &mut Random) {
    let table = r.pick(&MADE_TABLES);
    let place = r.below(table.fields().len() as u64) as usize;
    let (_, low, high) = table.fields()[place];
    let most = if table == T730 && place == 2 { u64::MAX - 1 } else { u32::MAX as u64 };
    let count = case.rows(table).count() as u64;
    if count > 0 {
        let any = r.below(count);
        let row = r.pick(&[0, count - 1, any]) as usize;
        case.rows(table).row(row)[place] = outside(r, low, high, most);
    }
}

pub fn table_empty(case: &mut Case, r: &mut Random) {
    case.rows(r.pick(&MADE_TABLES)).cells.clear();
}

/// The three rules between fields of 643, and a row that no entry needs.
pub fn low_above_high(case: &mut Case, r: &mut Random) {
    let low = r.pick(&[1, 5, 7]);
    let high = r.below(NO_UPPER);
    let mut row = [9_999, 0, NO_UPPER, 1, 19, 0, NO_UPPER, 0, NO_UPPER, 1];
    (row[low], row[low + 1]) = (high + 1, high);
    case.push(T643, &row);
}
