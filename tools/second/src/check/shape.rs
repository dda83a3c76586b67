//! The shape (121) and the range (122) of the lent tables.

use super::cells::{cell, rows};
use super::fields::{LOW_BOUNDS, ROWS_MOST};
use super::test::{Shape, Side, Table, Test, TABLES};

/// 121: the first table that is not whole rows, or too long.
pub fn misshapen(bytes: [&[u8]; TABLES]) -> Option<Test> {
    for table in Table::ALL {
        let length = bytes[table as usize].len();
        if !length.is_multiple_of(table.row_bytes()) {
            return Some(Test::Shape(table, Shape::NotWhole));
        }
        if length > ROWS_MOST * table.row_bytes() {
            return Some(Test::Shape(table, Shape::TooLong));
        }
    }
    None
}

/// 122: the first table with a field out of range, whether or not the row is needed.
pub fn out_of_range(bytes: [&[u8]; TABLES]) -> Option<Test> {
    for table in Table::ALL {
        for row in rows(bytes[table as usize], table) {
            if let Some((field, side)) = row_out_of_range(table, row) {
                return Some(Test::Range(table, field as u8, side));
            }
        }
    }
    None
}

fn row_out_of_range(table: Table, row: &[u8]) -> Option<(usize, Side)> {
    for (place, &(_, low, high)) in table.fields().iter().enumerate() {
        let number = cell(table, row, place);
        if number < low {
            return Some((place, Side::Low));
        }
        if number > high {
            return Some((place, Side::High));
        }
    }
    if table == Table::T643 {
        return LOW_BOUNDS.into_iter().find(|low| low_above_high(row, *low)).map(|low| (low, Side::Odds));
    }
    None
}

/// In 643, a low bound above the high bound that stands behind it.
fn low_above_high(row: &[u8], low: usize) -> bool {
    cell(Table::T643, row, low) > cell(Table::T643, row, low + 1)
}
