//! Steps 7 and 8: the category's rows in 643, and their age.

use super::tables::Row643;
use super::test::Test;

const ROWS_MOST: usize = 512;
/// A high bound of 999,999 means no upper bound.
pub const NO_UPPER: u32 = 999_999;

pub type Rows<'t> = Vec<&'t Row643>;

/// Document 02, P1: a row fits from its low bound up to but not including its high bound. A high bound of 999,999 means
/// none, and equal bounds below that fit their one value.
pub fn fits(low: u32, high: u32, number: u32) -> bool {
    if high == NO_UPPER {
        return low <= number;
    }
    if low == high {
        return number == low;
    }
    low <= number && number < high
}

pub fn of_age(t643: &[Row643], category: u32, age: u32) -> Result<Rows<'_>, Test> {
    let of_category: Rows = t643.iter().filter(|row| row.gpdcat == category).collect();
    if of_category.len() > ROWS_MOST {
        return Err(Test::CategoryTooLong);
    }
    let thousandths = age * 1_000;
    let rows: Rows = of_category.into_iter().filter(|row| fits(row.gpdlfm, row.gpdlfx, thousandths)).collect();
    if rows.is_empty() {
        return Err(Test::AgeNoRow);
    }
    Ok(rows)
}
