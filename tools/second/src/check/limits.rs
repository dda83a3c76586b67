//! Steps 11 and 12: the one row's limits in 649, and the comparison.

use super::answer::Found;
use super::category::Rows;
use super::entry::Entry;
use super::tables::Row649;
use super::test::Test;
use super::unit::Ratio;

/// What 100 was said of.
#[derive(Clone, Copy, Debug)]
pub struct Compared {
    pub high: u32,
    pub low: u32,
    pub gprisc: u32,
    pub ratio: Ratio,
    pub limits: Row649,
}

pub fn of_rule(t649: &[Row649], left: &Rows, found: &mut Found) -> Result<Row649, Test> {
    let [row] = left[..] else {
        return Err(Test::RowsSeveral);
    };
    found.rule = row.gpddnr;
    let limits: Vec<&Row649> = t649.iter().filter(|limits| limits.gpddnr == row.gpddnr).collect();
    match limits[..] {
        [] => Err(Test::LimitsAbsent),
        [limits] => Ok(*limits),
        _ => Err(Test::LimitsSeveral),
    }
}

pub fn compare(limits: Row649, ratio: Ratio, entry: &Entry, gprisc: u32) -> Compared {
    let high = if above(entry.highest, limits.absolute, ratio) {
        2
    } else if above(entry.highest, limits.maximum, ratio) {
        1
    } else {
        0
    };
    let low = if below(entry.lowest, limits.minimum, ratio) { 1 } else { 0 };
    Compared { high, low, gprisc, ratio, limits }
}

/// 0 means no such limit.
fn given(limit: u32) -> bool {
    limit > 0
}

/// dose times base amount against limit times entered amount
fn products(dose: u32, limit: u32, ratio: Ratio) -> (u128, u128) {
    (dose as u128 * ratio.base as u128, limit as u128 * ratio.entered as u128)
}

/// Equal to a limit is inside it.
fn above(dose: u32, limit: u32, ratio: Ratio) -> bool {
    let (dose_side, limit_side) = products(dose, limit, ratio);
    given(limit) && dose_side > limit_side
}

fn below(dose: u32, limit: u32, ratio: Ratio) -> bool {
    let (dose_side, limit_side) = products(dose, limit, ratio);
    given(limit) && dose_side < limit_side
}
