//! Step 2: the ratio from the entered unit to the base unit.

use super::entry::Entry;
use super::tables::Row730;
use super::test::{Amount, Test};

/// An amount above this is 128.
pub const AMOUNT_MOST: u64 = 9_999_999_999;

/// The dose in base units is dose times `base` over `entered`.
#[derive(Clone, Copy, Debug, PartialEq)]
pub struct Ratio {
    pub base: u64,
    pub entered: u64,
}

pub fn ratio(t730: &[Row730], entry: &Entry) -> Result<Ratio, Test> {
    if entry.entered_unit == entry.base_unit {
        return Ok(Ratio { base: 1, entered: 1 });
    }
    let of_code: Vec<&Row730> =
        t730.iter().filter(|row| row.srtcde == entry.srtcde && row.code == entry.code).collect();
    let base = amount(&of_code, entry.base_unit, Test::BaseUnitAbsent, Test::BaseUnitSeveral)?;
    let entered = amount(&of_code, entry.entered_unit, Test::EnteredUnitAbsent, Test::EnteredUnitSeveral)?;
    if let Some(which) = which(base == 0, entered == 0) {
        return Err(Test::AmountZero(which));
    }
    if let Some(which) = which(base > AMOUNT_MOST, entered > AMOUNT_MOST) {
        return Err(Test::AmountAbove(which));
    }
    Ok(Ratio { base, entered })
}

fn amount(of_code: &[&Row730], unit: u32, absent: Test, several: Test) -> Result<u64, Test> {
    let rows: Vec<&Row730> = of_code.iter().copied().filter(|row| row.cdeenh == unit).collect();
    match rows[..] {
        [] => Err(absent),
        [row] => Ok(row.cdhoev),
        _ => Err(several),
    }
}

fn which(base: bool, entered: bool) -> Option<Amount> {
    match (base, entered) {
        (false, false) => None,
        (true, false) => Some(Amount::Base),
        (false, true) => Some(Amount::Entered),
        (true, true) => Some(Amount::Both),
    }
}
