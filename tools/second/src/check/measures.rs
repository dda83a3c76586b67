//! Step 10: weight, then surface.

use super::category::{fits, Rows, NO_UPPER};
use super::entry::Entry;
use super::tables::Row643;
use super::test::Test;
use super::ways::Ways;

/// What weight and surface have in common.
struct Measure {
    bounds: fn(&Row643) -> (u32, u32),
    missing: Test,
    no_row: Test,
}

const WEIGHT: Measure =
    Measure { bounds: |row| (row.gpdkgm, row.gpdkgx), missing: Test::WeightMissing, no_row: Test::WeightNoRow };

const SURFACE: Measure = Measure {
    bounds: |row| (row.surface_low, row.surface_high),
    missing: Test::SurfaceMissing,
    no_row: Test::SurfaceNoRow,
};

pub fn of_weight<'t>(timed: &[&'t Row643], entry: &Entry, ways: &mut Ways) -> Result<Rows<'t>, Test> {
    let weight_matters = matters(&WEIGHT, timed);
    ways.weight_matters = Some(weight_matters);
    keep(&WEIGHT, timed, weight_matters, entry.weight)
}

pub fn of_surface<'t>(weighed: &[&'t Row643], entry: &Entry, ways: &mut Ways) -> Result<Rows<'t>, Test> {
    let surface_matters = matters(&SURFACE, weighed);
    ways.surface_matters = Some(surface_matters);
    keep(&SURFACE, weighed, surface_matters, entry.surface)
}

/// Some remaining row has a low bound above 0 or a high bound below 999,999.
fn matters(of: &Measure, rows: &[&Row643]) -> bool {
    rows.iter().map(|row| (of.bounds)(row)).any(|(low, high)| low > 0 || high < NO_UPPER)
}

/// The rows that fit, where the measure matters; all rows, where it does not.
fn keep<'t>(of: &Measure, rows: &[&'t Row643], matters: bool, number: Option<u32>) -> Result<Rows<'t>, Test> {
    if !matters {
        return Ok(rows.to_vec());
    }
    let number = number.ok_or(of.missing)?;
    let fitting = |(low, high): (u32, u32)| fits(low, high, number);
    let kept: Rows = rows.iter().copied().filter(|row| fitting((of.bounds)(row))).collect();
    if kept.is_empty() {
        return Err(of.no_row);
    }
    Ok(kept)
}
