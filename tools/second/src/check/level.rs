//! Step 5: the level in 641 (001, 4.3) and its GPDBAS.

use super::entry::Entry;
use super::tables::Row641;
use super::test::Test;
use super::ways::Level;

const BASE_LEVEL: u32 = 1;
const OTHER_LEVEL: u32 = 2;

pub fn basis(t641: &[Row641], entry: &Entry) -> Result<(u32, Level), Test> {
    let rows: Vec<&Row641> = t641.iter().filter(|row| row.gpkode == entry.gpk).collect();
    let (hpk_tried, taken) = at_hpk(&rows, entry)?;
    if let Some(row) = taken {
        return Ok((row.gpdbas, Level::Hpk));
    }
    let (prk_tried, taken) = at_prk(&rows, entry)?;
    if let Some(row) = taken {
        return Ok((row.gpdbas, if hpk_tried { Level::PrkAfterHpk } else { Level::Prk }));
    }
    let level = match (hpk_tried, prk_tried) {
        (false, false) => Level::Base,
        (true, false) => Level::BaseAfterHpk,
        (false, true) => Level::BaseAfterPrk,
        (true, true) => Level::BaseAfterBoth,
    };
    Ok((at_base(&rows)?.gpdbas, level))
}

/// Whether the level has rows, and the row taken.
type Tried<'t> = (bool, Option<&'t Row641>);

fn at_hpk<'t>(rows: &[&'t Row641], entry: &Entry) -> Result<Tried<'t>, Test> {
    let rows = keep(rows, |row| row.gpdcod == OTHER_LEVEL && row.hpkode > 0);
    if rows.is_empty() {
        return Ok((false, None));
    }
    let hpk = entry.hpk.ok_or(Test::HpkMissing)?;
    one(keep(&rows, |row| row.hpkode == hpk), Test::HpkSeveral)
}

fn at_prk<'t>(rows: &[&'t Row641], entry: &Entry) -> Result<Tried<'t>, Test> {
    let rows = keep(rows, |row| row.gpdcod == OTHER_LEVEL && row.hpkode == 0 && row.prkode > 0);
    if rows.is_empty() {
        return Ok((false, None));
    }
    let prk = entry.prk.ok_or(Test::PrkMissing)?;
    one(keep(&rows, |row| row.prkode == prk), Test::PrkSeveral)
}

fn at_base<'t>(rows: &[&'t Row641]) -> Result<&'t Row641, Test> {
    let rows = keep(rows, |row| row.gpdcod == BASE_LEVEL);
    one(rows, Test::BaseLevelSeveral)?.1.ok_or(Test::BaseLevelAbsent)
}

fn keep<'t>(rows: &[&'t Row641], test: impl Fn(&Row641) -> bool) -> Vec<&'t Row641> {
    rows.iter().copied().filter(|row| test(row)).collect()
}

fn one(taken: Vec<&Row641>, several: Test) -> Result<Tried<'_>, Test> {
    match taken[..] {
        [] => Ok((true, None)),
        [row] => Ok((true, Some(row))),
        _ => Err(several),
    }
}
