//! Document 02, P5: what a given HPK fills by its row of table 70, before step 2.

use super::entry::{Entry, GPK, PRK};
use super::tables::Row70;
use super::test::{Code, Test};

/// GPK 0 is none.
const NO_GPK: u32 = 0;

/// What came of the HPK.
#[derive(Clone, Copy, PartialEq, Eq, PartialOrd, Ord, Debug)]
pub enum Filling {
    HpkBlank,
    NoRow,
    /// The row says what is given.
    Nothing,
    Some(Code),
}

/// The entry that steps 2 to 12 check.
#[derive(Clone, Copy)]
pub struct Filled {
    pub entry: Entry,
    pub filling: Filling,
}

/// The entry as it is, or with what the one row of its HPK fills. Several rows are refused before the row is looked at.
pub fn filled(t70: &[Row70], entry: &Entry) -> Result<Filled, Test> {
    let Some(hpk) = entry.hpk else {
        return Ok(Filled { entry: *entry, filling: Filling::HpkBlank });
    };
    let rows: Vec<&Row70> = t70.iter().filter(|row| row.hpkode == hpk).collect();
    match rows[..] {
        [] => Ok(Filled { entry: *entry, filling: Filling::NoRow }),
        [row] => by_row(row, entry),
        _ => Err(Test::FillingSeveral),
    }
}

/// A code that is given must be the row's; one that is not is taken from it. Nothing given is overwritten.
fn by_row(row: &Row70, entry: &Entry) -> Result<Filled, Test> {
    let prk_differs = entry.prk.is_some_and(|prk| prk != row.prkode);
    let gpk_differs = entry.gpk != NO_GPK && entry.gpk != row.gpkode;
    if let Some(code) = which(prk_differs, gpk_differs) {
        return Err(Test::FillingDiffers(code));
    }
    let (fills_prk, fills_gpk) = (entry.prk.is_none(), entry.gpk == NO_GPK);
    let mut numbers = entry.numbers;
    if fills_prk {
        numbers[PRK] = row.prkode;
    }
    if fills_gpk {
        numbers[GPK] = row.gpkode;
    }
    let filling = which(fills_prk, fills_gpk).map_or(Filling::Nothing, Filling::Some);
    Ok(Filled { entry: Entry::new(numbers), filling })
}

fn which(prk: bool, gpk: bool) -> Option<Code> {
    match (prk, gpk) {
        (false, false) => None,
        (true, false) => Some(Code::Prk),
        (false, true) => Some(Code::Gpk),
        (true, true) => Some(Code::Both),
    }
}
