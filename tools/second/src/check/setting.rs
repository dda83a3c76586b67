//! Step 6: the setting in 642 (001, 4.4).

use super::entry::Entry;
use super::tables::Row642;
use super::test::Test;
use super::ways::{Care, Reason, Route, Ways};

pub const Q_GENERAL: u32 = 17_752;
const INTENSIVE_CARE: u32 = 2;
const ALL_CARE: u32 = 3;

type Rows<'t> = Vec<&'t Row642>;

pub fn setting<'t>(t642: &'t [Row642], entry: &Entry, basis: u32, ways: &mut Ways) -> Result<&'t Row642, Test> {
    let rows: Rows = t642.iter().filter(|row| row.gpdbas == basis).collect();
    let rows = of_care(&rows, entry, ways);
    let rows = of_reason(&rows, entry, ways);
    let rows = of_route(&rows, entry, ways);
    match rows[..] {
        [] => Err(Test::SettingAbsent),
        [row] => Ok(row),
        _ => Err(Test::SettingSeveral),
    }
}

fn keep<'t>(rows: &[&'t Row642], test: impl Fn(&Row642) -> bool) -> Rows<'t> {
    rows.iter().copied().filter(|row| test(row)).collect()
}

fn of_care<'t>(rows: &[&'t Row642], entry: &Entry, ways: &mut Ways) -> Rows<'t> {
    let own = keep(rows, |row| row.gpdzco == entry.care);
    if own.is_empty() && entry.care == INTENSIVE_CARE {
        ways.care = Care::IntensiveToAll;
        return keep(rows, |row| row.gpdzco == ALL_CARE);
    }
    ways.care = if entry.care == ALL_CARE { Care::All } else { Care::Intensive };
    own
}

fn of_reason<'t>(rows: &[&'t Row642], entry: &Entry, ways: &mut Ways) -> Rows<'t> {
    if entry.reason == 0 {
        ways.reason = Reason::NoneGiven;
        return general(rows);
    }
    let exact = keep(rows, |row| row.icpcnr1 == entry.reason && row.icpcto == entry.icpcto);
    if !exact.is_empty() {
        ways.reason = Reason::exact(entry);
        return exact;
    }
    let with_zero = keep(rows, |row| row.icpcnr1 == entry.reason && row.icpcto == 0);
    if !with_zero.is_empty() {
        ways.reason = Reason::WithZero;
        return with_zero;
    }
    ways.reason = Reason::ToGeneral;
    general(rows)
}

fn general<'t>(rows: &[&'t Row642]) -> Rows<'t> {
    keep(rows, |row| row.icpcnr1 == Q_GENERAL && row.icpcto == 0)
}

fn of_route<'t>(rows: &[&'t Row642], entry: &Entry, ways: &mut Ways) -> Rows<'t> {
    let exact = keep(rows, |row| row.gpktwg == entry.route);
    if !exact.is_empty() {
        ways.route = if entry.route == 0 { Route::NoneGiven } else { Route::Exact };
        return exact;
    }
    ways.route = Route::ToZero;
    keep(rows, |row| row.gpktwg == 0)
}
