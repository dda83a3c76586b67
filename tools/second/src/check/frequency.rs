//! Step 9: the frequency, count and time unit.

use super::category::Rows;
use super::entry::{Entry, MONTHS_OFF, MONTHS_ON};
use super::tables::Row643;
use super::test::Test;
use super::ways::{Time, Ways};

const TWINS: [(u32, u32); 2] = [(21, 22), (50, 51)];
const MONTH_TWINS: [(u32, u32); 2] = [(35, 36), (40, 41)];

/// Same count and unit on one row; if none, same count and the twin unit.
pub fn of_frequency<'t>(aged: &[&'t Row643], entry: &Entry, ways: &mut Ways) -> Result<Rows<'t>, Test> {
    let exact = of(aged, entry.count, Some(entry.time_unit));
    if !exact.is_empty() {
        ways.time = Time::Exact;
        return Ok(exact);
    }
    let twin = twin(entry);
    let by_twin = of(aged, entry.count, twin);
    if !by_twin.is_empty() {
        ways.time = Time::Twin(entry.time_unit);
        return Ok(by_twin);
    }
    Err(signal(aged, entry, twin))
}

fn of<'t>(rows: &[&'t Row643], count: u32, unit: Option<u32>) -> Rows<'t> {
    rows.iter().copied().filter(|row| row.gpdfaa == count && Some(row.gpdfee) == unit).collect()
}

/// No row has count and unit: 115 if some row has the unit or its twin, else 116 if some row has the count, else 117.
fn signal(rows: &[&Row643], entry: &Entry, twin: Option<u32>) -> Test {
    let unit = rows.iter().any(|row| row.gpdfee == entry.time_unit || Some(row.gpdfee) == twin);
    let count = rows.iter().any(|row| row.gpdfaa == entry.count);
    match (unit, count) {
        (true, _) => Test::OnlyCountDiffers,
        (false, true) => Test::OnlyUnitDiffers,
        (false, false) => Test::BothDiffer,
    }
}

/// Document 02, P3: months not given means off.
fn twin(entry: &Entry) -> Option<u32> {
    let months = entry.months.unwrap_or(MONTHS_OFF) == MONTHS_ON;
    let month_twins = if months { &MONTH_TWINS[..] } else { &[] };
    TWINS.iter().chain(month_twins).find_map(|(a, b)| match entry.time_unit {
        unit if unit == *a => Some(*b),
        unit if unit == *b => Some(*a),
        _ => None,
    })
}
