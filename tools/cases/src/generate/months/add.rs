//! On top of a case: a few rows of a time unit and of the one beside it, and entries with each months setting.

use super::Of::{Beside, Day, Entered};
use super::*;
use crate::random::Random;
use second::check::entry::WEIGHT;

/// Counts of rows and of entries: few, so that they meet, and one that no row has.
const ROW_COUNTS: [u64; 3] = [1, 2, 2];
const COUNTS: [u32; 4] = [1, 2, 2, 3];

pub fn add(case: &mut Case, r: &mut Random) {
    let unit = r.pick(&UNITS);
    let rows: Vec<Row> = (0..r.between(1, 3)).map(|_| any_row(r)).collect();
    push(case, KEY as u64, unit, &rows);
    push_limits(case);
    let mut settings = Setting::ALL.map(Setting::number).to_vec();
    if r.percent(20) {
        settings.push(NO_SETTING);
    }
    r.shuffle(&mut settings);
    let weight = r.pick(&[BLANK, 69_999, 70_000]);
    for count in [r.pick(&COUNTS), r.pick(&COUNTS)] {
        let of = |months: &u32| entry(KEY, unit, count, *months, &[(WEIGHT, weight)]);
        case.entries.extend(settings.iter().map(of));
    }
    if r.percent(70) {
        case.shuffle(r);
    }
}

fn any_row(r: &mut Random) -> Row {
    let weight = r.pick(&[OPEN, OPEN, OPEN, (0, 70_000), (70_000, NO_UPPER)]);
    Row { weight, ..row(r.pick(&ROW_COUNTS), r.pick(&[Entered, Beside, Beside, Day]), r.pick(&[RULE_1, RULE_2])) }
}
