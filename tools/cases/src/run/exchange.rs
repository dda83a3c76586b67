//! Document 02, P3: what step 9 makes of rows of the time unit beside the entered one, for each months setting.

use super::lies::of_age;
use crate::generate::case::{Case, Numbers};
use crate::generate::months::{beside, Setting, MONTH_TWINS, TWINS, UNITS};
use second::check::entry::{COUNT, TIME_UNIT};
use second::check::{Answer, Time};

/// Columns of 643: count and unit.
const GPDFAA: usize = 3;
const GPDFEE: usize = 4;

/// The rows that fit the age.
#[derive(Clone, Copy, PartialEq, Eq, PartialOrd, Ord, Debug)]
pub enum Rows {
    /// The unit beside has the count, the entered one has not.
    BesideHasCount,
    /// Neither has the count; the unit beside has a row, the entered one has none.
    BesideHasRow,
    /// Both units have the count.
    BothHaveCount,
}

/// What came of them.
#[derive(Clone, Copy, PartialEq, Eq, PartialOrd, Ord, Debug)]
pub enum Came {
    Exact,
    Twin,
    Signal(u32),
}

const ONLY_COUNT: Came = Came::Signal(115);
const ONLY_UNIT: Came = Came::Signal(116);
const BOTH: Came = Came::Signal(117);

#[derive(Clone, Copy, PartialEq, Eq, PartialOrd, Ord, Debug)]
pub struct Exchange {
    pub unit: u32,
    pub setting: Setting,
    pub rows: Rows,
    pub came: Came,
}

/// The answer to an entry, whose setting this is.
pub fn exchange(case: &Case, answer: &Answer, entry: &Numbers, setting: Setting) -> Option<Exchange> {
    let unit = entry[TIME_UNIT];
    let rows = rows(&frequencies(case, answer, entry), entry[COUNT], unit, beside(unit)?)?;
    let came = match answer.ways.time {
        Time::Exact => Came::Exact,
        Time::Twin(_) => Came::Twin,
        // Whatever edition gives it.
        Time::NotReached => Came::Signal(answer.test.answer()),
    };
    Some(Exchange { unit, setting, rows, came })
}

/// Count and unit of the rows that step 9 looks at.
fn frequencies(case: &Case, answer: &Answer, entry: &Numbers) -> Vec<(u32, u32)> {
    of_age(case, answer, entry).iter().map(|row| (row[GPDFAA] as u32, row[GPDFEE] as u32)).collect()
}

fn rows(rows: &[(u32, u32)], count: u32, unit: u32, beside: u32) -> Option<Rows> {
    let has_row = |unit: u32| rows.iter().any(|row| row.1 == unit);
    match (rows.contains(&(count, unit)), rows.contains(&(count, beside))) {
        (true, true) => Some(Rows::BothHaveCount),
        (false, true) => Some(Rows::BesideHasCount),
        (false, false) if has_row(beside) && !has_row(unit) => Some(Rows::BesideHasRow),
        _ => None,
    }
}

const OF_TWINS: &[(Rows, Came)] =
    &[(Rows::BesideHasCount, Came::Twin), (Rows::BesideHasRow, ONLY_COUNT), (Rows::BothHaveCount, Came::Exact)];
const OF_OTHERS: &[(Rows, Came)] = &[
    (Rows::BesideHasCount, ONLY_COUNT),
    (Rows::BesideHasCount, ONLY_UNIT),
    (Rows::BesideHasRow, ONLY_UNIT),
    (Rows::BesideHasRow, BOTH),
    (Rows::BothHaveCount, Came::Exact),
];

/// All that can occur, where months not given means what this setting means.
pub fn required(not_given: Setting) -> Vec<Exchange> {
    let mut all = vec![];
    for unit in UNITS {
        for setting in Setting::ALL {
            let means = if setting == Setting::NotGiven { not_given } else { setting };
            let twins = TWINS.contains(&unit) || MONTH_TWINS.contains(&unit) && means == Setting::On;
            let came = if twins { OF_TWINS } else { OF_OTHERS };
            all.extend(came.iter().map(|(rows, came)| Exchange { unit, setting, rows: *rows, came: *came }));
        }
    }
    all
}
