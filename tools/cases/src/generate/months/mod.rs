//! Document 02, P3: months settings, and rows of the time unit beside the entered one.

mod add;
mod each;

pub use add::add;
pub use each::{asked, each, ranges, Asked};

use super::case::{Case, Numbers};
use super::proof_table::changed;
use super::space::{NO_UPPER, Q_GENERAL};
use second::check::entry::{BLANK, COUNT, GPK, MONTHS, MONTHS_OFF, MONTHS_ON, TIME_UNIT};
use second::check::Table::*;

/// Twins, and twins with months on; 45 and 46 never are.
pub const TWINS: [u32; 4] = [21, 22, 50, 51];
pub const MONTH_TWINS: [u32; 4] = [35, 36, 40, 41];
const PER_DAY: u32 = 19;

/// Each unit that has one beside it: 21 and 22 stand beside each other, and so on.
pub const UNITS: [u32; 10] = [21, 22, 35, 36, 40, 41, 45, 46, 50, 51];

/// The unit beside the entered one.
pub fn beside(unit: u32) -> Option<u32> {
    let place = UNITS.iter().position(|other| *other == unit)?;
    Some(UNITS[place ^ 1])
}

/// A months setting that is in range.
#[derive(Clone, Copy, PartialEq, Eq, PartialOrd, Ord, Debug)]
pub enum Setting {
    On,
    Off,
    NotGiven,
}

impl Setting {
    pub const ALL: [Setting; 3] = [Setting::On, Setting::Off, Setting::NotGiven];

    pub fn number(self) -> u32 {
        [MONTHS_ON, MONTHS_OFF, BLANK][self as usize]
    }

    pub fn of(entry: &Numbers) -> Option<Setting> {
        Setting::ALL.into_iter().find(|setting| setting.number() == entry[MONTHS])
    }
}

/// A setting that is out of range (125).
pub const NO_SETTING: u32 = 7;

/// Entries that gave no setting say on.
pub fn say_on(entries: &mut [Numbers]) {
    entries.iter_mut().filter(|entry| entry[MONTHS] == BLANK).for_each(|entry| entry[MONTHS] = MONTHS_ON);
}

/// The first GPK, its basis and its category; those of others follow, and so do the rules. No other row of a case has
/// them.
pub const KEY: u32 = 7_000_000;
const RULE_1: u64 = KEY as u64 + 1;
const RULE_2: u64 = KEY as u64 + 2;

/// Which unit a row has.
#[derive(Clone, Copy)]
enum Of {
    Entered,
    Beside,
    Day,
}

impl Of {
    fn unit(self, entered: u32) -> u64 {
        let beside = beside(entered).expect("a unit that has one beside it");
        [entered, beside, PER_DAY][self as usize] as u64
    }
}

type Bounds = (u64, u64);
const OPEN: Bounds = (0, NO_UPPER);

/// A row of a category.
#[derive(Clone, Copy)]
struct Row {
    count: u64,
    of: Of,
    age: Bounds,
    weight: Bounds,
    surface: Bounds,
    rule: u64,
}

const fn row(count: u64, of: Of, rule: u64) -> Row {
    Row { count, of, age: OPEN, weight: OPEN, surface: OPEN, rule }
}

/// A product whose category has these rows.
fn push(case: &mut Case, key: u64, entered: u32, rows: &[Row]) {
    case.push(T640, &[key, 3, 0]);
    case.push(T641, &[key, 0, 0, 1, key]);
    case.push(T642, &[key, 3, Q_GENERAL, 0, 0, key]);
    for Row { count, of, age, weight, surface, rule } in rows {
        let unit = of.unit(entered);
        let row = [key, age.0, age.1, *count, unit, weight.0, weight.1, surface.0, surface.1, *rule];
        case.push(T643, &row);
    }
}

/// K1's dose is above rule 1's norm maximum, and below rule 2's.
fn push_limits(case: &mut Case) {
    case.push(T649, &[RULE_1, 0, 1_000, 2_000]);
    case.push(T649, &[RULE_2, 0, 4_000, 0]);
}

fn entry(key: u32, unit: u32, count: u32, months: u32, changes: &[(usize, u32)]) -> Numbers {
    let own = [(GPK, key), (TIME_UNIT, unit), (COUNT, count), (MONTHS, months)];
    changed(&[&own, changes].concat())
}
