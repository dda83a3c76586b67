//! Document 02, P4: quiet settings, and rows per day where the frequency is missing.

mod add;
mod doses;
mod each;
mod full;
mod products;

pub use add::add;
pub use each::{asked, each, ordered, ranges, Asked};
pub use full::{full, over_full, One};

use super::case::{Case, Numbers};
use super::proof_table::changed;
use super::space::{NO_UPPER, Q_GENERAL};
use crate::random::Random;
use second::check::entry::{BLANK, COUNT, GPK, QUIET, QUIET_OFF, QUIET_ON};
use second::check::Table::*;

/// A quiet setting that is in range.
#[derive(Clone, Copy, PartialEq, Eq, PartialOrd, Ord, Debug)]
pub enum Setting {
    On,
    Off,
    NotGiven,
}

impl Setting {
    pub const ALL: [Setting; 3] = [Setting::On, Setting::Off, Setting::NotGiven];

    pub fn number(self) -> u32 {
        [QUIET_ON, QUIET_OFF, BLANK][self as usize]
    }

    pub fn of(entry: &Numbers) -> Option<Setting> {
        Setting::ALL.into_iter().find(|setting| setting.number() == entry[QUIET])
    }
}

/// Settings that are out of range (125): the least, others, and the greatest that is not blank.
const NO_SETTINGS: [u32; 6] = [2, 2, 3, 257, 1 << 31, BLANK - 1];

/// What entries say that were stored before there was the setting.
pub fn not_given<'e>(entries: impl Iterator<Item = &'e mut Numbers>) {
    entries.for_each(|entry| entry[QUIET] = BLANK);
}

/// A setting for each entry, on for many of them.
pub fn set(entries: &mut [Numbers], r: &mut Random) {
    for entry in entries {
        entry[QUIET] = match r.below(100) {
            0..46 => QUIET_ON,
            46..72 => QUIET_OFF,
            72..99 => BLANK,
            _ => r.pick(&NO_SETTINGS),
        };
    }
}

/// The first GPK, its basis and its category; those of others follow, and so do the rules. No other row of a case has
/// them.
pub const KEY: u32 = 8_000_000;
const PER_DAY: u64 = 19;
const PER_2_DAYS: u64 = 21;

type Bounds = (u64, u64);
const OPEN: Bounds = (0, NO_UPPER);

/// A row of a category.
#[derive(Clone, Copy)]
struct Row {
    count: u64,
    unit: u64,
    age: Bounds,
    weight: Bounds,
    surface: Bounds,
    rule: u64,
}

const fn row(count: u64, rule: u64) -> Row {
    Row { count, unit: PER_DAY, age: OPEN, weight: OPEN, surface: OPEN, rule }
}

/// What a setting of 642 says besides its basis and category: ICPCNR1, ICPCTO and route.
type Of642 = [u64; 3];
const GENERAL: Of642 = [Q_GENERAL, 0, 0];

/// A product whose category has these rows.
fn push(case: &mut Case, key: u64, gprisc: u64, settings: &[Of642], rows: &[Row]) {
    case.push(T640, &[key, 3, gprisc]);
    case.push(T641, &[key, 0, 0, 1, key]);
    for [icpc, icpcto, route] in settings {
        case.push(T642, &[key, 3, *icpc, *icpcto, *route, key]);
    }
    for Row { count, unit, age, weight, surface, rule } in rows {
        let row = [key, age.0, age.1, *count, *unit, weight.0, weight.1, surface.0, surface.1, *rule];
        case.push(T643, &row);
    }
}

/// K1 over a category, quiet on.
fn entry(key: u32, count: u32, changes: &[(usize, u32)]) -> Numbers {
    let own = [(GPK, key), (COUNT, count), (QUIET, QUIET_ON)];
    changed(&[&own, changes].concat())
}
