//! What quiet on costs (P4): a category of 512 rows per day, each with a rule of its own, on a table 649 that is full.

use cases::generate::case::Case;
use cases::generate::proof_table::changed;
use cases::random::Random;
use second::check::entry::{COUNT, GPK, HIGHEST, LOWEST, QUIET, QUIET_OFF, QUIET_ON};
use second::check::fields::ROWS_MOST;
use second::check::Table::{T640, T641, T642, T643, T649};

const ROWS: u64 = 512;
/// So far apart stand the rules in 649.
const APART: u64 = ROWS_MOST as u64 / ROWS;
const SEED: u64 = 649;

/// The entries of a case with quiet on.
pub fn on(mut case: Case) -> Case {
    case.entries.iter_mut().for_each(|entry| entry[QUIET] = QUIET_ON);
    case
}

/// Each entry is missed by all rows, and only the last row's rule suppresses the signal.
pub fn category(order: &str, entries: u32, setting: &str) -> Case {
    let mut case = Case::empty();
    case.push(T640, &[1, 3, 0]);
    case.push(T641, &[1, 0, 0, 1, 1]);
    case.push(T642, &[1, 3, 17_752, 0, 0, 1]);
    for place in 1..=ROWS {
        let count = if place == ROWS { 2 } else { 1 };
        case.push(T643, &[1, 0, 999_999, count, 19, 0, 999_999, 0, 999_999, place * APART]);
    }
    (1..=ROWS_MOST as u64).for_each(|rule| case.push(T649, &[rule, 0, 1_000, 0]));
    if order == "spread" {
        case.shuffle(&mut Random::new(SEED));
    }
    let setting = if setting == "on" { QUIET_ON } else { QUIET_OFF };
    let entry = changed(&[(GPK, 1), (COUNT, 3), (LOWEST, 600), (HIGHEST, 600), (QUIET, setting)]);
    case.entries = vec![entry; entries as usize];
    case
}
