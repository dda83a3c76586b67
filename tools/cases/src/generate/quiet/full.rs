//! Categories of 512 rows per day, where the frequency is missing.

use super::*;
use crate::generate::full as rows_of_512;
use crate::generate::order::sort;
use second::check::entry::{HIGHEST, LOWEST};

const ROWS: u64 = 512;

/// What stands at one row of the 512: the rule that suppresses, or what prevents it.
#[derive(Clone, Copy, PartialEq)]
pub enum One {
    Suppresses,
    LimitsAbsent,
    NormMinimum,
}

/// Each row has a rule of its own with a norm maximum of 1,000. Where one suppresses, it is for 2 per day and the others
/// for 1; where one prevents it, all are for 2. K1 for 3, with 600 at a time: 1,800 a day.
pub fn full(one: One, place: u64, rises: bool, r: &mut Random) -> Case {
    let mut case = Case::empty();
    let rule = |place: u64| KEY as u64 + 1 + place;
    let count = |other: u64| if one != One::Suppresses || other == place { 2 } else { 1 };
    let rows: Vec<Row> = (0..ROWS).map(|place| row(count(place), rule(place))).collect();
    push(&mut case, KEY as u64, 0, &[GENERAL], &rows);
    for other in 0..ROWS {
        let minimum = (other == place && one == One::NormMinimum) as u64;
        if other != place || one != One::LimitsAbsent {
            case.push(T649, &[rule(other), minimum, 1_000, 0]);
        }
    }
    if rises {
        case.tables.iter_mut().for_each(sort);
    } else {
        case.shuffle(r);
    }
    case.entries = vec![entry(KEY, 3, &[(LOWEST, 600), (HIGHEST, 600)])];
    case
}

/// Entries that are missed by a category of `generate::full`, in front of the one that was made for it: its rows have
/// counts of 1 and 2, and one rule, whose norm maximum is 1,000.
pub fn over_full(case: &mut Case) {
    let Some(last) = case.entries.pop() else { return };
    for dose in [333, 334, 666, 667] {
        let mut missing = last;
        (missing[COUNT], missing[LOWEST], missing[HIGHEST], missing[QUIET]) = (3, dose, dose, QUIET_ON);
        debug_assert_eq!(missing[GPK] as u64, rows_of_512::KEY);
        case.entries.push(missing);
    }
    case.entries.push(last);
}
