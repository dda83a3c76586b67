//! For each time unit that has one beside it: what step 9 may find of the two, asked with each months setting.

use super::Of::{Beside, Day, Entered};
use super::*;
use crate::generate::counts::{CountCase, Range};
use second::check::entry::{AGE, SURFACE, WEIGHT};

/// A rule that is not in 649, and one that is there twice.
const RULE_ABSENT: u64 = KEY as u64 + 3;
const RULE_TWICE: u64 = KEY as u64 + 4;

const BESIDE_1: Row = row(2, Beside, RULE_1);
const BESIDE_2: Row = row(2, Beside, RULE_2);

/// Rows of a category.
const ALONE: &[Row] = &[BESIDE_1];
const OTHER_COUNT: &[Row] = &[BESIDE_1, row(3, Entered, RULE_2)];
const BOTH: &[Row] = &[BESIDE_1, row(2, Entered, RULE_2)];
const ON_ANOTHER_ROW: &[Row] = &[row(3, Beside, RULE_1), row(2, Day, RULE_2)];
const OF_WEIGHT: &[Row] = &[Row { weight: (0, 70_000), ..BESIDE_1 }, Row { weight: (70_000, 80_000), ..BESIDE_2 }];
const OF_SURFACE: &[Row] = &[Row { surface: (0, 1_500), ..BESIDE_1 }, Row { surface: (1_500, 2_000), ..BESIDE_2 }];
const SEVERAL: &[Row] = &[BESIDE_1, BESIDE_2];
const BAD_RULES: &[Row] = &[row(2, Beside, RULE_ABSENT), row(3, Beside, RULE_TWICE)];
const OF_AGE: &[Row] = &[
    Row { age: (240_000, NO_UPPER), ..BESIDE_1 },
    Row { age: (0, 240_000), ..row(2, Entered, RULE_2) },
    Row { age: (0, 240_000), ..row(3, Beside, RULE_1) },
];

/// Each under a GPK of its own.
const CATEGORIES: [&[Row]; 9] =
    [ALONE, OTHER_COUNT, BOTH, ON_ANOTHER_ROW, OF_WEIGHT, OF_SURFACE, SEVERAL, BAD_RULES, OF_AGE];

type Changes = &'static [(usize, u32)];

/// An entry over one of the categories.
pub struct Asked {
    pub name: &'static str,
    category: usize,
    changes: Changes,
    /// What it is checked for.
    pub counts: &'static [u32],
}

impl Asked {
    /// GPK, basis and category.
    pub fn key(&self) -> u32 {
        KEY + self.category as u32
    }

    fn entry(&self, unit: u32, count: u32, months: u32) -> Numbers {
        entry(self.key(), unit, count, months, self.changes)
    }
}

const fn ask(name: &'static str, category: usize, changes: Changes, counts: &'static [u32]) -> Asked {
    Asked { name, category, changes, counts }
}

const ASKED: [Asked; 14] = [
    ask("the unit beside for 2", 0, &[], &[2, 3]),
    ask("the unit beside for 2, the entered one for 3", 1, &[], &[2, 3, 4]),
    ask("both units for 2", 2, &[], &[2]),
    ask("the unit beside for 3, per day for 2", 3, &[], &[2, 3, 4]),
    ask("weight blank", 4, &[(WEIGHT, BLANK)], &[2]),
    ask("weight in the second row", 4, &[(WEIGHT, 70_000)], &[2]),
    ask("weight in no row", 4, &[(WEIGHT, 80_000)], &[2]),
    ask("surface blank", 5, &[(SURFACE, BLANK)], &[2]),
    ask("surface in the second row", 5, &[(SURFACE, 1_500)], &[2]),
    ask("surface in no row", 5, &[(SURFACE, 2_000)], &[2]),
    ask("two rows of the unit beside", 6, &[], &[2]),
    ask("a rule that is not in 649, and one that is there twice", 7, &[], &[2, 3]),
    ask("240 months: the unit beside for 2", 8, &[(AGE, 240)], &[2]),
    ask("239 months: the entered unit for 2, the one beside for 3", 8, &[(AGE, 239)], &[2, 3]),
];
/// So many of them, and of the categories, speak of step 9 alone.
const OF_STEP_9: usize = 4;

/// What is asked with a unit: all of it where the setting matters.
pub fn asked(unit: u32) -> &'static [Asked] {
    match MONTH_TWINS.contains(&unit) {
        true => &ASKED,
        false => &ASKED[..OF_STEP_9],
    }
}

fn tables(unit: u32) -> Case {
    let mut case = Case::empty();
    let categories = match MONTH_TWINS.contains(&unit) {
        true => &CATEGORIES[..],
        false => &CATEGORIES[..OF_STEP_9],
    };
    for (key, rows) in (KEY as u64..).zip(categories) {
        push(&mut case, key, unit, rows);
    }
    push_limits(&mut case);
    for _ in 0..2 {
        case.push(T649, &[RULE_TWICE, 0, 0, 0]);
    }
    case
}

/// All that is asked with a unit, each with every setting; then one that is out of range.
pub fn each(unit: u32) -> Case {
    let mut case = tables(unit);
    for asked in asked(unit) {
        for count in asked.counts {
            case.entries.extend(Setting::ALL.map(|setting| asked.entry(unit, *count, setting.number())));
        }
    }
    case.entries.push(ASKED[0].entry(unit, 2, NO_SETTING));
    case
}

/// First, last and places.
const RANGE: [u32; 3] = [1, 4, 4];
/// The twin's count first, with a place more; alone; behind 0; 1,000 among others; 131 and 132.
const OTHER_RANGES: [[u32; 3]; 6] = [[2, 5, 5], [2, 2, 1], [0, 2, 3], [998, 1_001, 4], [3, 2, 64], [1, 4, 3]];
const SETTINGS: [u32; 4] = [MONTHS_ON, MONTHS_OFF, BLANK, NO_SETTING];

/// All that is asked with a unit, for 1 to 4 with every setting; where the setting matters the first of it for other
/// ranges, also with a setting that is out of range.
pub fn ranges(unit: u32) -> CountCase {
    let mut made = CountCase { case: tables(unit), ranges: vec![] };
    let mut push = |asked: &Asked, months: u32, [first, last, places]: [u32; 3]| {
        made.case.entries.push(asked.entry(unit, 2, months));
        made.ranges.push(Range { first, last, places });
    };
    for asked in asked(unit) {
        Setting::ALL.iter().for_each(|setting| push(asked, setting.number(), RANGE));
    }
    if MONTH_TWINS.contains(&unit) {
        OTHER_RANGES.iter().for_each(|range| SETTINGS.iter().for_each(|months| push(&ASKED[0], *months, *range)));
    }
    made
}
