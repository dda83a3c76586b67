//! What P7 speaks of, and what it leaves alone: each answer by itself, in each edition and in none.

use super::{with_edition, EDITIONS, NO_EDITIONS};
use crate::generate::case::{Case, Numbers};
use crate::generate::full;
use crate::generate::proof_table::{changed, tables as proof_table, with_table_70};
use crate::generate::space::{NO_UPPER, Q_GENERAL};
use crate::random::Random;
use second::check::entry::*;
use second::check::Table::*;

/// GPKs beside the proof table's; basis, category and rule have their number.
pub const KEY: u32 = 4_000_000;
/// A narrow range; levels for HPKs alone; a surface below 1,500; two rows in 640, settings, rows of 643; a rule that is
/// not in 649, and one that is there twice.
const NARROW: u32 = KEY + 1;
const OF_HPKS: u32 = KEY + 2;
const BY_SURFACE: u32 = KEY + 3;
const TWICE_IN_640: u32 = KEY + 4;
const TWICE_IN_642: u32 = KEY + 5;
const TWICE_IN_643: u32 = KEY + 6;
const NOT_IN_649: u32 = KEY + 7;
const TWICE_IN_649: u32 = KEY + 8;

/// HPKs of 641, of which table 70 has none: with a row, with two, and without.
const HPK_ONCE: u32 = 4_101;
const HPK_TWICE: u32 = 4_102;
const HPK_ABSENT: u32 = 4_103;

/// SRTCDE of the units, and units of K1's: not in 730, there twice, with amounts that are 0 and above.
const SRTCDE_OF_UNITS: u32 = 3;
const NO_UNIT: u32 = 301;
const UNIT_TWICE: u32 = 302;
const UNIT_ZERO: u32 = 303;
const UNIT_ABOVE: u32 = 304;

fn times(number: u32, twice: u32) -> std::ops::Range<u32> {
    0..if number == twice { 2 } else { 1 }
}

fn product(case: &mut Case, key: u32) {
    let k = key as u64;
    for _ in times(key, TWICE_IN_640) {
        case.push(T640, &[k, 3, (key == NARROW) as u64]);
    }
    match key {
        OF_HPKS => [HPK_ONCE, HPK_TWICE, HPK_TWICE].iter().for_each(|hpk| case.push(T641, &[k, 0, *hpk as u64, 2, k])),
        _ => case.push(T641, &[k, 0, 0, 1, k]),
    }
    for _ in times(key, TWICE_IN_642) {
        case.push(T642, &[k, 3, Q_GENERAL, 0, 0, k]);
    }
    let surface = if key == BY_SURFACE { 1_500 } else { NO_UPPER };
    for _ in times(key, TWICE_IN_643) {
        case.push(T643, &[k, 0, NO_UPPER, 2, 19, 0, NO_UPPER, 0, surface, k]);
    }
    if key != NOT_IN_649 {
        times(key, TWICE_IN_649).for_each(|_| case.push(T649, &[k, 500, 2_000, 3_000]));
    }
}

/// The proof table and its table 70, with these products and units.
pub fn tables() -> Case {
    let mut case = with_table_70(&[]);
    (NARROW..=TWICE_IN_649).for_each(|key| product(&mut case, key));
    let units = [(1_000, 233), (1_000, UNIT_TWICE), (1_000, UNIT_TWICE), (0, UNIT_ZERO), (10_000_000_000, UNIT_ABOVE)];
    for (amount, unit) in units {
        case.push(T730, &[SRTCDE_OF_UNITS as u64, KEY as u64, amount, unit as u64]);
    }
    case
}

type Changes = &'static [(usize, u32)];

/// What is asked: changes from K1.
pub struct Asked {
    pub name: &'static str,
    changes: Changes,
}

impl Asked {
    pub fn entry(&self) -> Numbers {
        changed(self.changes)
    }
}

const fn ask(name: &'static str, changes: Changes) -> Asked {
    Asked { name, changes }
}

const fn unit(unit: u32) -> [(usize, u32); 3] {
    [(SRTCDE, SRTCDE_OF_UNITS), (CODE, KEY), (ENTERED_UNIT, unit)]
}

const TIMES_3: (usize, u32) = (COUNT, 3);
const QUIETLY: (usize, u32) = (QUIET, QUIET_ON);
const OTHER_UNIT: (usize, u32) = (TIME_UNIT, 46);
const WOMAN: [(usize, u32); 2] = [(GPK, 900_001), (SEX, 2)];

const ASKED: [Asked; 48] = [
    ask("K1", &[]),
    ask("dose 2,001", &[(LOWEST, 2_001), (HIGHEST, 2_001)]),
    ask("dose 3,001", &[(LOWEST, 3_001), (HIGHEST, 3_001)]),
    ask("lowest 499", &[(LOWEST, 499)]),
    ask("narrow, dose 2,001", &[(GPK, NARROW), (HIGHEST, 2_001)]),
    ask("narrow, dose 3,001", &[(GPK, NARROW), (HIGHEST, 3_001)]),
    ask("narrow, lowest 499", &[(GPK, NARROW), (LOWEST, 499)]),
    ask("age blank", &[(AGE, BLANK)]),
    ask("sex blank", &[(GPK, 900_001)]),
    ask("HPK blank", &[(GPK, OF_HPKS)]),
    ask("PRK blank", &WOMAN),
    ask("weight blank", &[(WEIGHT, BLANK)]),
    ask("surface blank", &[(GPK, BY_SURFACE)]),
    ask("no GPK", &[(GPK, 0)]),
    ask("GPK not in 640", &[(GPK, 5)]),
    ask("the other sex", &[(GPK, 900_001), (SEX, 1)]),
    ask("no setting", &[(GPK, 900_001), (SEX, 2), (PRK, 7_001)]),
    ask("no row for the age", &[(AGE, 71)]),
    ask("weight 80,001", &[(WEIGHT, 80_001)]),
    ask("surface 1,500", &[(GPK, BY_SURFACE), (SURFACE, 1_500)]),
    ask("twice in 640", &[(GPK, TWICE_IN_640)]),
    ask("twice in 641", &[(GPK, OF_HPKS), (HPK, HPK_TWICE)]),
    ask("twice in 642", &[(GPK, TWICE_IN_642)]),
    ask("twice in 643", &[(GPK, TWICE_IN_643)]),
    ask("twice in 649", &[(GPK, TWICE_IN_649)]),
    ask("twice in 730", &unit(UNIT_TWICE)),
    ask("twice in 70", &[(HPK, 4_004)]),
    ask("not in 641", &[(GPK, OF_HPKS), (HPK, HPK_ABSENT)]),
    ask("not in 649", &[(GPK, NOT_IN_649)]),
    ask("no lowest dose", &[(LOWEST, 0)]),
    ask("unit not in 730", &unit(NO_UNIT)),
    ask("amount 0", &unit(UNIT_ZERO)),
    ask("amount above", &unit(UNIT_ABOVE)),
    ask("another PRK than the HPK's", &[(HPK, 4_001), (PRK, 1)]),
    ask("K11, count", &[TIMES_3]),
    ask("K11, unit", &[OTHER_UNIT]),
    ask("K11, both", &[TIMES_3, OTHER_UNIT]),
    ask("count differs, by the HPK's GPK", &[TIMES_3, (HPK, 4_001), (GPK, 0)]),
    ask("quiet off, count differs", &[TIMES_3, (QUIET, QUIET_OFF), (WEIGHT, 60_000), (LOWEST, 1), (HIGHEST, 1)]),
    ask("quiet, dose 999", &[TIMES_3, QUIETLY, (WEIGHT, 60_000), (LOWEST, 999), (HIGHEST, 999)]),
    ask("quiet, care 2", &[TIMES_3, QUIETLY, (CARE, 2), (LOWEST, 2_666), (HIGHEST, 2_666)]),
    ask("quiet, dose 1,000", &[TIMES_3, QUIETLY, (WEIGHT, 60_000), (LOWEST, 1_000), (HIGHEST, 1_000)]),
    ask("quiet, unit differs", &[QUIETLY, OTHER_UNIT, (WEIGHT, 60_000), (LOWEST, 999), (HIGHEST, 999)]),
    ask("quiet, both differ", &[TIMES_3, QUIETLY, OTHER_UNIT, (WEIGHT, 60_000), (LOWEST, 999), (HIGHEST, 999)]),
    ask("quiet, narrow", &[TIMES_3, QUIETLY, (GPK, NARROW)]),
    ask("quiet, weight asked", &[TIMES_3, QUIETLY, (WEIGHT, BLANK)]),
    ask("quiet, surface asked", &[TIMES_3, QUIETLY, (GPK, BY_SURFACE)]),
    ask("quiet, surface 1,500", &[TIMES_3, QUIETLY, (GPK, BY_SURFACE), (SURFACE, 1_500)]),
];

/// What is asked.
pub fn asked() -> &'static [Asked] {
    &ASKED
}

/// In edition 2, in edition 1, and in a number that is none, of which each has its turn.
fn in_each(entry: Numbers, turn: usize) -> [Numbers; 3] {
    let [former, now] = EDITIONS;
    [now, former, NO_EDITIONS[turn % NO_EDITIONS.len()]].map(|edition| with_edition(entry, edition))
}

/// All that is asked, each in three editions.
pub fn each() -> Case {
    let mut case = tables();
    case.entries = ASKED.iter().enumerate().flat_map(|(turn, asked)| in_each(asked.entry(), turn)).collect();
    case
}

/// K11 over the proof table where 649 has a byte too many (121), and where 640 has a number out of range (122).
pub fn bad_tables() -> [Case; 2] {
    let mut case = proof_table();
    case.entries = in_each(changed(&[TIMES_3]), 1).to_vec();
    let (mut not_whole, mut out_of_range) = (case.clone(), case);
    not_whole.rows(T649).tail.push(0);
    out_of_range.rows(T640).row(1)[1] = 4;
    [not_whole, out_of_range]
}

/// A category of 513 rows (120).
pub fn too_long(seed: u64) -> Case {
    let mut case = full::full(full::TOO_LONG, &mut Random::of_case(seed, 0));
    case.entries = in_each(case.entries[0], 0).to_vec();
    case
}
