//! Document 01's proof table, with K1 to K15 and the answers it gives, as document 02, P1, changes them. By P3 they say
//! months on, by P7 edition 2. Behind them the examples of P4 and of P5.

use super::case::{Case, Numbers, NO_ENTRY};
use second::check::entry::*;
use second::check::{Table, NUMBERS};

const ROWS_640: [[u64; 3]; 2] = [[103_136, 3, 0], [900_001, 2, 1]];
const ROWS_641: [[u64; 5]; 3] = [[103_136, 0, 0, 1, 1500], [900_001, 0, 0, 1, 1600], [900_001, 7001, 0, 2, 1601]];
const ROWS_642: [[u64; 6]; 3] =
    [[1500, 3, 17_752, 0, 0, 33_784], [1500, 2, 17_752, 0, 0, 33_790], [1500, 3, 5000, 0, 0, 33_785]];
const ROWS_643: [[u64; 10]; 5] = [
    [33_784, 216_000, 999_999, 2, 19, 70_000, 80_000, 0, 999_999, 1],
    [33_784, 216_000, 999_999, 2, 19, 0, 70_000, 0, 999_999, 2],
    [33_784, 72_000, 216_000, 1, 19, 0, 999_999, 0, 999_999, 3],
    [33_785, 216_000, 999_999, 1, 19, 0, 999_999, 0, 999_999, 4],
    [33_790, 0, 999_999, 2, 19, 0, 999_999, 0, 999_999, 5],
];
const ROWS_649: [[u64; 4]; 5] =
    [[1, 500, 2000, 3000], [2, 0, 1500, 0], [3, 0, 1000, 1500], [4, 0, 1000, 0], [5, 0, 4000, 6000]];

pub fn tables() -> Case {
    let mut case = Case::empty();
    ROWS_640.iter().for_each(|row| case.push(Table::T640, row));
    ROWS_641.iter().for_each(|row| case.push(Table::T641, row));
    ROWS_642.iter().for_each(|row| case.push(Table::T642, row));
    ROWS_643.iter().for_each(|row| case.push(Table::T643, row));
    ROWS_649.iter().for_each(|row| case.push(Table::T649, row));
    case
}

pub fn k1() -> Numbers {
    let mut entry = NO_ENTRY;
    for blank in [PRK, HPK, SEX, SURFACE, QUIET] {
        entry[blank] = BLANK;
    }
    entry[GPK] = 103_136;
    entry[AGE] = 240;
    entry[WEIGHT] = 75_000;
    entry[CARE] = 3;
    entry[COUNT] = 2;
    entry[TIME_UNIT] = 19;
    entry[LOWEST] = 2_000;
    entry[HIGHEST] = 2_000;
    entry[ENTERED_UNIT] = 233;
    entry[BASE_UNIT] = 233;
    entry[MONTHS] = MONTHS_ON;
    entry
}

/// A K case: its name, its changes from K1, and the nine numbers that it gets.
pub type K = (&'static str, &'static [(usize, u32)], [u32; NUMBERS]);

pub const K: [K; 23] = [
    ("K1", &[], [100, 0, 0, 1500, 33_784, 1, 0, 0, 0]),
    ("K2", &[(LOWEST, 2_001), (HIGHEST, 2_001)], [100, 1, 0, 1500, 33_784, 1, 1, 0, 0]),
    ("K3, 3,000", &[(LOWEST, 3_000), (HIGHEST, 3_000)], [100, 1, 0, 1500, 33_784, 1, 1, 0, 0]),
    ("K3, 3,001", &[(LOWEST, 3_001), (HIGHEST, 3_001)], [100, 3, 0, 1500, 33_784, 1, 2, 0, 0]),
    ("K4", &[(LOWEST, 499), (HIGHEST, 3_001)], [100, 3, 0, 1500, 33_784, 1, 2, 1, 0]),
    ("K5", &[(WEIGHT, BLANK)], [105, 10, 0, 1500, 33_784, 0, 0, 0, 0]),
    ("K6", &[(WEIGHT, 70_000)], [100, 0, 0, 1500, 33_784, 1, 0, 0, 0]),
    ("K7", &[(WEIGHT, 80_001)], [118, 14, 0, 1500, 33_784, 0, 0, 0, 0]),
    ("K8", &[(GPK, 900_001), (AGE, BLANK)], [101, 12, 0, 0, 0, 0, 0, 0, 0]),
    ("K9", &[(AGE, 1_080)], [100, 0, 0, 1500, 33_784, 1, 0, 0, 0]),
    ("K10", &[(AGE, 216), (COUNT, 1)], [115, 24, 0, 1500, 33_784, 0, 0, 0, 0]),
    ("K11, count", &[(COUNT, 3)], [115, 24, 0, 1500, 33_784, 0, 0, 0, 0]),
    ("K11, unit", &[(TIME_UNIT, 46)], [116, 25, 0, 1500, 33_784, 0, 0, 0, 0]),
    ("K11, both", &[(COUNT, 3), (TIME_UNIT, 46)], [117, 8, 0, 1500, 33_784, 0, 0, 0, 0]),
    ("K12, sex 1", &[(GPK, 900_001), (SEX, 1)], [112, 7, 0, 0, 0, 0, 0, 0, 0]),
    ("K12, sex 2", &[(GPK, 900_001), (SEX, 2)], [104, 16, 0, 0, 0, 0, 0, 0, 0]),
    ("K13", &[(CARE, 2), (WEIGHT, BLANK)], [100, 0, 0, 1500, 33_790, 5, 0, 0, 0]),
    ("K14", &[(REASON, 5_000), (COUNT, 1)], [100, 1, 0, 1500, 33_785, 4, 1, 0, 0]),
    ("K15, reason 6000", &[(REASON, 6_000)], [100, 0, 0, 1500, 33_784, 1, 0, 0, 0]),
    ("K15, care 2", &[(REASON, 5_000), (CARE, 2)], [100, 0, 0, 1500, 33_790, 5, 0, 0, 0]),
    (
        "K15, care 2, weight blank",
        &[(REASON, 5_000), (CARE, 2), (WEIGHT, BLANK)],
        [100, 0, 0, 1500, 33_790, 5, 0, 0, 0],
    ),
    ("K13, weight known", &[(CARE, 2)], [100, 0, 0, 1500, 33_790, 5, 0, 0, 0]),
    ("P1, weight 80,000", &[(WEIGHT, 80_000)], [118, 14, 0, 1500, 33_784, 0, 0, 0, 0]),
];

const QUIETLY: (usize, u32) = (QUIET, QUIET_ON);
const TIMES_3: (usize, u32) = (COUNT, 3);
const NO_SIGNAL: [u32; NUMBERS] = [100, 0, 0, 1500, 33_784, 0, 0, 0, 115];
const SIGNAL: [u32; NUMBERS] = [115, 24, 0, 1500, 33_784, 0, 0, 0, 0];

/// P4 over the proof table: for 3 with quiet on, but for one of them.
pub const QUIET_K: [K; 8] = [
    ("weight 75,000", &[TIMES_3, QUIETLY], SIGNAL),
    ("weight 60,000, dose 1,000", &[TIMES_3, QUIETLY, (WEIGHT, 60_000), (LOWEST, 1_000), (HIGHEST, 1_000)], SIGNAL),
    ("weight 60,000, dose 999", &[TIMES_3, QUIETLY, (WEIGHT, 60_000), (LOWEST, 999), (HIGHEST, 999)], NO_SIGNAL),
    ("weight blank", &[TIMES_3, QUIETLY, (WEIGHT, BLANK)], [105, 10, 0, 1500, 33_784, 0, 0, 0, 0]),
    ("weight blank, quiet off", &[TIMES_3, (QUIET, QUIET_OFF), (WEIGHT, BLANK)], SIGNAL),
    ("weight 80,000", &[TIMES_3, QUIETLY, (WEIGHT, 80_000)], SIGNAL),
    (
        "care 2, dose 2,666",
        &[TIMES_3, QUIETLY, (CARE, 2), (WEIGHT, BLANK), (LOWEST, 2_666), (HIGHEST, 2_666)],
        [100, 0, 0, 1500, 33_790, 0, 0, 0, 115],
    ),
    (
        "care 2, dose 2,667",
        &[TIMES_3, QUIETLY, (CARE, 2), (WEIGHT, BLANK), (LOWEST, 2_667), (HIGHEST, 2_667)],
        [115, 24, 0, 1500, 33_790, 0, 0, 0, 0],
    ),
];

/// P5 over the proof table: an HPK of K1's product, two of K12's, one of two rows that agree, and 004's of another.
const ROWS_70: [[u64; 6]; 6] = [
    [4_001, 8_001, 1, 103_136, 1, 1],
    [4_002, 7_001, 1, 900_001, 2, 2],
    [4_003, 7_002, 1, 900_001, 1, 1],
    [4_004, 8_001, 1, 103_136, 1, 1],
    [4_004, 8_001, 1, 103_136, 1, 1],
    [216_267, 5_541, 1, 16_004, 1, 1],
];
const WOMAN: (usize, u32) = (SEX, 2);
const K12: (usize, u32) = (GPK, 900_001);
const DIFFERS: [u32; NUMBERS] = [133, 0, 0, 0, 0, 0, 0, 0, 0];

/// K1 with an HPK, over the proof table and `ROWS_70`.
pub const HPK_K: [K; 12] = [
    ("4001 brings the GPK", &[(HPK, 4_001), (GPK, 0)], [100, 0, 0, 1500, 33_784, 1, 0, 0, 0]),
    ("4001, the GPK is given", &[(HPK, 4_001)], [100, 0, 0, 1500, 33_784, 1, 0, 0, 0]),
    ("4002 brings the PRK", &[(HPK, 4_002), K12, WOMAN], [113, 0, 0, 1601, 0, 0, 0, 0, 0]),
    ("4002 brings both", &[(HPK, 4_002), (GPK, 0), WOMAN], [113, 0, 0, 1601, 0, 0, 0, 0, 0]),
    ("4002, sex blank", &[(HPK, 4_002), (GPK, 0)], [102, 7, 0, 0, 0, 0, 0, 0, 0]),
    ("4003 brings a PRK without rows", &[(HPK, 4_003), K12, WOMAN], [113, 0, 0, 1600, 0, 0, 0, 0, 0]),
    ("4005 has no row", &[(HPK, 4_005), K12, WOMAN], [104, 16, 0, 0, 0, 0, 0, 0, 0]),
    ("4005 has no row, GPK 0", &[(HPK, 4_005), (GPK, 0)], [110, 0, 0, 0, 0, 0, 0, 0, 0]),
    ("4002 with PRK 7002", &[(HPK, 4_002), (PRK, 7_002), K12, WOMAN], DIFFERS),
    ("4002 with K1's GPK", &[(HPK, 4_002)], DIFFERS),
    ("4004 has two rows", &[(HPK, 4_004)], [123, 0, 70, 0, 0, 0, 0, 0, 0]),
    ("216267 brings a GPK that is not in 640", &[(HPK, 216_267), (GPK, 0)], [111, 16, 0, 0, 0, 0, 0, 0, 0]),
];

/// Those that were there before P1: what was stored then has no others.
pub const BEFORE_P1: usize = 22;

pub fn changed(changes: &[(usize, u32)]) -> Numbers {
    let mut entry = k1();
    for (place, number) in changes {
        entry[*place] = *number;
    }
    entry
}

/// The proof table with all K cases as its entries.
pub fn k_case() -> Case {
    with(&K)
}

/// The same with another months setting: no unit of it has a twin that a row has, so that the answers stay.
pub fn with_months(setting: u32) -> Case {
    let mut case = k_case();
    case.entries.iter_mut().for_each(|entry| entry[MONTHS] = setting);
    case
}

/// The same with a quiet setting: where the frequency is missing the rule has a norm minimum, or the unit is not per
/// day, so that the answers stay.
pub fn with_quiet(setting: u32) -> Case {
    let mut case = k_case();
    case.entries.iter_mut().for_each(|entry| entry[QUIET] = setting);
    case
}

/// The same in an edition (P7).
pub fn with_edition(edition: u32) -> Case {
    let mut case = k_case();
    case.entries.iter_mut().for_each(|entry| entry[EDITION] = edition);
    case
}

/// Over the proof table and `ROWS_70`: the answers of K1 to K15, which give no HPK, stay.
pub fn with_table_70(ks: &[K]) -> Case {
    let mut case = with(ks);
    ROWS_70.iter().for_each(|row| case.push(Table::T70, row));
    case
}

pub fn with(ks: &[K]) -> Case {
    let mut case = tables();
    case.entries = ks.iter().map(|k| changed(k.1)).collect();
    case
}
