//! Ranges over document 01's proof table, by hand: what document 02, P2, gives for each count.

use super::case::Numbers;
use super::counts::{CountCase, Range};
use super::proof_table::{changed, tables, with_months, with_quiet, with_table_70, HPK_K, K, QUIET_K};
use second::check::entry::*;
use second::check::Table;

/// A range: its name, the changes of its entry from K1, first, last and places, and the lines that it gets.
pub type KRange = (&'static str, &'static [(usize, u32)], [u32; 3], &'static [&'static str]);

/// No row of the category has the count: the rows that pass the age are per day, so the unit is there.
const COUNT_DIFFERS: &str = "115 24 0 1500 33784 0 0 0 0";
const COUNT_DIFFERS_IN_CARE_2: &str = "115 24 0 1500 33790 0 0 0 0";
const COUNT_DIFFERS_FOR_5000: &str = "115 24 0 1500 33785 0 0 0 0";
const RULE_1: &str = "100 0 0 1500 33784 1 0 0 0";
const RULE_1_HIGH_1: &str = "100 1 0 1500 33784 1 1 0 0";
const RULE_1_HIGH_2: &str = "100 3 0 1500 33784 1 2 0 0";
const RULE_5: &str = "100 0 0 1500 33790 5 0 0 0";
const NO_WEIGHT: &str = "118 14 0 1500 33784 0 0 0 0";
const BOTH_DIFFER: &str = "117 8 0 1500 33784 0 0 0 0";
const OUT_OF_RANGE: &str = "125 0 0 0 0 0 0 0 0";
const AGE_ASKED: &str = "101 12 0 0 0 0 0 0 0";
const OTHER_SEX: &str = "112 7 0 0 0 0 0 0 0";
const PRK_ASKED: &str = "104 16 0 0 0 0 0 0 0";
const ROW_DIFFERS: &str = "133 0 0 0 0 0 0 0 0";

const K1_1_TO_3: [&str; 3] = [COUNT_DIFFERS, RULE_1, COUNT_DIFFERS];
const CARE_2: [&str; 3] = [COUNT_DIFFERS_IN_CARE_2, RULE_5, COUNT_DIFFERS_IN_CARE_2];

/// What each entry of `K` gets for 1, 2 and 3.
pub const K_1_TO_3: [[&str; 3]; K.len()] = [
    K1_1_TO_3,
    [COUNT_DIFFERS, RULE_1_HIGH_1, COUNT_DIFFERS],
    [COUNT_DIFFERS, RULE_1_HIGH_1, COUNT_DIFFERS],
    [COUNT_DIFFERS, RULE_1_HIGH_2, COUNT_DIFFERS],
    [COUNT_DIFFERS, "100 3 0 1500 33784 1 2 1 0", COUNT_DIFFERS],
    [COUNT_DIFFERS, "105 10 0 1500 33784 0 0 0 0", COUNT_DIFFERS],
    K1_1_TO_3,
    [COUNT_DIFFERS, NO_WEIGHT, COUNT_DIFFERS],
    [AGE_ASKED; 3],
    K1_1_TO_3,
    // K10: at 216 months the row of 1 per day has ended, and K1's rows have begun.
    K1_1_TO_3,
    K1_1_TO_3,
    [BOTH_DIFFER, "116 25 0 1500 33784 0 0 0 0", BOTH_DIFFER],
    [BOTH_DIFFER, "116 25 0 1500 33784 0 0 0 0", BOTH_DIFFER],
    [OTHER_SEX; 3],
    [PRK_ASKED; 3],
    CARE_2,
    ["100 1 0 1500 33785 4 1 0 0", COUNT_DIFFERS_FOR_5000, COUNT_DIFFERS_FOR_5000],
    K1_1_TO_3,
    CARE_2,
    CARE_2,
    CARE_2,
    [COUNT_DIFFERS, NO_WEIGHT, COUNT_DIFFERS],
];

const WEIGHT_ASKED: &str = "105 10 0 1500 33784 0 0 0 0";
const RULE_2: &str = "100 0 0 1500 33784 2 0 0 0";
const SUPPRESSED: &str = "100 0 0 1500 33784 0 0 0 115";
const SUPPRESSED_IN_CARE_2: &str = "100 0 0 1500 33790 0 0 0 115";

/// What each entry of `K` gets for 1, 2 and 3 with quiet on: K5 is asked at each count, and 1 and 3 times 2,000 are
/// below what rule 5 allows, 4,000 twice a day. All else has a rule with a norm minimum, another unit or another setting.
pub const K_1_TO_3_QUIETLY: [[&str; 3]; K.len()] = {
    const CARE_2_QUIETLY: [&str; 3] = [SUPPRESSED_IN_CARE_2, RULE_5, SUPPRESSED_IN_CARE_2];
    let mut all = K_1_TO_3;
    all[5] = [WEIGHT_ASKED; 3];
    (all[16], all[19], all[20], all[21]) = (CARE_2_QUIETLY, CARE_2_QUIETLY, CARE_2_QUIETLY, CARE_2_QUIETLY);
    all
};

/// What each entry of `QUIET_K` gets for 1 to 4. Rule 2 allows 1,500 twice a day.
pub const QUIET_1_TO_4: [[&str; 4]; QUIET_K.len()] = [
    [D, RULE_1, D, D],
    [SUPPRESSED, RULE_2, D, D],
    [SUPPRESSED, RULE_2, SUPPRESSED, D],
    [WEIGHT_ASKED; 4],
    [D, WEIGHT_ASKED, D, D],
    [D, NO_WEIGHT, D, D],
    [SUPPRESSED_IN_CARE_2, RULE_5, SUPPRESSED_IN_CARE_2, COUNT_DIFFERS_IN_CARE_2],
    [SUPPRESSED_IN_CARE_2, RULE_5, COUNT_DIFFERS_IN_CARE_2, COUNT_DIFFERS_IN_CARE_2],
];

/// What each entry of `HPK_K` gets for 1, 2 and 3.
pub const HPK_1_TO_3: [[&str; 3]; HPK_K.len()] = [
    K1_1_TO_3,
    K1_1_TO_3,
    ["113 0 0 1601 0 0 0 0 0"; 3],
    ["113 0 0 1601 0 0 0 0 0"; 3],
    ["102 7 0 0 0 0 0 0 0"; 3],
    ["113 0 0 1600 0 0 0 0 0"; 3],
    [PRK_ASKED; 3],
    ["110 0 0 0 0 0 0 0 0"; 3],
    [ROW_DIFFERS; 3],
    [ROW_DIFFERS; 3],
    ["123 0 70 0 0 0 0 0 0"; 3],
    ["111 16 0 0 0 0 0 0 0"; 3],
];

const NO_DOSE: &[(usize, u32)] = &[(LOWEST, 0)];
const D: &str = COUNT_DIFFERS;
const GREATEST: u32 = u32::MAX;

pub const RANGES: &[KRange] = &[
    ("one count", &[], [2, 2, 1], &[RULE_1]),
    ("one count that differs", &[], [3, 3, 1], &[D]),
    ("a list of one place more", &[], [1, 3, 4], &K1_1_TO_3),
    ("a list of 64 places", &[], [1, 3, 64], &K1_1_TO_3),
    ("16 counts", &[], [1, 16, 16], &[D, RULE_1, D, D, D, D, D, D, D, D, D, D, D, D, D, D]),
    ("16 counts from 0 on", &[], [0, 15, 16], &[OUT_OF_RANGE, D, RULE_1, D, D, D, D, D, D, D, D, D, D, D, D, D]),
    ("0 to 2", &[], [0, 2, 3], &[OUT_OF_RANGE, D, RULE_1]),
    ("998 to 1,001", &[], [998, 1_001, 4], &[D, D, OUT_OF_RANGE, OUT_OF_RANGE]),
    ("0 alone", &[], [0, 0, 1], &[OUT_OF_RANGE]),
    ("1,000 alone", &[], [1_000, 1_000, 1], &[OUT_OF_RANGE]),
    ("the greatest counts", &[], [GREATEST - 1, GREATEST, 2], &[OUT_OF_RANGE; 2]),
    ("2^31 is above 2^31 - 1", &[], [(1 << 31) - 1, 1 << 31, 2], &[OUT_OF_RANGE; 2]),
    ("258 is not 2", &[], [257, 259, 3], &[D; 3]),
    ("65,538 is not 2", &[], [65_537, 65_539, 3], &[OUT_OF_RANGE; 3]),
    ("the own count 0", &[(COUNT, 0)], [1, 3, 3], &K1_1_TO_3),
    ("the own count 1,000", &[(COUNT, 1_000)], [1, 3, 3], &K1_1_TO_3),
    ("the own count 4,294,967,295", &[(COUNT, BLANK)], [1, 3, 3], &K1_1_TO_3),
    ("an own count beside the range", &[(COUNT, 7)], [1, 3, 3], &K1_1_TO_3),
    // Below 216 months one row is left: 1 per day, rule 3, at most 1,500.
    ("a child", &[(AGE, 215)], [1, 3, 3], &["100 3 0 1500 33784 3 2 0 0", D, D]),
    ("no GPK", &[(GPK, 0)], [1, 3, 3], &["110 0 0 0 0 0 0 0 0"; 3]),
    ("GPK not in 640", &[(GPK, 5)], [1, 2, 2], &["111 16 0 0 0 0 0 0 0"; 2]),
    ("no lowest dose", NO_DOSE, [1, 3, 3], &[OUT_OF_RANGE; 3]),
    ("3 to 2", &[], [3, 2, 64], &["131"]),
    ("3 to 1", &[], [3, 1, 64], &["131"]),
    ("1 to 0", &[], [1, 0, 64], &["131"]),
    ("4,294,967,295 to 0", &[], [GREATEST, 0, 64], &["131"]),
    ("17 counts", &[], [1, 17, 64], &["131"]),
    ("17 counts from 0 on", &[], [0, 16, 64], &["131"]),
    ("18 counts", &[], [1, 18, 64], &["131"]),
    ("258 counts, 2 in 8 bits", &[], [1, 258, 64], &["131"]),
    ("65,538 counts, 2 in 16 bits", &[], [1, 65_538, 64], &["131"]),
    ("0 to 4,294,967,295: 2^32 counts", &[], [0, GREATEST, 64], &["131"]),
    ("1 to 4,294,967,295", &[], [1, GREATEST, 64], &["131"]),
    ("no place", &[], [1, 3, 0], &["132"]),
    ("no place for one count", &[], [2, 2, 0], &["132"]),
    ("one place", &[], [1, 3, 1], &["132"]),
    ("two places", &[], [1, 3, 2], &["132"]),
    ("15 places for 16 counts", &[], [1, 16, 15], &["132"]),
    ("131 before 132", &[], [3, 2, 0], &["131"]),
    ("131 for 17 counts before 132", &[], [1, 17, 16], &["131"]),
    ("131 before 125", NO_DOSE, [3, 2, 3], &["131"]),
    ("131 for 17 counts before 125", NO_DOSE, [1, 17, 17], &["131"]),
    ("132 before 125", NO_DOSE, [1, 3, 2], &["132"]),
    ("132 before 125 of the count", &[], [0, 0, 0], &["132"]),
];

fn with(entries: &[Numbers], ranges: Vec<Range>) -> CountCase {
    let mut case = tables();
    case.entries = entries.to_vec();
    CountCase { case, ranges }
}

fn range([first, last, places]: [u32; 3]) -> Range {
    Range { first, last, places }
}

/// The proof table with all entries of `K`, each for 1, 2 and 3.
pub fn k_1_to_3() -> CountCase {
    with(&K.map(|k| changed(k.1)), vec![range([1, 3, 3]); K.len()])
}

/// The same with another months setting.
pub fn k_1_to_3_with_months(setting: u32) -> CountCase {
    CountCase { case: with_months(setting), ..k_1_to_3() }
}

/// The same with a quiet setting.
pub fn k_1_to_3_with_quiet(setting: u32) -> CountCase {
    CountCase { case: with_quiet(setting), ..k_1_to_3() }
}

/// The proof table with all entries of `QUIET_K`, each for 1 to 4.
pub fn quiet_1_to_4() -> CountCase {
    with(&QUIET_K.map(|k| changed(k.1)), vec![range([1, 4, 4]); QUIET_K.len()])
}

/// The proof table and table 70 with all entries of `K`, and with those of `HPK_K`, each for 1, 2 and 3.
pub fn k_1_to_3_with_table_70() -> CountCase {
    CountCase { case: with_table_70(&K), ranges: vec![range([1, 3, 3]); K.len()] }
}

pub fn hpk_1_to_3() -> CountCase {
    CountCase { case: with_table_70(&HPK_K), ranges: vec![range([1, 3, 3]); HPK_K.len()] }
}

/// The proof table with all of `RANGES`.
pub fn ranges() -> CountCase {
    let entries: Vec<Numbers> = RANGES.iter().map(|(_, changes, ..)| changed(changes)).collect();
    with(&entries, RANGES.iter().map(|(.., numbers, _)| range(*numbers)).collect())
}

/// Over tables that are refused by 121 or by 122: what `number` stands for, then 125, 131 and 132, which stand before it.
pub fn over_bad_tables(number: u32) -> CountCase {
    let numbers = [[1, 3, 3], [0, 1, 2], [3, 2, 3], [1, 17, 17], [1, 3, 2], [2, 2, 0]];
    let mut made = with(&numbers.map(|_| changed(&[])), numbers.map(range).to_vec());
    match number {
        121 => made.case.rows(Table::T649).tail.push(0),
        _ => made.case.rows(Table::T640).row(1)[1] = 4,
    }
    made
}

/// The lines of `over_bad_tables`.
pub fn lines_over_bad_tables(number: u32) -> Vec<String> {
    let table = if number == 121 { 649 } else { 640 };
    let refused = format!("{number} 0 {table} 0 0 0 0 0 0");
    let mut lines = vec![refused.clone(); 3];
    lines.extend([OUT_OF_RANGE.to_string(), refused]);
    lines.extend(["131", "131", "132", "132"].map(str::to_string));
    lines
}
