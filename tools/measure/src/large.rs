//! The large case: six tables of 20,000 rows, in which every entry goes through all twelve steps to 100. Table 70 is
//! empty, or has as many.

use cases::generate::case::{push_numbers, Case, Numbers};
use cases::random::Random;
use second::check::entry::{BLANK, CARE, EDITION_2, GPK, HPK, MONTHS_ON, PRK};
use second::check::Table::{T640, T641, T642, T643, T649, T70, T730};

const ROWS: u64 = 20_000;
/// Each has four rows in 641, 642 and 643: one that its entry takes, and others that the entry has to pass over.
const PRODUCTS: u64 = ROWS / 4;
/// Each has two units in 730.
const CODES: u64 = ROWS / 2;
const SEED: u64 = 641;

/// The rows of a key next to each other, and the keys in their order.
pub fn sorted(entries: u32) -> Case {
    let mut case = tables();
    case.entries = (0..entries).map(entry).collect();
    case
}

/// Each entry is out of range (125): it is read and its line is written, and nothing is looked for.
pub fn refused(mut case: Case) -> Case {
    case.entries.iter_mut().for_each(|entry| entry[CARE] = 0);
    case
}

/// The case for a version that knows so many fields of an entry and so many tables: the first of them.
pub fn bytes_for(case: &Case, fields: usize, tables: usize) -> Vec<u8> {
    let (mut bytes, tables) = (vec![], &case.tables[..tables]);
    let lengths: Vec<u32> = tables.iter().map(|rows| rows.length() as u32).collect();
    push_numbers(&lengths, &mut bytes);
    push_numbers(&[case.entries.len() as u32], &mut bytes);
    tables.iter().for_each(|rows| rows.write(&mut bytes));
    case.entries.iter().for_each(|entry| push_numbers(&entry[..fields], &mut bytes));
    bytes
}

/// HPKs of a product, each of another PRK.
const HPKS: u64 = ROWS / PRODUCTS;

/// The same entries and answers, where PRK and GPK are filled by an HPK that has its row among 20,000 (P5). The rows
/// are in the order of their HPKs, or in no order, as all others are.
pub fn by_hpk(order: &str, entries: u32) -> Case {
    let mut case = sorted(entries);
    for n in 1..=PRODUCTS {
        (1..=HPKS).for_each(|prk| case.push(T70, &[HPKS * n + prk, prk, 1, n, 1, 1]));
    }
    for entry in &mut case.entries {
        entry[HPK] = HPKS as u32 * entry[GPK] + entry[PRK];
        (entry[PRK], entry[GPK]) = (BLANK, 0);
    }
    if order == "spread" {
        case.shuffle(&mut Random::new(SEED));
    }
    case
}

/// The same rows in no order, so that the rows of a key stand far apart.
pub fn spread(entries: u32) -> Case {
    let mut case = sorted(entries);
    case.shuffle(&mut Random::new(SEED));
    case
}

fn tables() -> Case {
    let mut case = Case::empty();
    for n in 1..=ROWS {
        case.push(T640, &[n, 3, 0]);
        case.push(T649, &[n, 500, 2_000, 3_000]);
    }
    for n in 1..=PRODUCTS {
        product(&mut case, n);
    }
    for n in 1..=CODES {
        case.push(T730, &[3, n, 1_000, 233]);
        case.push(T730, &[3, n, 1_001, 234]);
    }
    case
}

/// GPK, basis and category have the same number; the product's four rules are the four before and up to four times it.
fn product(case: &mut Case, n: u64) {
    for row in [[n, 0, 1, 2, n], [n, 1, 0, 2, n], [n, 2, 0, 2, n], [n, 0, 0, 1, n]] {
        case.push(T641, &row);
    }
    for row in [[3, 17_752, 0, 0], [3, 17_752, 0, 7], [3, 5_000, 0, 0], [2, 17_752, 0, 0]] {
        case.push(T642, &[n, row[0], row[1], row[2], row[3], n]);
    }
    let ages_counts_weights = [
        [216_000, 999_999, 2, 70_001, 999_999],
        [216_000, 999_999, 2, 1, 70_000],
        [216_000, 999_999, 1, 1, 999_999],
        [0, 215_999, 2, 1, 999_999],
    ];
    for (rule, [low, high, count, light, heavy]) in (4 * n - 3..).zip(ages_counts_weights) {
        case.push(T643, &[n, low, high, count, 19, light, heavy, 0, 999_999, rule]);
    }
}

/// Entries in turn: found by HPK, by PRK and at base level, by each setting, in each of the product's four rows of 643.
fn entry(n: u32) -> Numbers {
    let gpk = 1 + n.wrapping_mul(7_919) % PRODUCTS as u32;
    let code = 1 + n.wrapping_mul(104_729) % CODES as u32;
    let (prk, hpk) = (1 + n % 3, 1 + n % 2);
    let (care, reason, route) = [(3, 0, 0), (3, 0, 7), (3, 5_000, 7), (2, 5_000, 7)][n as usize % 4];
    let (age, count, weight) =
        [(240, 2, 75_000), (240, 2, 60_000), (240, 1, 75_000), (72, 2, 60_000)][n as usize / 4 % 4];
    // The norm maximum is 2,000, and 1,999 of the entered unit are a little more than that.
    let highest = 1_997 + n % 4;
    [
        gpk, prk, hpk, age, BLANK, weight, BLANK, care, reason, 0, route, count, 19, 1_997, highest, 233, 234, 3, code,
        MONTHS_ON, BLANK, EDITION_2,
    ]
}
