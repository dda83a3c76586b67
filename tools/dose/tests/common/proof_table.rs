//! Document 01's proof table and K1, typed again as the numbers of a stream.

pub const BLANK: u32 = u32::MAX;
pub const ON: u32 = 1;

/// The seven tables; 730 and 70 are empty.
pub const PROOF_TABLE: [&[u32]; 7] = [
    &[103136, 3, 0, 900001, 2, 1],
    &[103136, 0, 0, 1, 1500, 900001, 0, 0, 1, 1600, 900001, 7001, 0, 2, 1601],
    &[1500, 3, 17752, 0, 0, 33784, 1500, 2, 17752, 0, 0, 33790, 1500, 3, 5000, 0, 0, 33785],
    &[
        33784, 216000, 999999, 2, 19, 70000, 80000, 0, 999999, 1, //
        33784, 216000, 999999, 2, 19, 0, 70000, 0, 999999, 2, //
        33784, 72000, 216000, 1, 19, 0, 999999, 0, 999999, 3, //
        33785, 216000, 999999, 1, 19, 0, 999999, 0, 999999, 4, //
        33790, 0, 999999, 2, 19, 0, 999999, 0, 999999, 5,
    ],
    &[1, 500, 2000, 3000, 2, 0, 1500, 0, 3, 0, 1000, 1500, 4, 0, 1000, 0, 5, 0, 4000, 6000],
    &[],
    &[],
];

/// The places of an entry that the tests change.
pub const GPK: usize = 0;
pub const PRK: usize = 1;
pub const HPK: usize = 2;
pub const AGE: usize = 3;
pub const SEX: usize = 4;
pub const WEIGHT: usize = 5;
pub const CARE: usize = 7;
pub const REASON: usize = 8;
pub const COUNT: usize = 11;
pub const TIME: usize = 12;
pub const LOWEST: usize = 13;
pub const HIGHEST: usize = 14;
pub const MONTHS: usize = 19;
pub const QUIET: usize = 20;
pub const EDITION: usize = 21;

/// With months on, as P3 has all cases of the proof table, without a quiet setting, and in edition 2, as P7 has them.
pub const K1: [u32; 22] = [
    103136, BLANK, BLANK, 240, BLANK, 75000, BLANK, 3, 0, 0, 0, 2, 19, 2000, 2000, 233, 233, 0, 0, ON, BLANK,
    2,
];

/// K1 with these numbers changed.
pub fn k1_but(changes: &[(usize, u32)]) -> Vec<u32> {
    let mut entry = K1.to_vec();
    for &(place, number) in changes {
        entry[place] = number;
    }
    entry
}

/// The proof table with these entries, as one case.
pub fn case(entries: &[Vec<u32>]) -> Vec<u8> {
    case_of(&PROOF_TABLE, entries)
}

/// The proof table with these rows of table 70 and these entries.
pub fn case_with_70(links: &[[u32; 6]], entries: &[Vec<u32>]) -> Vec<u8> {
    let links = links.concat();
    let mut tables = PROOF_TABLE;
    tables[6] = &links;
    case_of(&tables, entries)
}

fn case_of(tables: &[&[u32]], entries: &[Vec<u32>]) -> Vec<u8> {
    let mut numbers: Vec<u32> = tables.iter().map(|table| 4 * table.len() as u32).collect();
    numbers.push(entries.len() as u32);
    numbers.extend(tables.concat());
    numbers.extend(entries.concat());
    numbers.iter().flat_map(|number| number.to_le_bytes()).collect()
}
