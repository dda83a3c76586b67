//! Cases that look for keys: a few products, each with keys of its own in all tables. A key is the first of its
//! table, the last, between others, or absent below, between and above them.

use super::case::{Case, Numbers, MADE_TABLES};
use super::order::{fall_as, sort, Order};
use super::proof_table::changed;
use super::space::{NO_UPPER, Q_GENERAL};
use crate::random::Random;
use second::check::entry::{BASE_UNIT, CODE, COUNT, ENTERED_UNIT, GPK, HIGHEST, HPK, LOWEST, SRTCDE};
use second::check::Table::{self, *};
use second::check::TABLES;

const BASE: u32 = 1;
const ENTERED: u32 = 2;
/// Where a row leads that is to be passed over: to no other row.
const NOWHERE: u64 = 999;

/// A product's key in each table; 641 has the GPK of 640.
type Keys = [u64; TABLES];

/// The product at a place of a number of them. Its keys stand at other places in other tables, for else a step that
/// takes the wrong table's place would find its row.
fn product(place: u64, of: u64) -> Keys {
    [0, 0, 1, 2, 3, 4, 5].map(|turned| 10 * ((place + turned) % of + 1))
}

/// Products whose key in `table` is absent from it, below, between and above the keys of `of` others.
fn absent(table: Table, of: u64) -> [Keys; 3] {
    [0, 1, of].map(|below| {
        let mut keys = [10 * (of + 1 + below); TABLES];
        keys[table as usize] = 10 * below + 5;
        if table == T641 {
            keys[T640 as usize] = keys[T641 as usize];
        }
        keys
    })
}

/// Rows of a product in a table: the one that is needed, and others of its key in front of it or behind; of 640, 649 and
/// 70, where one row is permitted, the same again.
fn push(case: &mut Case, table: Table, keys: &Keys, others: u64, in_front: bool) {
    let [gpk, _, basis, category, rule, code, hpk] = *keys;
    let needed: &[u64] = match table {
        T640 => &[gpk, 3, 0],
        T641 => &[gpk, 0, 0, 1, basis],
        T642 => &[basis, 3, Q_GENERAL, 0, 0, category],
        T643 => &[category, 0, NO_UPPER, 1, 19, 0, NO_UPPER, 0, NO_UPPER, rule],
        T649 => &[rule, 0, 1_000, 2_000],
        T730 => &[1, code, 1_000, BASE as u64],
        T70 => &[hpk, NOWHERE, 1, gpk, 1, 1],
    };
    if !in_front {
        case.push(table, needed);
    }
    for other in 0..others {
        let mut row = needed.to_vec();
        match table {
            T640 | T649 | T70 => {}
            T641 => (row[3], row[4]) = (2, NOWHERE),
            T642 => (row[4], row[5]) = (1 + other, NOWHERE),
            T643 => (row[3], row[9]) = (2 + other, NOWHERE),
            T730 => row[0] = 2 + other,
        }
        case.push(table, &row);
    }
    if in_front {
        case.push(table, needed);
    }
    if table == T730 {
        case.push(T730, &[1, code, 2_000, ENTERED as u64]);
    }
}

/// Above the norm maximum as it is, below it once converted.
fn entry(keys: &Keys, converted: bool) -> Numbers {
    let entered = if converted { ENTERED } else { BASE };
    changed(&[
        (GPK, keys[T640 as usize] as u32),
        (COUNT, 1),
        (LOWEST, 1_500),
        (HIGHEST, 1_500),
        (SRTCDE, 1),
        (CODE, keys[T730 as usize] as u32),
        (BASE_UNIT, BASE),
        (ENTERED_UNIT, entered),
    ])
}

/// The same, its GPK to be filled by its HPK.
fn by_hpk(keys: &Keys, converted: bool) -> Numbers {
    let mut entry = entry(keys, converted);
    (entry[GPK], entry[HPK]) = (0, keys[T70 as usize] as u32);
    entry
}

/// Keys looked for in one table of three, of which the one at place `several` has several rows. All tables rise, but
/// for that one where another order is wanted.
pub fn search(table: Table, order: Order, several: u64) -> Case {
    let mut case = Case::empty();
    let products = [0, 1, 2].map(|place| product(place, 3));
    let converted = table == T730;
    let entry = if table == T70 { by_hpk } else { entry };
    for of in Table::ALL.into_iter().filter(|of| ![T730, T70].contains(of) || *of == table) {
        for keys in &products {
            let is_several = of == table && keys[of as usize] == 10 * (several + 1);
            let others = match of {
                _ if !is_several => 0,
                T640 | T649 | T70 => 1,
                _ => 2,
            };
            push(&mut case, of, keys, others, several.is_multiple_of(2));
        }
    }
    case.entries = products.iter().map(|keys| entry(keys, converted)).collect();
    for keys in absent(table, 3) {
        // The HPK and the unit are looked for first, so that a product without one needs no rows.
        let led = Table::ALL.into_iter().take_while(|of| *of != table && ![T730, T70].contains(&table));
        led.for_each(|of| push(&mut case, of, &keys, 0, false));
        case.entries.push(entry(&keys, converted));
    }
    case.tables.iter_mut().for_each(sort);
    fall_as(case.rows(table), order);
    case
}

/// Tables of a number of keys with one row each: all of them looked for, and all between, below and above them in 640.
pub fn length(count: u64) -> Case {
    of_length(count, &MADE_TABLES, entry)
}

/// The same in table 70.
pub fn hpk_length(count: u64) -> Case {
    of_length(count, &Table::ALL, by_hpk)
}

fn of_length(count: u64, tables: &[Table], entry: fn(&Keys, bool) -> Numbers) -> Case {
    let mut case = Case::empty();
    for place in 0..count {
        let keys = product(place, count);
        tables.iter().for_each(|table| push(&mut case, *table, &keys, 0, false));
        case.entries.push(entry(&keys, true));
    }
    for place in 0..=count {
        case.entries.push(entry(&[10 * place + 5; TABLES], false));
    }
    case.tables.iter_mut().for_each(sort);
    case
}

/// Adds to a case some products with keys that its rows do not have, one row or several of each; some lack their key
/// in a table.
pub fn add(case: &mut Case, r: &mut Random) {
    let mut pools = [(); TABLES].map(|()| (3_000..3_040).collect::<Vec<u64>>());
    pools.iter_mut().for_each(|pool| r.shuffle(pool));
    pools[T641 as usize] = pools[T640 as usize].clone();
    for place in 0..r.between(2, 7) as usize {
        let keys: Keys = pools.each_ref().map(|pool| pool[place]);
        let lacks = if r.percent(40) { Some(r.pick(&Table::ALL)) } else { None };
        let several = if r.percent(50) { Some(r.pick(&Table::ALL)) } else { None };
        for table in Table::ALL.into_iter().filter(|table| lacks != Some(*table)) {
            let others = if several == Some(table) { r.between(1, 2) } else { 0 };
            push(case, table, &keys, others, r.percent(50));
        }
        let needs = |table: Table| lacks == Some(table) || several == Some(table);
        let entry = if needs(T70) || r.percent(30) { by_hpk } else { entry };
        case.entries.push(entry(&keys, lacks == Some(T730) || r.percent(50)));
    }
    if r.percent(70) {
        case.shuffle(r);
    }
}

/// Nothing in the four tables that a product is looked for in.
pub fn empty() -> Case {
    let mut case = Case::empty();
    let keys = product(0, 1);
    [T649, T730].into_iter().for_each(|table| push(&mut case, table, &keys, 0, false));
    case.entries = [false, true].map(|converted| entry(&keys, converted)).to_vec();
    case
}
