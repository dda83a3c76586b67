//! The order of a case's rows: by the keys that the steps look for, or by them but for one row. No answer depends on
//! it, and a program that looks for a key by halving does.

use super::case::{Case, Rows};
use crate::random::Random;
use second::check::Table;

/// Document 01's steps look for GPKODE, GPDBAS, GPDCAT, GPDDNR and CODE.
pub fn key_place(table: Table) -> usize {
    if table == Table::T730 {
        1
    } else {
        0
    }
}

pub fn keys(rows: &Rows) -> Vec<u64> {
    let place = key_place(rows.table);
    rows.cells.chunks_exact(rows.width()).map(|row| row[place]).collect()
}

/// How a table's keys go from row to row, and where they fall if they fall once.
#[derive(Clone, Copy, PartialEq, Eq, PartialOrd, Ord, Debug)]
pub enum Order {
    Rises,
    FallsAtFirst,
    FallsInside,
    FallsAtLast,
    FallsOften,
}

impl Order {
    pub const ALL: [Order; 5] =
        [Order::Rises, Order::FallsAtFirst, Order::FallsInside, Order::FallsAtLast, Order::FallsOften];

    pub fn of(keys: &[u64]) -> Order {
        let mut falls = (1..keys.len()).filter(|place| keys[place - 1] > keys[*place]);
        match (falls.next(), falls.next()) {
            (None, _) => Order::Rises,
            (Some(1), None) => Order::FallsAtFirst,
            (Some(place), None) if place == keys.len() - 1 => Order::FallsAtLast,
            (_, None) => Order::FallsInside,
            _ => Order::FallsOften,
        }
    }
}

/// What becomes of a case's order.
#[derive(Clone, Copy, PartialEq)]
pub enum Ordered {
    AsMade,
    ByKey,
    /// But for one row of one table.
    Nearly,
}

pub fn order(case: &mut Case, r: &mut Random, ordered: Ordered) {
    if ordered == Ordered::AsMade {
        return;
    }
    if r.percent(50) {
        // Rows of one key in any order.
        case.shuffle(r);
    }
    case.tables.iter_mut().for_each(sort);
    if ordered == Ordered::Nearly {
        let with_two = |rows: &&mut Rows| keys(rows).first() != keys(rows).last();
        let mut tables: Vec<&mut Rows> = case.tables.iter_mut().filter(with_two).collect();
        if !tables.is_empty() {
            let table = r.below(tables.len() as u64) as usize;
            fall(tables[table], r);
        }
    }
}

/// By key; rows of one key stay in their order.
pub fn sort(rows: &mut Rows) {
    let keys = keys(rows);
    let mut places: Vec<usize> = (0..keys.len()).collect();
    places.sort_by_key(|place| keys[*place]);
    put(rows, &places);
}

/// The row at `from` to the place `to`.
pub fn move_row(rows: &mut Rows, from: usize, to: usize) {
    let mut places: Vec<usize> = (0..rows.count()).collect();
    let row = places.remove(from);
    places.insert(to, row);
    put(rows, &places);
}

/// Rows that rise, put so that their keys fall where the order says.
pub fn fall_as(rows: &mut Rows, order: Order) {
    let last = rows.count() - 1;
    match order {
        Order::Rises => {}
        Order::FallsAtFirst => move_row(rows, last, 0),
        Order::FallsInside => move_row(rows, 0, last - 1),
        Order::FallsAtLast => move_row(rows, 0, last),
        Order::FallsOften => rows.cells = rows.cells.rchunks_exact(rows.width()).flatten().copied().collect(),
    }
}

fn put(rows: &mut Rows, places: &[usize]) {
    let width = rows.width();
    rows.cells = places.iter().flat_map(|place| rows.cells[place * width..][..width].to_vec()).collect();
}

/// Moves a row of a sorted table of two keys or more past a row of another key, so that the keys fall once.
fn fall(rows: &mut Rows, r: &mut Random) {
    let keys = keys(rows);
    let last = keys.len() - 1;
    let mut place = |from: usize, to: usize| r.between(from as u64, to as u64) as usize;
    // The least key's rows stand before `low`, the greatest key's from `high` on.
    let low = keys.partition_point(|key| *key == keys[0]);
    let high = keys.partition_point(|key| *key < keys[last]);
    let (from, to) = match place(0, 2) {
        0 => (place(low, last), 0),
        1 => (place(0, high - 1), last),
        _ => {
            let from = place(0, high - 1);
            let behind = keys.partition_point(|key| *key <= keys[from]);
            let to = place(behind, last);
            // Down as well as up.
            if place(0, 1) == 0 {
                (from, to)
            } else {
                (to, from)
            }
        }
    };
    move_row(rows, from, to);
}

#[cfg(test)]
mod tests {
    use super::*;
    use crate::generate::light_made;

    #[test]
    fn a_moved_row_makes_the_keys_fall_once() {
        let r = &mut Random::new(6);
        let mut seen = [0; 5];
        for number in 0..2_000 {
            for rows in &mut light_made(6, number).tables {
                sort(rows);
                assert_eq!(Order::of(&keys(rows)), Order::Rises);
                if keys(rows).first() != keys(rows).last() {
                    fall(rows, r);
                    seen[Order::of(&keys(rows)) as usize] += 1;
                }
            }
        }
        assert_eq!((seen[0], seen[4]), (0, 0));
        assert!(seen[1..4].iter().all(|times| *times > 1_000), "{seen:?}");
    }
}
