//! Step 1, and step 2's amounts: numbers at and beside the ends of their ranges.

use super::EDGES;
use crate::generate::case::{Case, MADE_FIELDS, MADE_TABLES};
use crate::generate::model::model;
use crate::random::Random;
use second::check::entry::{BASE_UNIT, BLANK, ENTERED_UNIT, HIGHEST, ICPCTO, LOWEST, RANGES, REASON};
use second::check::Table::{T640, T730};

/// One field of the entry at and beside the ends of its range.
pub fn entry_edges(place: usize, r: &mut Random) -> Case {
    let mut case = model(r);
    let entry = case.entries[0];
    let (_, low, high) = RANGES[place];
    let edges = [low, low.wrapping_sub(1), high, high + 1, 0, BLANK, BLANK - 1, 1_000_000, 100_000_000, 1 << 31];
    for number in edges {
        let mut entry = entry;
        entry[place] = number;
        if place == HIGHEST && r.percent(50) || place == LOWEST && r.percent(50) {
            entry[LOWEST + HIGHEST - place] = number;
        }
        if place == REASON && number == 0 {
            entry[ICPCTO] = r.below(2) as u32;
        }
        case.entries.push(entry);
    }
    let mut entry = entry;
    (entry[REASON], entry[ICPCTO]) = (0, r.between(1, 2) as u32);
    case.entries.push(entry);
    (entry[ICPCTO], entry[HIGHEST]) = (0, 1_000);
    entry[LOWEST] = 1_001;
    case.entries.push(entry);
    case
}

/// One field of a table at and beside the ends of its range, in a needed row or in one that no entry needs.
pub fn cell_edges(variant: usize, r: &mut Random) -> Case {
    let mut case = model(r);
    let mut place = variant / EDGES;
    let mut table = T640;
    for next in MADE_TABLES {
        if place < next.fields().len() {
            table = next;
            break;
        }
        place -= next.fields().len();
    }
    let (_, low, high) = table.fields()[place];
    let most = if table == T730 && place == 2 { u64::MAX } else { u32::MAX as u64 };
    let number = [low.saturating_sub(1), low, high, high + 1, most, r.pick(&[high + 1, 1 << 31])][variant % EDGES];
    let rows = case.rows(table);
    let row = match r.below(3) {
        0 => 0,
        1 => rows.count() - 1,
        _ => r.below(rows.count() as u64) as usize,
    };
    rows.row(row)[place] = number;
    if r.percent(50) {
        case.shuffle(r);
    }
    case
}

/// Amounts at the ends of what step 2 permits.
pub fn amounts(r: &mut Random) -> Case {
    let mut case = model(r);
    let edges = [0, 1, 9_999_999_998, 9_999_999_999, 10_000_000_000, 999_999_999_999, 1_000_000_000_000];
    for row in 0..2 {
        if r.percent(70) {
            let tried = if r.percent(90) { &edges[..6] } else { &edges };
            case.rows(T730).row(row)[2] = r.pick(tried);
        }
    }
    let units = [case.rows(T730).row(0)[3] as u32, case.rows(T730).row(1)[3] as u32];
    for (entered, base) in [(1, 0), (0, 1), (0, 0)] {
        let mut entry = case.entries[0];
        (entry[ENTERED_UNIT], entry[BASE_UNIT]) = (units[entered], units[base]);
        case.entries.push(entry);
    }
    case
}

/// Any numbers at all.
pub fn wild(r: &mut Random) -> Case {
    let mut case = model(r);
    for table in MADE_TABLES {
        if r.percent(20) {
            case.rows(table).cells.clear();
            case.rows(table).tail = (0..r.below(3 * table.row_bytes() as u64)).map(|_| r.next() as u8).collect();
        }
    }
    for _ in 0..5 {
        let mut entry = case.entries[0];
        for _ in 0..r.between(1, 20) {
            entry[r.below(MADE_FIELDS as u64) as usize] = r.next() as u32 >> r.below(32);
        }
        case.entries.push(entry);
    }
    case
}
