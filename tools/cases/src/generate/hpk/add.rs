//! On top of a case: rows of table 70 for its entries, which then leave PRK and GPK to them, or say something else.

use super::*;
use crate::generate::case::Numbers;
use crate::generate::{light_made, quiet};
use crate::random::Random;
use second::check::entry::{BLANK, CODE_MOST, GPK, HPK, PRK};
use second::check::Table::{self, T640, T641};

/// HPKs of entries that gave none begin here; no other row of a case has them.
const KEY: u32 = 9_000_000;

/// Case `number` as it was made, without long tables, with such rows and no quiet setting: what is stored rests on it.
pub fn made(seed: u64, number: u64) -> Case {
    let mut case = light_made(seed, number);
    quiet::not_given(case.entries.iter_mut());
    add(&mut case, &mut Random::of_case(seed ^ 0x6870_6b73, number));
    case
}

pub fn add(case: &mut Case, r: &mut Random) {
    for place in 0..case.entries.len() {
        if r.percent(70) {
            bring(case, place, r);
        }
    }
    others(case, r);
    if r.percent(70) {
        case.rows(T70).shuffle(r);
    }
    match r.below(100) {
        0..4 => out_of_range(case, r),
        4..6 => case.rows(T70).tail = (0..r.between(1, 23)).map(|_| r.next() as u8).collect(),
        _ => {}
    }
}

fn is_code(number: u32) -> bool {
    (1..=CODE_MOST).contains(&number)
}

/// A row for the entry's HPK, if it has none yet, by which it is checked as before or by another PRK.
fn bring(case: &mut Case, place: usize, r: &mut Random) {
    let mut entry = case.entries[place];
    entry[HPK] = match entry[HPK] {
        BLANK if r.percent(40) => return,
        BLANK => KEY + place as u32,
        hpk if !is_code(hpk) => return,
        _ if r.percent(30) => KEY + place as u32,
        hpk => hpk,
    };
    let hpk = entry[HPK] as u64;
    let row = match rows_of(case, hpk).first() {
        Some(row) => *row,
        None => {
            let row = row(case, &entry, r);
            case.push(T70, &row);
            row
        }
    };
    (entry[PRK], entry[GPK]) = (left(r, row, PRKODE, BLANK), left(r, row, GPKODE, 0));
    case.entries[place] = entry;
    if r.percent(4) {
        again(case, row, r);
    }
}

/// What the entry gives; where it gives nothing a PRK of the levels, seldom the greatest, and a GPK of the products.
fn row(case: &Case, entry: &Numbers, r: &mut Random) -> Row {
    let any = r.below(1_000_000);
    let mut count = || r.pick(&[0, 1, 1, 1, 3, 999_999, any]);
    let counts = [count(), count(), count()];
    let prk = match entry[PRK] {
        prk if is_code(prk) => prk as u64,
        _ if r.percent(5) => CODE_MOST as u64,
        _ => cell(case, r, T641, 1),
    };
    let gpk = match entry[GPK] {
        gpk if is_code(gpk) => gpk as u64,
        _ => cell(case, r, T640, 0),
    };
    [entry[HPK] as u64, prk, counts[0], gpk, counts[1], counts[2]]
}

/// A code of a column that a row of table 70 may have.
fn cell(case: &Case, r: &mut Random, table: Table, place: usize) -> u64 {
    let rows = &case.tables[table as usize];
    let most = CODE_MOST as u64;
    match rows.count() as u64 {
        0 => r.pick(&[1, 2, most]),
        count => rows.cells[r.below(count) as usize * rows.width() + place].clamp(1, most),
    }
}

/// Mostly left to the row, or given as it has it; seldom otherwise: beside it, or another number of the row.
fn left(r: &mut Random, row: Row, of: usize, blank: u32) -> u32 {
    let code = row[of] as u32;
    let (above, far) = (code.saturating_add(1).min(CODE_MOST), code ^ 1 << 16);
    match r.below(20) {
        0..11 => blank,
        11..18 => code,
        _ => r.pick(&[above, far, code.saturating_sub(1), row[HPKODE] as u32, row[PRKODE] as u32, row[GPKODE] as u32]),
    }
}

/// A second row of its HPK, seldom a third: the same, or with other numbers.
fn again(case: &mut Case, mut row: Row, r: &mut Random) {
    for _ in 0..r.pick(&[1, 1, 1, 2]) {
        for _ in 0..r.pick(&[0, 1, 1, 3]) {
            let place = r.between(1, 5) as usize;
            let most = T70.fields()[place].2;
            row[place] = r.pick(&[row[place] + 1, row[place].saturating_sub(1), most]).clamp(1, most);
        }
        case.push(T70, &row);
    }
}

/// Rows of other HPKs: beside those of the entries, or alike in 16 bits; and rows that have one as PRK or GPK.
pub fn others(case: &mut Case, r: &mut Random) {
    for _ in 0..if case.entries.is_empty() { 0 } else { r.below(4) } {
        let entry = case.entries[r.below(case.entries.len() as u64) as usize];
        let hpk = if is_code(entry[HPK]) { entry[HPK] } else { KEY };
        let other = r.pick(&[hpk + 1, hpk - 1, hpk ^ 1 << 16, hpk ^ 1 << 24, 77]);
        if !is_code(other) || case.entries.iter().any(|entry| entry[HPK] == other) {
            continue;
        }
        let [prk, gpk] = [PRK, GPK].map(|place| if is_code(entry[place]) { entry[place] } else { hpk });
        case.push(T70, &[other as u64, prk as u64, 1, gpk as u64, 1, 1]);
    }
}

/// A number of a row just outside what is permitted, or far outside.
fn out_of_range(case: &mut Case, r: &mut Random) {
    let rows = case.rows(T70);
    if rows.count() > 0 {
        let place = r.below(6) as usize;
        let (_, low, high) = T70.fields()[place];
        let any = r.between(high + 1, u32::MAX as u64);
        let row = r.below(rows.count() as u64) as usize;
        let above = r.pick(&[high + 1, high + 1, any, u32::MAX as u64]);
        rows.row(row)[place] = if low > 0 && r.percent(50) { 0 } else { above };
    }
}

/// The entry of a full category once more, its GPK filled by an HPK, in front of it.
pub fn over_full(case: &mut Case) {
    let Some(last) = case.entries.pop() else { return };
    let mut brought = last;
    (brought[HPK], brought[GPK]) = (KEY - 1, 0);
    case.push(T70, &[KEY as u64 - 1, 1, 1, last[GPK] as u64, 1, 1]);
    case.entries.extend([brought, last]);
}
