//! On top of a case: a product whose rows per day are looked at where the frequency is missing, and entries for it.

use super::super::space;
use super::doses::{Doses, Kind};
use super::*;
use second::check::entry::*;

/// The base unit and the entered one, of the conversion rows that only this product has.
const UNITS: (u32, u32) = (233, 245);
const CONVERTED: u32 = 8;
const RULES: u64 = 4;

pub fn add(case: &mut Case, r: &mut Random) {
    let mut doses = Doses::any(r);
    let bounded = r.percent(50);
    let rows: Vec<Row> = (0..r.between(1, 4)).map(|place| any_row(r, &doses, bounded, place)).collect();
    let (settings, chosen) = setting(r);
    push(case, KEY as u64, r.percent(8) as u64, &[settings], &rows);
    limits(case, r, &mut doses, &rows);
    for (amount, unit) in [(doses.base, UNITS.0), (doses.entered, UNITS.1)] {
        case.push(T730, &[CONVERTED as u64, KEY as u64, amount, unit as u64]);
    }
    let converted = if doses.kind == Kind::SameUnit { UNITS.0 } else { UNITS.1 };
    let units = [
        (BASE_UNIT, UNITS.0),
        (ENTERED_UNIT, converted),
        (SRTCDE, CONVERTED),
        (CODE, KEY),
        (HIGHEST, doses.dose as u32),
    ];
    let changes = [&units[..], &chosen].concat();
    for _ in 0..r.between(2, 6) {
        let mut made = entry(KEY, doses.count as u32, &changes);
        patient(r, &mut made);
        vary(r, &mut made);
        case.entries.push(made);
    }
    if r.percent(70) {
        case.shuffle(r);
    }
}

fn any_row(r: &mut Random, doses: &Doses, bounded: bool, place: u64) -> Row {
    let rule = KEY as u64 + 1 + if r.percent(85) { place } else { r.below(RULES) };
    if !bounded {
        return row(doses.row_count(r), rule);
    }
    let weight = r.pick(&[OPEN, OPEN, OPEN, (0, 70_000), (70_000, NO_UPPER), (70_000, 80_000), (0, 80_000)]);
    let surface = r.pick(&[OPEN, OPEN, OPEN, OPEN, (0, 1_500), (1_500, NO_UPPER), (1_500, 2_000)]);
    let age = r.pick(&[OPEN, OPEN, OPEN, OPEN, OPEN, (0, 240_000), (240_000, NO_UPPER)]);
    let unit = if r.percent(88) { PER_DAY } else { r.pick(&[PER_2_DAYS, 20, 18, 0, 35]) };
    Row { unit, age, weight, surface, ..row(doses.row_count(r), rule) }
}

/// The product's setting, and what is entered to find it: mostly Q general, without a reason or in spite of one.
fn setting(r: &mut Random) -> (Of642, Vec<(usize, u32)>) {
    let general = Q_GENERAL as u32;
    match r.below(16) {
        0 | 1 => {
            let other = r.pick(&[5_000, 17_552, 17_751, 17_753]);
            ([other as u64, 0, 0], vec![(REASON, other)])
        }
        2 => (GENERAL, vec![(REASON, 6_000), (ICPCTO, r.below(3) as u32)]),
        3 => (GENERAL, vec![(REASON, general), (ICPCTO, r.below(3) as u32)]),
        4 => ([Q_GENERAL, 1, 0], vec![(REASON, general), (ICPCTO, 1)]),
        5 => ([Q_GENERAL, 0, 5], vec![(ROUTE, 5)]),
        6 => (GENERAL, vec![(ROUTE, 5)]),
        _ => (GENERAL, vec![]),
    }
}

/// One row for each rule, seldom none or two; seldom a norm minimum, for else nothing would be suppressed.
fn limits(case: &mut Case, r: &mut Random, doses: &mut Doses, rows: &[Row]) {
    let nearest = r.percent(if doses.kind == Kind::Great { 70 } else { 15 });
    let nearest = nearest.then(|| r.below(rows.len() as u64) as usize);
    let near = nearest.map(|place| (rows[place].rule, doses.nearest(r, rows[place].count)));
    let others_have_none = near.is_some() && r.percent(60);
    for rule in KEY as u64 + 1..=KEY as u64 + RULES {
        let count = rows.iter().find(|row| row.rule == rule).map_or(1, |row| row.count);
        let maximum = match near {
            Some((of, maximum)) if of == rule => maximum,
            _ if others_have_none => 0,
            _ => doses.maximum(r, count),
        };
        let minimum = if r.percent(6) { r.pick(&[1, 500, 999_999_999]) } else { 0 };
        let any = space::limit(r);
        let absolute = r.pick(&[0, 0, 0, maximum, 999_999_999, any]);
        for _ in 0..r.pick(&[1, 1, 1, 1, 1, 1, 1, 1, 1, 1, 1, 1, 1, 1, 0, 2]) {
            case.push(T649, &[rule, minimum, maximum, absolute]);
        }
    }
}

/// On a bound, beside it, or blank.
fn patient(r: &mut Random, entry: &mut Numbers) {
    entry[AGE] = r.pick(&[239, 240, 240, 240, 241]);
    entry[WEIGHT] = r.pick(&[60_000, 69_999, 70_000, 75_000, 75_000, 79_999, 80_000, BLANK]);
    entry[SURFACE] = r.pick(&[1_000, 1_499, 1_500, 1_500, 1_999, 2_000, BLANK, BLANK]);
}

/// Another setting, dose, count or unit than the product was made for.
fn vary(r: &mut Random, entry: &mut Numbers) {
    let highest = entry[HIGHEST];
    entry[LOWEST] = r.pick(&[highest, highest, 1, highest / 2, highest - 1]).max(1);
    match r.below(12) {
        0 => entry[QUIET] = QUIET_OFF,
        1 => entry[QUIET] = BLANK,
        2 if r.percent(30) => entry[QUIET] = r.pick(&NO_SETTINGS),
        3 => entry[HIGHEST] = (highest + 1).min(DOSE_MOST),
        4 => {
            entry[HIGHEST] = (highest - 1).max(1);
            entry[LOWEST] = entry[LOWEST].min(entry[HIGHEST]);
        }
        5 => entry[COUNT] = r.pick(&[entry[COUNT] + 1, entry[COUNT] - 1]).clamp(1, COUNT_MOST),
        6 => entry[TIME_UNIT] = r.pick(&[21, 22, 18, 20, 0]),
        _ => {}
    }
}
