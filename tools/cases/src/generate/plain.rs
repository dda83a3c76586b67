//! Random cases over small dense spaces: mostly one row for each need, sometimes none or several.

use super::case::{Case, Numbers, NO_ENTRY};
use super::space::{self, NO_UPPER, Q_GENERAL};
use super::vary;
use crate::random::Random;
use second::check::entry::*;
use second::check::Table;

const GPKS: u64 = 3;
const BASES: u64 = 5;
const CATEGORIES: u64 = 4;
const RULES: u64 = 6;

pub fn plain(r: &mut Random) -> Case {
    let mut case = Case::empty();
    // How often a needed row is absent or doubled.
    let noise = r.pick(&[0, 0, 3, 10]);
    for gpk in 1..=GPKS {
        for _ in 0..copies(r, noise) {
            case.push(Table::T640, &[gpk, r.pick(&[1, 2, 3, 3, 3]), r.below(2)]);
        }
        levels(&mut case, r, gpk, noise);
    }
    for basis in 1..=BASES {
        settings(&mut case, r, basis, noise);
    }
    for category in 1..=CATEGORIES {
        rules(&mut case, r, category);
    }
    for rule in 1..=RULES {
        for _ in 0..copies(r, noise) {
            case.push(Table::T649, &[rule, space::limit(r), space::limit(r), space::limit(r)]);
        }
    }
    units(&mut case, r, noise);
    case.shuffle(r);
    for _ in 0..r.between(1, 5) {
        let entry = entry(r, &case);
        case.entries.insert(0, entry);
        vary::add(&mut case, r, 1);
    }
    case
}

/// Mostly 1, sometimes 0 or 2.
fn copies(r: &mut Random, noise: u64) -> u64 {
    if r.percent(noise) {
        r.pick(&[0, 2])
    } else {
        1
    }
}

fn levels(case: &mut Case, r: &mut Random, gpk: u64, noise: u64) {
    for _ in 0..copies(r, noise) {
        case.push(Table::T641, &[gpk, r.pick(&[0, 0, 1]), r.pick(&[0, 0, 1]), 1, space::basis(r)]);
    }
    if r.percent(40) {
        for code in 1..=r.between(1, 2) {
            case.push(Table::T641, &[gpk, r.below(3), code, 2, space::basis(r)]);
        }
    }
    if r.percent(40) {
        for code in 1..=r.between(1, 2) {
            case.push(Table::T641, &[gpk, code, 0, 2, space::basis(r)]);
        }
    }
    if r.percent(noise) {
        case.push(Table::T641, &[gpk, r.below(3), r.below(3), r.between(1, 2), space::basis(r)]);
    }
}

/// Rows for some of the care groups, reasons and routes, each at most once but for the noise.
fn settings(case: &mut Case, r: &mut Random, basis: u64, noise: u64) {
    let share = r.pick(&[10, 30, 60]);
    for care in [2, 3] {
        if care == 2 && r.percent(50) {
            continue;
        }
        for (icpc, to) in [(Q_GENERAL, 0), (Q_GENERAL, 1), (5_000, 0), (5_000, 1), (5_000, 2), (0, 0)] {
            for route in 0..3 {
                let general = care == 3 && (icpc, to, route) == (Q_GENERAL, 0, 0);
                if r.percent(if general { 90 } else { share }) {
                    case.push(Table::T642, &[basis, care, icpc, to, route, space::category(r)]);
                }
            }
        }
    }
    if r.percent(noise) && case.rows(Table::T642).count() > 0 {
        case.rows(Table::T642).double(0);
    }
}

/// Rows in bands of age and, inside a band, of weight and surface; the frequencies are few.
fn rules(case: &mut Case, r: &mut Random, category: u64) {
    let joint = 1_000 * r.pick(&[1, 72, 216, 240, 999]);
    let bands: Vec<(u64, u64)> = match r.below(4) {
        0 | 1 => vec![(0, NO_UPPER)],
        2 => vec![(0, joint), (joint, NO_UPPER)],
        _ => vec![(0, joint - 1), (joint, joint), (joint + 1, NO_UPPER)],
    };
    for (low, high) in bands {
        for _ in 0..r.between(1, 3) {
            let (count, unit) = (space::count(r), space::time_unit(r));
            for (kg_low, kg_high) in split(r, 70_000) {
                for (m2_low, m2_high) in split(r, 1_500) {
                    let row = [category, low, high, count, unit, kg_low, kg_high, m2_low, m2_high, space::rule(r)];
                    case.push(Table::T643, &row);
                }
            }
        }
    }
}

/// One open band, or two that meet or nearly meet.
fn split(r: &mut Random, joint: u64) -> Vec<(u64, u64)> {
    match r.below(8) {
        0 => vec![(0, joint), (joint + 1, NO_UPPER)],
        1 => vec![(0, joint), (joint, NO_UPPER)],
        2 => vec![(1, joint - 1), (joint + 1, NO_UPPER - 1)],
        3 => vec![(joint, joint)],
        _ => vec![(0, NO_UPPER)],
    }
}

fn units(case: &mut Case, r: &mut Random, noise: u64) {
    for srtcde in 0..2 {
        for code in 0..2 {
            for unit in space::UNITS {
                if r.percent(80) {
                    for _ in 0..copies(r, noise) {
                        let amount = if r.percent(noise) { r.pick(&[0, 10_000_000_000]) } else { space::amount(r) };
                        case.push(Table::T730, &[srtcde, code, amount, unit]);
                    }
                }
            }
        }
    }
}

fn entry(r: &mut Random, case: &Case) -> Numbers {
    let blank = r.pick(&[5, 15, 40]);
    let or_blank = |r: &mut Random, number: u64| if r.percent(blank) { BLANK } else { number as u32 };
    let mut entry = NO_ENTRY;
    entry[GPK] = if r.percent(98) { space::gpk(r) as u32 } else { r.pick(&[0, 4]) };
    for place in [PRK, HPK] {
        let code = space::product(r);
        entry[place] = or_blank(r, code);
    }
    let age = space::age(r);
    entry[AGE] = if r.percent(85) { age as u32 } else { or_blank(r, age) };
    let sex = r.between(1, 2);
    entry[SEX] = or_blank(r, sex);
    let weight = space::weight(r);
    entry[WEIGHT] = or_blank(r, weight);
    let surface = space::surface(r);
    entry[SURFACE] = or_blank(r, surface);
    entry[CARE] = space::care(r) as u32;
    entry[REASON] = r.pick(&[0, 5_000, 6_000, Q_GENERAL as u32]);
    entry[ICPCTO] = if entry[REASON] == 0 { 0 } else { r.below(3) as u32 };
    entry[ROUTE] = r.below(4) as u32;
    let rows = &case.tables[Table::T643 as usize];
    let row = r.below(rows.count() as u64) as usize * rows.width();
    entry[COUNT] = rows.cells[row + 3] as u32;
    entry[TIME_UNIT] = rows.cells[row + 4] as u32;
    if r.percent(30) {
        entry[TIME_UNIT] = space::time_unit(r) as u32;
    }
    entry[HIGHEST] = space::dose(r) as u32;
    entry[LOWEST] = r.pick(&[entry[HIGHEST], 1, entry[HIGHEST] / 2]).max(1);
    entry[BASE_UNIT] = r.pick(&space::UNITS) as u32;
    entry[ENTERED_UNIT] = if r.percent(50) { entry[BASE_UNIT] } else { r.pick(&space::UNITS) as u32 };
    entry[SRTCDE] = r.below(2) as u32;
    entry[CODE] = r.below(2) as u32;
    entry[MONTHS] = r.pick(&[MONTHS_OFF, MONTHS_ON, BLANK]);
    entry
}
