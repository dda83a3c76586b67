//! Steps 7 to 10: bounds, long categories, and rows that other filters remove.

use crate::generate::case::{Case, Numbers};
use crate::generate::model::model;
use crate::generate::proof_table;
use crate::generate::space::{self, NO_UPPER};
use crate::generate::vary;
use crate::random::Random;
use second::check::entry::{AGE, BLANK, SURFACE, WEIGHT};
use second::check::Table::T643;

/// Rows of one frequency with random bounds; entries at and beside the bounds.
pub fn bounds(r: &mut Random) -> Case {
    let mut case = model(r);
    let chain = case.rows(T643).row(0).to_vec();
    case.rows(T643).retain(|row| row[0] != chain[0]);
    let which = r.below(3);
    for rule in 1..=r.between(1, 4) {
        let (mut age, mut weight, mut surface) = ((0, NO_UPPER), (0, NO_UPPER), (0, NO_UPPER));
        if which == 0 || r.percent(20) {
            age = if r.percent(10) { (NO_UPPER, NO_UPPER) } else { space::bounds(r, |r| 1_000 * space::age(r)) };
        }
        if which == 1 || r.percent(20) {
            weight = space::bounds(r, space::weight);
        }
        if which == 2 || r.percent(20) {
            surface = space::bounds(r, space::surface);
        }
        let (count, unit) = (chain[3], if r.percent(90) { chain[4] } else { chain[4] ^ 1 });
        case.push(T643, &[chain[0], age.0, age.1, count, unit, weight.0, weight.1, surface.0, surface.1, rule]);
    }
    for _ in 0..10 {
        let row = r.below(case.rows(T643).count() as u64) as usize;
        let row = case.rows(T643).row(row).to_vec();
        let entry = beside_bounds(r, case.entries[0], &row);
        case.entries.push(entry);
    }
    case
}

/// Age, weight and surface at or beside the bounds of a row; weight and surface sometimes blank.
fn beside_bounds(r: &mut Random, mut entry: Numbers, row: &[u64]) -> Numbers {
    let beside = |r: &mut Random, low: usize, over: u64, most: u64| {
        let bound = row[low + r.below(2) as usize] / over;
        r.pick(&[bound, bound + 1, bound.saturating_sub(1)]).clamp(1, most) as u32
    };
    entry[AGE] = match beside(r, 1, 1_000, 1_800) {
        998..=1_000 => r.pick(&[998, 999, 1_000, 1_080, 1_800]),
        1 => r.pick(&[0, 1]),
        months => months,
    };
    entry[WEIGHT] = if r.percent(25) { BLANK } else { beside(r, 5, 1, 999_999) };
    entry[SURFACE] = if r.percent(25) { BLANK } else { beside(r, 7, 1, 9_999) };
    entry
}

/// The chain's category filled up to `count` rows, which pass no filter, one, two or all.
pub fn many_rows(count: usize, passed: usize, r: &mut Random) -> Case {
    let mut case = model(r);
    let chain = case.rows(T643).row(0).to_vec();
    let [age, weight] = [1_000 * case.entries[0][AGE] as u64, case.entries[0][WEIGHT] as u64];
    let others = case.rows(T643).cells.chunks(10).filter(|row| row[0] == chain[0]).count();
    for place in others..count {
        let mut row = chain.clone();
        match passed {
            0 => (row[1], row[2]) = space::beside(r, age),
            1 => row[3] = chain[3] % 999 + 1,
            2 if weight != BLANK as u64 => (row[5], row[6]) = space::beside(r, weight),
            _ => {}
        }
        row[9] = place as u64 + 1;
        case.push(T643, &row);
    }
    for _ in 0..20 {
        case.push(T643, &[chain[0] + 1, 0, NO_UPPER, 1, 19, 0, NO_UPPER, 0, NO_UPPER, 1]);
    }
    case.shuffle(r);
    case
}

/// Weight and surface blank: kilogram rows stand in the category, but age, frequency or weight remove some.
pub fn hidden_weight(r: &mut Random) -> Case {
    let mut case = model(r);
    let chain = case.rows(T643).row(0).to_vec();
    case.rows(T643).retain(|row| row[0] != chain[0]);
    let open = [chain[0], chain[1], chain[2], chain[3], chain[4], 0, NO_UPPER, 0, NO_UPPER, chain[9]];
    case.push(T643, &open);
    let age = 1_000 * case.entries[0][AGE] as u64;
    for _ in 0..r.between(1, 3) {
        let mut row = open;
        (row[5], row[6]) = r.pick(&[(70_000, 80_000), (0, NO_UPPER)]);
        (row[7], row[8]) = r.pick(&[(1_000, 1_500), (0, NO_UPPER)]);
        match r.below(4) {
            0 => (row[1], row[2]) = space::beside(r, age),
            1 => row[3] = row[3] % 999 + 1,
            2 => row[4] = r.pick(&[row[4] ^ 1, 77]),
            _ => {}
        }
        case.push(T643, &row);
    }
    let given = case.entries[0];
    for (weight, surface) in [(BLANK, BLANK), (75_000, BLANK), (1, BLANK), (BLANK, 1_200), (75_000, 1_200)] {
        let mut entry: Numbers = given;
        (entry[WEIGHT], entry[SURFACE]) = (weight, surface);
        case.entries.push(entry);
    }
    case
}

/// Document 01's proof table, entries near K1.
pub fn near_k1(r: &mut Random) -> Case {
    let mut case = proof_table::tables();
    case.entries.push(proof_table::k1());
    vary::add(&mut case, r, 12);
    for _ in 0..4 {
        let k = r.pick(&proof_table::K[..proof_table::BEFORE_P1]);
        case.entries.push(proof_table::changed(k.1));
    }
    if r.percent(50) {
        case.shuffle(r);
    }
    case
}
