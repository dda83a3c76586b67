//! Families of cases, each for one place of document 01. A family has a number of variants; the random numbers
//! decide the rest.

mod choices;
mod edges;
mod limits;
mod rows;

use super::breakers::{Breaker, BREAKERS, STEP_ONE};
use super::case::{Case, MADE_FIELDS};
use super::model::model;
use super::space::TIME_UNITS;
use super::vary;
use crate::random::Random;

type Family = (usize, fn(usize, &mut Random) -> Case);

/// Fields of `MADE_TABLES`.
const CELLS: usize = 32;
/// Edges tried of each table field.
const EDGES: usize = 6;

const FAMILIES: [Family; 17] = [
    (40, |_, r| varied(r, |_, _| {})),
    (MADE_FIELDS, edges::entry_edges),
    (CELLS * EDGES, edges::cell_edges),
    (BREAKERS.len(), |n, r| varied(r, |case, r| BREAKERS[n](case, r))),
    (200, |_, r| varied(r, |case, r| pile(case, r, &BREAKERS))),
    (40, |_, r| varied(r, |case, r| pile(case, r, &BREAKERS[..STEP_ONE]))),
    (TIME_UNITS.len(), choices::twins),
    (60, |_, r| choices::settings(r)),
    (60, |_, r| choices::levels(r)),
    (60, |_, r| rows::bounds(r)),
    (60, |_, r| limits::exact_limits(r)),
    (40, |_, r| edges::amounts(r)),
    (6, choices::sexes),
    (12, |n, r| rows::many_rows(511 + n % 3, n / 3, r)),
    (30, |_, r| rows::hidden_weight(r)),
    (40, |_, r| rows::near_k1(r)),
    (10, |_, r| edges::wild(r)),
];

/// How many variants all families have.
pub fn variants() -> usize {
    FAMILIES.iter().map(|family| family.0).sum()
}

pub fn directed(variant: usize, r: &mut Random) -> Case {
    let mut left = variant % variants();
    for (count, family) in FAMILIES {
        if left < count {
            return family(left, r);
        }
        left -= count;
    }
    model(r)
}

/// A model case, changed, its rows mostly out of their order, with some entries beside the first.
fn varied(r: &mut Random, change: impl Fn(&mut Case, &mut Random)) -> Case {
    let mut case = model(r);
    change(&mut case, r);
    let more = r.below(4);
    vary::add(&mut case, r, more);
    if r.percent(80) {
        case.shuffle(r);
    }
    case
}

/// Two or three changes at once: the test that stands first answers.
fn pile(case: &mut Case, r: &mut Random, breakers: &[Breaker]) {
    for _ in 0..r.between(2, 3) {
        r.pick(breakers)(case, r);
    }
}
