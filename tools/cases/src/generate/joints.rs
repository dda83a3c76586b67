//! Document 02, P1: rows that meet, and what lies on their bounds or beside them.

use super::case::{Case, Numbers};
use super::proof_table::changed;
use super::space::{NO_UPPER, Q_GENERAL};
use crate::random::Random;
use second::check::entry::{AGE, BLANK, COUNT, GPK, RANGES, SURFACE, WEIGHT};
use second::check::Table::*;

/// What a row of 643 has bounds for.
#[derive(Clone, Copy, PartialEq, Eq, PartialOrd, Ord, Debug)]
pub enum Bounded {
    Age,
    Weight,
    Surface,
}

impl Bounded {
    pub const ALL: [Bounded; 3] = [Bounded::Age, Bounded::Weight, Bounded::Surface];

    /// Its place in the entry.
    pub fn place(self) -> usize {
        [AGE, WEIGHT, SURFACE][self as usize]
    }

    /// The column of its low bound; the high bound stands behind it.
    pub fn low(self) -> usize {
        [1, 5, 7][self as usize]
    }

    /// Bounds of the age are thousandths of a month.
    pub fn scale(self) -> u64 {
        [1_000, 1, 1][self as usize]
    }

    /// What an entry has of it, in the unit of the bounds.
    pub fn value(self, entry: &Numbers) -> Option<u64> {
        let number = entry[self.place()];
        (number != BLANK).then_some(number as u64 * self.scale())
    }
}

/// High bounds on which the first entry's age, weight or surface lies, one higher: the rows that found it while both
/// ends counted find it now.
pub fn raise(case: &mut Case) {
    let Some(entry) = case.entries.first().copied() else { return };
    for of in Bounded::ALL {
        let Some(value) = of.value(&entry) else { continue };
        for row in case.rows(T643).cells.chunks_exact_mut(10) {
            let [low, high] = &mut row[of.low()..of.low() + 2] else { continue };
            if *low < *high && *high == value && *high < NO_UPPER {
                *high += 1;
            }
        }
    }
}

/// GPK, basis and category; no other row of a case has it. The rules follow it.
pub const KEY: u64 = 6_000_000;

type Band = (u64, u64);

fn product(case: &mut Case) {
    case.push(T640, &[KEY, 3, 0]);
    case.push(T641, &[KEY, 0, 0, 1, KEY]);
    case.push(T642, &[KEY, 3, Q_GENERAL, 0, 0, KEY]);
}

/// A row of the category with a rule of its own.
fn row(case: &mut Case, count: u64, bounds: &[(Bounded, Band)]) {
    let rule = KEY + 1 + case.rows(T649).cells.chunks(4).filter(|row| row[0] > KEY).count() as u64;
    let mut row = [KEY, 0, NO_UPPER, count, 19, 0, NO_UPPER, 0, NO_UPPER, rule];
    for (of, band) in bounds {
        (row[of.low()], row[of.low() + 1]) = *band;
    }
    case.push(T643, &row);
    case.push(T649, &[rule, 0, 0, 0]);
}

/// A bound, one less and one more, as near as an entry may come to them.
fn beside(of: Bounded, bound: u64) -> Vec<u32> {
    let (_, least, most) = RANGES[of.place()];
    let number = (bound / of.scale()) as u32;
    let mut beside = [number.saturating_sub(1), number, number + 1].map(|number| number.clamp(least, most)).to_vec();
    beside.dedup();
    beside
}

fn entry(count: u64, of: Bounded, number: u32) -> Numbers {
    changed(&[(GPK, KEY as u32), (COUNT, count as u32), (of.place(), number)])
}

/// Where bands meet; some bounds of the age are no whole month.
fn cuts(of: Bounded) -> [u64; 6] {
    match of {
        Bounded::Age => [1_000, 72_000, 215_500, 216_000, 240_000, 999_000],
        Bounded::Weight => [1, 3_000, 70_000, 70_001, 80_000, 999_998],
        Bounded::Surface => [1, 500, 1_500, 1_501, 9_998, 9_999],
    }
}

/// Bands that meet; half of them with a hole, an overlap, equal bounds or a row from 999,999 to 999,999.
fn bands(r: &mut Random, of: Bounded) -> Vec<Band> {
    let mut bounds = vec![0, NO_UPPER];
    bounds.extend((0..r.between(1, 3)).map(|_| r.pick(&cuts(of))));
    bounds.sort();
    bounds.dedup();
    let mut bands: Vec<Band> = bounds.windows(2).map(|pair| (pair[0], pair[1])).collect();
    let place = r.below(bands.len() as u64) as usize;
    let (low, high) = bands[place];
    match r.below(10) {
        0 if low + 1 < high => bands[place].0 += 1,
        1 if high < NO_UPPER => bands[place].1 += 1,
        2 => bands[place].1 = low,
        3 => bands.push((high, high)),
        4 => bands.push((NO_UPPER, NO_UPPER)),
        _ => {}
    }
    bands
}

fn near(r: &mut Random, of: Bounded, bands: &[Band]) -> u32 {
    let (low, high) = r.pick(bands);
    let bound = r.pick(&[low, high]);
    r.pick(&beside(of, bound))
}

/// Adds a category of such bands, of one datum or of two, and entries on their bounds and beside them.
pub fn add(case: &mut Case, r: &mut Random) {
    product(case);
    let [first, second] = [(); 2].map(|()| r.pick(&Bounded::ALL));
    let [bands, others] = [first, second].map(|of| bands(r, of));
    let two = first != second && r.percent(50);
    for band in &bands {
        match two {
            true => others.iter().for_each(|other| row(case, 1, &[(first, *band), (second, *other)])),
            false => row(case, 1, &[(first, *band)]),
        }
    }
    for _ in 0..6 {
        let mut new = entry(1, first, near(r, first, &bands));
        if two {
            new[second.place()] = near(r, second, &others);
        }
        case.entries.push(new);
    }
    if r.percent(70) {
        case.shuffle(r);
    }
}

/// For one datum, each under its own count: two rows that meet, equal bounds, a row from 999,999 to 999,999, an overlap
/// and a hole; with all that lies on their bounds and beside them, and a blank where there is one row.
pub fn each(of: Bounded) -> Case {
    let [_, cut, .., more, _] = cuts(of);
    let kinds: [&[Band]; 5] = [
        &[(0, cut), (cut, more), (more, NO_UPPER)],
        &[(cut, cut)],
        &[(NO_UPPER, NO_UPPER)],
        &[(0, more), (cut, NO_UPPER)],
        &[(0, cut), (more, NO_UPPER - 1)],
    ];
    let mut case = Case::empty();
    product(&mut case);
    for (count, bands) in (1..).zip(kinds) {
        bands.iter().for_each(|band| row(&mut case, count, &[(of, *band)]));
        let mut numbers: Vec<u32> =
            bands.iter().flat_map(|(low, high)| [*low, *high]).flat_map(|b| beside(of, b)).collect();
        if bands.len() == 1 {
            numbers.push(BLANK);
        }
        numbers.sort();
        numbers.dedup();
        case.entries.extend(numbers.into_iter().map(|number| entry(count, of, number)));
    }
    case
}
