//! What demand 3 is tried on: cases with their entries after P5's filling, these with their blanks filled, and with
//! their rows in another order.

use super::after_filling;
use super::smallest::Piece;
use crate::generate;
use crate::generate::case::{Case, Numbers};
use crate::generate::counts::{at_count, with_count, CountCase, Range};
use crate::generate::edition;
use crate::random::Random;
use second::check::entry::*;

/// The data that demand 3 speaks of, each with its question. By P5 the HPK is not among them: of its question demand 3
/// says only that the HPK is blank.
pub const DATA: [(usize, u32); 5] = [(AGE, 101), (SEX, 102), (PRK, 104), (WEIGHT, 105), (SURFACE, 106)];
pub const OF_HPK: (usize, u32) = (HPK, 103);

/// What quiet not given means, in a range too (P4).
const QUIET_NOT_GIVEN: u32 = QUIET_OFF;

/// A line that answers the entry of another with something filled: the place of the other, and by what.
#[derive(Clone, Copy)]
pub struct Filled {
    pub of: usize,
    pub by: By,
}

#[derive(Clone, Copy, PartialEq)]
pub enum By {
    /// By its HPK.
    Hpk,
    /// One datum, or a setting with what it means where it is not given.
    Datum(usize),
    /// Nothing: it is in the other edition (P7).
    Edition,
}

/// A case with its entries, each followed by itself in the other edition, after P5's filling and then with each blank
/// filled, and how they hang together.
pub struct Filling<P> {
    pub number: u64,
    /// What the program is sent: the case, then the case with its rows in another order.
    pub sent: [P; 2],
    /// The tables, and the entry that each line answers, as the single check is asked for it.
    pub case: Case,
    /// The same entries after P5's filling.
    pub after: Vec<Numbers>,
    /// The same entries, their months as they are sent.
    pub sent_entries: Vec<Numbers>,
    pub filled: Vec<Option<Filled>>,
}

/// A piece whose lines are judged by demand 3.
pub trait Fillable: Piece {
    /// What months not given means: given, it must change nothing.
    const MONTHS_NOT_GIVEN: u32;

    fn of_filled(number: u64, seed: u64, cases: [Case; 2], filled: Vec<Option<Filled>>) -> Filling<Self>;
}

impl Fillable for Case {
    const MONTHS_NOT_GIVEN: u32 = MONTHS_OFF;

    /// A line for each entry.
    fn of_filled(number: u64, _: u64, sent: [Case; 2], filled: Vec<Option<Filled>>) -> Filling<Case> {
        let (case, after) = (sent[0].clone(), after_filling(&sent[0]));
        Filling { number, case, after, sent_entries: sent[0].entries.clone(), sent, filled }
    }
}

impl Fillable for CountCase {
    const MONTHS_NOT_GIVEN: u32 = MONTHS_ON;

    /// A line for each count of each entry; an entry and what is made of it have the same range.
    fn of_filled(number: u64, seed: u64, cases: [Case; 2], filled: Vec<Option<Filled>>) -> Filling<CountCase> {
        let r = &mut Random::of_case(!seed ^ 0x7261_6e67, number);
        let (mut ranges, mut starts): (Vec<Range>, Vec<usize>) = (vec![], vec![]);
        let mut asked = Case { tables: cases[0].tables.clone(), entries: vec![] };
        let (mut sent_entries, mut filled_lines) = (vec![], vec![]);
        for (entry, filled) in cases[0].entries.iter().zip(filled) {
            let range = filled.map_or_else(|| answered(r, entry[COUNT]), |filled| ranges[filled.of]);
            starts.push(asked.entries.len());
            ranges.push(range);
            for (place, count) in (range.first..=range.last).enumerate() {
                asked.entries.push(at_count(*entry, count));
                sent_entries.push(with_count(*entry, count));
                filled_lines.push(filled.map(|Filled { of, by }| Filled { of: starts[of] + place, by }));
            }
        }
        let sent = cases.map(|case| CountCase { case, ranges: ranges.clone() });
        Filling { number, sent, after: after_filling(&asked), case: asked, sent_entries, filled: filled_lines }
    }
}

/// A few counts about the own one, and room for them.
fn answered(r: &mut Random, own: u32) -> Range {
    let first = own.saturating_sub(r.below(2) as u32);
    let last = first.saturating_add(r.below(4) as u32);
    Range { first, last, places: last - first + 1 }
}

/// Several permitted values of a datum.
fn values(datum: usize, r: &mut Random, case: &Case) -> Vec<u32> {
    let column = |table: usize, place: usize, over: u64| {
        let rows = &case.tables[table];
        rows.cells.chunks_exact(rows.width()).map(|row| (row[place] / over) as u32).take(4).collect::<Vec<u32>>()
    };
    let (_, low, high) = RANGES[datum];
    let mut values = match datum {
        SEX => vec![],
        PRK => column(1, datum, 1),
        AGE => [column(3, 1, 1_000), column(3, 2, 1_000)].concat(),
        WEIGHT => [column(3, 5, 1), column(3, 6, 1)].concat(),
        _ => [column(3, 7, 1), column(3, 8, 1)].concat(),
    };
    values.extend([low, high, r.between(low as u64, high as u64) as u32]);
    values.retain(|value| (low..=high).contains(value));
    values.sort();
    values.dedup();
    values
}

pub fn filling<P: Fillable>(seed: u64, number: u64) -> Filling<P> {
    let r = &mut Random::of_case(!seed, number);
    let mut case = generate::light_case(seed, number);
    for entry in &mut case.entries {
        // More blanks than the generator gives, so that each question is met.
        if r.percent(50) {
            entry[r.pick(&[AGE, SEX, HPK, PRK, WEIGHT, SURFACE])] = BLANK;
        }
    }
    let after = after_filling(&case);
    let entries: Vec<Numbers> = std::mem::take(&mut case.entries);
    let mut filled = vec![];
    for (entry, after) in entries.into_iter().zip(after) {
        let mut of = case.entries.len();
        case.entries.push(entry);
        filled.push(None);
        if let Some(other) = edition::other(entry[EDITION]) {
            case.entries.push(edition::with_edition(entry, other));
            filled.push(Some(Filled { of, by: By::Edition }));
        }
        if after != entry {
            case.entries.push(after);
            filled.push(Some(Filled { of, by: By::Hpk }));
            of = case.entries.len() - 1;
        }
        for (datum, value) in given(&after, P::MONTHS_NOT_GIVEN, r, &case) {
            let mut given = after;
            given[datum] = value;
            case.entries.push(given);
            filled.push(Some(Filled { of, by: By::Datum(datum) }));
        }
    }
    let mut shuffled = case.clone();
    shuffled.shuffle(r);
    P::of_filled(number, seed, [case, shuffled], filled)
}

/// Several values for each blank of an entry, and what its settings mean where they are not given.
fn given(entry: &Numbers, months: u32, r: &mut Random, case: &Case) -> Vec<(usize, u32)> {
    let is_blank = |place: &usize| entry[*place] == BLANK;
    let mut all = vec![];
    for datum in DATA.map(|(datum, _)| datum).into_iter().filter(is_blank) {
        all.extend(values(datum, r, case).into_iter().map(|value| (datum, value)));
    }
    all.extend([(MONTHS, months), (QUIET, QUIET_NOT_GIVEN)].into_iter().filter(|(place, _)| is_blank(place)));
    all
}
