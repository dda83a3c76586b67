//! Demand 3 by brute force over another program: blanks filled, rows in another order. And P7: each entry in both
//! editions.

use super::difference::{difference, Report};
use super::edition::in_edition_1;
use super::fillings::{filling, By, Fillable, Filled, Filling, DATA, OF_HPK};
use super::smallest::{compared, Outcome, Piece};
use super::{answers_of, program, show};
use crate::generate::case::{Case, Numbers};
use crate::generate::counts::CountCase;
use second::check::entry::{BLANK, EDITION, EDITION_1, RANGES, SURFACE, WEIGHT};
use second::check::Test;
use std::ops::Range;

/// What a program that breaks demand 3 is told by.
const BROKEN: &str = "demand 3 is broken";

/// Cases for each start of the program.
const BATCH: u64 = 2_500;
/// Batches between two lines of progress.
const PROGRESS: usize = 4;

/// Each case with its entries filled, followed by itself with its rows in another order.
fn pieces<P: Fillable>(fillings: &[Filling<P>]) -> Vec<P> {
    fillings.iter().flat_map(|filling| filling.sent.clone()).collect()
}

fn fillings<P: Fillable>(seed: u64, numbers: Range<u64>) -> Vec<Filling<P>> {
    numbers.map(|number| filling(seed, number)).collect()
}

/// The stream of filled entries that a program of this kind is sent.
pub fn stream(of: &str, seed: u64, cases: Range<u64>) -> Result<Vec<u8>, String> {
    match of {
        Case::OF => Ok(Case::joined(&pieces(&fillings(seed, cases)))),
        CountCase::OF => Ok(CountCase::joined(&pieces(&fillings(seed, cases)))),
        _ => Err(unknown(of)),
    }
}

fn unknown(of: &str) -> String {
    format!("demand 3 is not judged through {of}; see cases --help")
}

/// How many answers were judged, by kind.
#[derive(Default, Debug)]
pub struct Judged {
    pub entries: u64,
    pub fillings_of_other_answers: u64,
    pub fillings_of_the_question: u64,
    /// Those among them whose question stands in step 9 (P4).
    pub fillings_of_step_9: u64,
    pub fillings_of_other_blanks: u64,
    /// Entries after P5's filling, where it filled something: answered as they were before it.
    pub filled_by_hpk: u64,
    /// Entries in both editions; those among them that the editions answer differently.
    pub in_both_editions: u64,
    pub editions_differ: u64,
    pub reordered: u64,
}

/// Judges the answers of a program of this kind by themselves, and then compares them with those of the second program.
pub fn run(of: &str, program: &str, seed: u64, cases: Range<u64>, report: &Report) -> Result<Judged, String> {
    match of {
        Case::OF => run_of::<Case>(program, seed, cases, report),
        CountCase::OF => run_of::<CountCase>(program, seed, cases, report),
        _ => Err(unknown(of)),
    }
}

fn run_of<P: Fillable>(of: &str, seed: u64, cases: Range<u64>, report: &Report) -> Result<Judged, String> {
    let mut judged = Judged::default();
    for (batch, first) in cases.clone().step_by(BATCH as usize).enumerate() {
        if batch > 0 && batch.is_multiple_of(PROGRESS) {
            eprintln!("demand 3: {} of {} cases", first - cases.start, cases.end - cases.start);
        }
        let numbers = first..cases.end.min(first + BATCH);
        let fillings: Vec<Filling<P>> = fillings(seed, numbers);
        let pieces = pieces(&fillings);
        let lines = program::lines(of, &P::joined(&pieces))?;
        judge_all(of, seed, &fillings, &lines, &mut judged)?;
        if lines.join("\n").as_bytes() == P::lines(&pieces).concat().trim_ascii_end() {
            continue;
        }
        if let Outcome::Differs(found) = compared(of, &pieces)? {
            let number = |place: usize| fillings[place / 2].number;
            let name = |place: usize| format!("number {} of seed {seed}, its blanks filled", number(place));
            return Err(format!("{of} differs\n{}", difference(of, &pieces, &found, name, report)?));
        }
    }
    Ok(judged)
}

fn judge_all<P: Fillable>(
    of: &str,
    seed: u64,
    fillings: &[Filling<P>],
    lines: &[String],
    judged: &mut Judged,
) -> Result<(), String> {
    let mut rest = lines;
    for filling in fillings {
        let (number, count) = (filling.number, filling.case.entries.len());
        if rest.len() < 2 * count {
            return Err(format!("{of}: lines missing from case {number} of seed {seed} on"));
        }
        judge(filling, &rest[..count], &rest[count..2 * count], judged)
            .map_err(|what| format!("{BROKEN} by {of}, seed {seed}: {what}\n{}", repeat::<P>(of, seed, number)))?;
        rest = &rest[2 * count..];
    }
    match rest {
        [] => Ok(()),
        _ => Err(format!("{of}: lines behind the last entry")),
    }
}

fn repeat<P: Fillable>(of: &str, seed: u64, number: u64) -> String {
    format!("repeat: {} demand3 {} '{of}' --seed {seed} --first {number} --cases 1", program::this(), P::OF)
}

fn judge<P>(filling: &Filling<P>, lines: &[String], reordered: &[String], judged: &mut Judged) -> Result<(), String> {
    let places: Vec<Test> = answers_of(&filling.case).iter().map(|answer| answer.test).collect();
    for place in 0..lines.len() {
        judged.reordered += 1;
        if lines[place] != reordered[place] {
            return Err(told(
                filling,
                lines,
                &format!("rows in another order give {}", reordered[place]),
                place,
                place,
            ));
        }
        let result = match filling.filled[place] {
            None => question_names_a_blank(&lines[place], &filling.after[place], judged),
            Some(Filled { of, by: By::Hpk }) => judge_filled_by_hpk(&lines[of], &lines[place], judged),
            Some(Filled { of, by: By::Edition }) => {
                let is_former = filling.sent_entries[of][EDITION] == EDITION_1;
                let (former, now) = if is_former { (of, place) } else { (place, of) };
                judge_editions(&lines[former], &lines[now], judged)
            }
            Some(Filled { of, by: By::Datum(datum) }) => {
                let later = places[place] > places[of];
                let asked = [(WEIGHT, Test::QuietWeightMissing), (SURFACE, Test::QuietSurfaceMissing)];
                judged.fillings_of_step_9 += asked.contains(&(datum, places[of])) as u64;
                judge_filled(&lines[of], &lines[place], datum, later, judged)
            }
        };
        let of = filling.filled[place].map_or(place, |filled| filled.of);
        result.map_err(|what| told(filling, lines, &what, place, of))?;
    }
    Ok(())
}

/// `line` answers the entry of `before` after P5's filling.
fn judge_filled_by_hpk(before: &str, line: &str, judged: &mut Judged) -> Result<(), String> {
    judged.filled_by_hpk += 1;
    match line == before {
        true => Ok(()),
        false => Err("what the HPK fills changes the answer once it is given".to_string()),
    }
}

/// P7: `former` and `now` answer one entry in editions 1 and 2.
fn judge_editions(former: &str, now: &str, judged: &mut Judged) -> Result<(), String> {
    judged.in_both_editions += 1;
    judged.editions_differ += (former != now) as u64;
    match former == in_edition_1(now) {
        true => Ok(()),
        false => Err("the editions differ otherwise than P7 says".to_string()),
    }
}

/// `line` answers the entry of `asked` with the datum filled; whether it stands later in the order is `later`.
fn judge_filled(asked: &str, line: &str, datum: usize, later: bool, judged: &mut Judged) -> Result<(), String> {
    let question = number_of(asked);
    match DATA.iter().chain([&OF_HPK]).find(|(_, number)| *number == question) {
        Some((named, _)) if *named == datum => {
            judged.fillings_of_the_question += 1;
            if number_of(line) == question {
                return Err("the same question again".to_string());
            }
            return if later { Ok(()) } else { Err("the answer after filling does not stand later".to_string()) };
        }
        Some(_) => judged.fillings_of_other_blanks += 1,
        None => judged.fillings_of_other_answers += 1,
    }
    if line == asked {
        Ok(())
    } else {
        Err("filling a blank that was not asked changes the answer".to_string())
    }
}

fn told<P>(filling: &Filling<P>, lines: &[String], what: &str, place: usize, of: usize) -> String {
    let tables = show::tables(&filling.case);
    let entry = |place: usize| show::entry(&filling.sent_entries[place]);
    format!(
        "case {}: {what}\n{tables}entry:  {}\nanswer: {}\nfilled: {}\nanswer: {}",
        filling.number,
        entry(of),
        lines[of],
        entry(place),
        lines[place]
    )
}

fn number_of(line: &str) -> u32 {
    line.split(' ').next().and_then(|number| number.parse().ok()).unwrap_or(0)
}

fn question_names_a_blank(line: &str, entry: &Numbers, judged: &mut Judged) -> Result<(), String> {
    judged.entries += 1;
    match DATA.iter().chain([&OF_HPK]).find(|(_, number)| *number == number_of(line)) {
        Some((datum, number)) if entry[*datum] != BLANK => {
            Err(format!("{number} asks for {}, which is given", RANGES[*datum].0))
        }
        _ => Ok(()),
    }
}
