//! Stored cases of ranges, and the output this program gives.

use super::smallest::Piece;
use super::store::{bytes_before_p4, numbers, write, SEED};
use crate::generate::counts::{made_count_case, CountCase, Range};
use crate::generate::{edition, full, hpk, months, proof_ranges, quiet};
use crate::random::Random;
use second::check::entry::{BLANK, EDITION_1, MONTHS_OFF, QUIET_OFF, QUIET_ON};
use second::stream::counts::PLACES_MOST;
use second::stream::BROKEN;
use std::{io, path::Path};

/// Numbers of cases that showed something new of SEED's first 12,000 in the coverage, the short ones first.
const CHOSEN: &str = include_str!("../../stored/counts");
/// So many cases of ranges are stored before those of P3.
pub const CASES: usize = 230;
/// The rest is filled up with cases of so many ranges or more, no longer than this.
const FILLING_RANGES: usize = 5;
const FILLING_BYTES: usize = 2_000;

/// Those of P7 behind those before it, which keep their answers.
pub fn cases() -> Vec<CountCase> {
    let mut cases = cases_before_p7();
    cases.extend(p7_cases());
    cases
}

/// Those of P5 behind those before it, which keep their answers. All of them say edition 2.
pub fn cases_before_p7() -> Vec<CountCase> {
    let mut cases = cases_before_p5();
    cases.extend(p5_cases());
    cases
}

/// Those of P4 behind those before it, which keep their answers. All of them have an empty table 70.
pub fn cases_before_p5() -> Vec<CountCase> {
    let mut cases = cases_before_p4();
    cases.extend(p4_cases());
    cases
}

/// Those of P3 behind those before it, which keep their answers: a range says on where its entry gives no months
/// setting. None of them gives a quiet setting.
pub fn cases_before_p4() -> Vec<CountCase> {
    let mut cases = cases_before_p3();
    cases.extend(p3_cases());
    quiet::not_given(cases.iter_mut().flat_map(|case| &mut case.case.entries));
    cases
}

/// The proof table's ranges first; then tables that are refused and full categories; the chosen cases; others.
fn cases_before_p3() -> Vec<CountCase> {
    let mut cases = vec![proof_ranges::k_1_to_3(), proof_ranges::ranges()];
    cases.extend([121, 122].map(proof_ranges::over_bad_tables));
    cases.extend((0..3).map(full_category));
    let chosen = numbers(CHOSEN);
    let made = |number: &u64| made_count_case(SEED, *number);
    cases.extend(chosen.iter().map(made));
    let others = (0..).filter(|number| !chosen.contains(number)).map(|number| made(&number));
    let room = CASES - cases.len();
    let filling = |case: &CountCase| case.ranges.len() >= FILLING_RANGES && bytes(case) <= FILLING_BYTES;
    cases.extend(others.filter(filling).take(room));
    cases
}

/// Before P4, with the three numbers of each range.
fn bytes(case: &CountCase) -> usize {
    bytes_before_p4(&case.case) + 3 * size_of::<u32>() * case.ranges.len()
}

/// The proof table for 1, 2 and 3 with months off and not given; each time unit that has one beside it, with each
/// setting.
pub fn p3_cases() -> Vec<CountCase> {
    let mut cases = [MONTHS_OFF, BLANK].map(proof_ranges::k_1_to_3_with_months).to_vec();
    cases.extend(months::UNITS.map(months::ranges));
    cases
}

/// The proof table for 1, 2 and 3 with quiet off and on, P4's examples over it for 1 to 4; what is asked for a range.
pub fn p4_cases() -> Vec<CountCase> {
    let mut cases = [QUIET_OFF, QUIET_ON].map(proof_ranges::k_1_to_3_with_quiet).to_vec();
    cases.extend([proof_ranges::quiet_1_to_4(), quiet::ranges()]);
    cases
}

/// The proof table with table 70 for 1, 2 and 3, with P5's examples; what is asked for a range; table 70 refused in
/// each way.
pub fn p5_cases() -> Vec<CountCase> {
    let mut cases = vec![proof_ranges::k_1_to_3_with_table_70(), proof_ranges::hpk_1_to_3(), hpk::ranges()];
    cases.extend(hpk::Bad::ALL.map(hpk::bad_ranges));
    cases
}

/// The proof table for 1, 2 and 3 in edition 1, P4's examples over it for 1 to 4; what is asked for a range, in each
/// edition and in none.
pub fn p7_cases() -> Vec<CountCase> {
    let mut cases = vec![edition::k_1_to_3(EDITION_1), edition::quiet_1_to_4(EDITION_1)];
    cases.extend(edition::ranges(SEED));
    cases
}

/// Its one entry for two counts, of which the first has the row or rows.
fn full_category(variant: usize) -> CountCase {
    let case = full::full(variant, &mut Random::of_case(SEED, variant as u64));
    CountCase { case, ranges: vec![Range { first: 1, last: 2, places: 2 }] }
}

/// The cases as a stream; then one whose second list has a place too many, and one more behind it.
pub fn stream(cases: &[CountCase]) -> (Vec<u8>, Vec<u8>) {
    let (mut stdin, mut stdout) = (CountCase::joined(cases), CountCase::lines(cases).concat());
    let mut broken = proof_ranges::k_1_to_3();
    broken.ranges[1].places = PLACES_MOST + 1;
    stdin.extend(CountCase::joined(&[broken, proof_ranges::k_1_to_3()]));
    stdout.extend(BROKEN);
    (stdin, stdout)
}

pub fn counts(dir: &Path) -> io::Result<String> {
    let cases = cases();
    let ranges: usize = cases.iter().map(|case| case.ranges.len()).sum();
    let (stdin, stdout) = stream(&cases);
    write(dir, &stdin, &stdout)?;
    Ok(format!("{} cases, {ranges} ranges, {} bytes", cases.len(), stdin.len()))
}
