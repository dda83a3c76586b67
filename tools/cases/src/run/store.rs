//! Stored vectors: a program's input and the output this program gives.

use super::compare::input;
use super::smallest::unit_file::UnitFile;
use super::{answers_of_bytes, edges};
use crate::generate::calls::{call_case_070, made_call_case, stream as stream_of, CallCase};
use crate::generate::case::{Case, MADE_FIELDS, MADE_TABLES};
use crate::generate::joints::{self, Bounded};
use crate::generate::order::Order;
use crate::generate::records::{good, text_070};
use crate::generate::{self, chains, edition, full, hpk, months, proof_table, quiet, FULL_640, TOO_LONG_640};
use crate::random::Random;
use quiet::One::{LimitsAbsent, NormMinimum, Suppresses};
use second::check::entry::{BLANK, EDITION, EDITION_1, FIELDS, MONTHS, MONTHS_OFF, QUIET_OFF, QUIET_ON};
use second::check::Table;
use second::record::calls::{calls as call_lines, Call, File, Record, BYTES_MOST};
use second::record::f070::Link;
use second::record::list::unit_list;
use second::record::RECORD;
use second::stream::{BROKEN, HEADER};
use std::{fs, io, path::Path};

pub const SEED: u64 = 730;
/// So many cases are stored before those that look for keys.
pub const CASES: usize = 3_500;
/// Rows of the longest table of those whose keys are looked for one by one.
const LENGTHS: u64 = 6;
/// Numbers of cases, and of cases of calls, that showed something new of SEED's first 12,000, in the coverage or by
/// telling a wrong version that none before told.
const CHOSEN_CASES: &str = include_str!("../../stored/cases");
const CHOSEN_CALLS: &str = include_str!("../../stored/calls");
const CHOSEN_CALLS_070: &str = include_str!("../../stored/calls_070");
/// Numbers of the stored ones in which an entry gave no months setting and gets another answer for it by P3.
const CHOSEN_MONTHS: &str = include_str!("../../stored/months");
/// Numbers of cases with table 70 that showed something new of SEED's first 12,000 in the coverage.
const CHOSEN_HPK: &str = include_str!("../../stored/hpk");
/// The rest is filled up with cases no longer than this before P4, since all of them stand in the repository.
const FILLING_BYTES: usize = 1_000;
const UNIT_FILES: u64 = 400;

/// Those of P7 behind those before it, which keep their answers.
pub fn cases() -> Vec<Case> {
    let mut cases = cases_before_p7();
    cases.extend(p7_cases());
    cases
}

/// Those of P5 behind those before it, which keep their answers. All of them say edition 2.
pub fn cases_before_p7() -> Vec<Case> {
    let mut cases = cases_before_p5();
    cases.extend(p5_cases());
    cases
}

/// Those of P4 behind those before it, which keep their answers. All of them have an empty table 70.
pub fn cases_before_p5() -> Vec<Case> {
    let mut cases = cases_before_p4();
    cases.extend(p4_cases());
    cases
}

/// Those of P3 behind those before it, which keep their answers. None of them gives a quiet setting.
pub fn cases_before_p4() -> Vec<Case> {
    let mut cases = cases_before_p3();
    cases.extend(p3_cases());
    quiet::not_given(cases.iter_mut().flat_map(|case| &mut case.entries));
    cases
}

/// K1 to K15 first; a table that is full and one that is too long; the chosen cases; others.
/// Behind them the cases that look for keys, and those of P1, added later: those before stay as they were, but that
/// they relied on months not given being on, and say on (P3).
pub fn cases_before_p3() -> Vec<Case> {
    let mut cases = first_cases();
    cases.extend(key_cases());
    cases.extend(p1_cases());
    cases.iter_mut().for_each(|case| months::say_on(&mut case.entries));
    cases
}

fn first_cases() -> Vec<Case> {
    let first = proof_table::with(&proof_table::K[..proof_table::BEFORE_P1]);
    let mut cases = vec![first, generate::made(SEED, FULL_640), generate::made(SEED, TOO_LONG_640)];
    let chosen = numbers(CHOSEN_CASES);
    let made = |number: &u64| generate::light_made(SEED, *number);
    cases.extend(chosen.iter().map(made));
    let others = (0..).filter(|number| !chosen.contains(number)).map(|number| made(&number));
    let room = CASES - cases.len();
    cases.extend(others.filter(|case| bytes_before_p4(case) <= FILLING_BYTES).take(room));
    cases
}

/// Those that fill up were chosen by their length before entries had a quiet setting and an edition, and before there
/// was table 70.
pub(super) fn bytes_before_p4(case: &Case) -> usize {
    case.bytes().len() - size_of::<u32>() * ((FIELDS - MADE_FIELDS) * case.entries.len() + 1)
}

pub(super) fn numbers(list: &str) -> Vec<u64> {
    list.split_whitespace().map(|number| number.parse().expect("a list of numbers")).collect()
}

/// Tables that rise and tables that fall, keys at each place of them, and full categories.
pub fn key_cases() -> Vec<Case> {
    // Began as the half header did that the stream ended with, so that the older stream was the front of this one.
    let mut cases = vec![chains::empty()];
    cases.extend((1..=LENGTHS).map(chains::length));
    for table in MADE_TABLES {
        cases.extend((0..3).map(|several| chains::search(table, Order::Rises, several)));
        cases.extend(Order::ALL[1..].iter().map(|order| chains::search(table, *order, 1)));
    }
    let r = &mut Random::of_case(SEED, 0);
    cases.extend((0..full::VARIANTS).map(|variant| full::full(variant, r)));
    cases
}

/// A dose a fraction above the absolute maximum: the older cases that have one lie on a high end, and P1 ends them
/// before it.
const FRACTION_ABOVE: (u64, usize) = (1_494, 3);

/// The proof table as P1 has it; rows that meet, for age, weight and surface; what P1 took from the older cases.
pub fn p1_cases() -> Vec<Case> {
    let mut cases = vec![proof_table::k_case()];
    cases.extend(Bounded::ALL.map(joints::each));
    let (number, entry) = FRACTION_ABOVE;
    let mut raised = generate::light_made(SEED, number);
    raised.entries = vec![raised.entries[entry]];
    joints::raise(&mut raised);
    cases.push(raised);
    cases
}

/// The proof table with months off and not given; each time unit that has one beside it, with each setting; and those
/// of the older cases that get another answer where months are not given, as they were.
pub fn p3_cases() -> Vec<Case> {
    let mut cases = [MONTHS_OFF, BLANK].map(proof_table::with_months).to_vec();
    cases.extend(months::UNITS.map(months::each));
    cases.extend(numbers(CHOSEN_MONTHS).into_iter().map(without_months));
    cases
}

/// With the entries that give no months setting.
fn without_months(number: u64) -> Case {
    let mut case = generate::light_made(SEED, number);
    case.entries.retain(|entry| entry[MONTHS] == BLANK);
    case
}

/// The proof table with quiet off and on, and P4's examples over it; each condition and each comparison, and some of them
/// where the keys of 649 fall; categories of 512 rows per day, where one row decides, wherever it stands.
pub fn p4_cases() -> Vec<Case> {
    let mut cases = [QUIET_OFF, QUIET_ON].map(proof_table::with_quiet).to_vec();
    cases.push(proof_table::with(&proof_table::QUIET_K));
    cases.push(quiet::each());
    let r = &mut Random::of_case(SEED, 0);
    cases.extend(Order::ALL[1..].iter().map(|order| quiet::ordered(*order)));
    for (one, place) in [(Suppresses, 511), (Suppresses, 0), (LimitsAbsent, 256), (NormMinimum, 511)] {
        cases.push(quiet::full(one, place, place != 0, r));
    }
    cases
}

/// The proof table with table 70, and P5's examples over it; each way by itself; table 70 refused in each way; its
/// keys rising and falling, and each of them looked for; a category of 513 rows; the chosen cases.
pub fn p5_cases() -> Vec<Case> {
    let mut cases = vec![proof_table::with_table_70(&proof_table::K), proof_table::with_table_70(&proof_table::HPK_K)];
    cases.push(hpk::each());
    cases.extend(hpk::Bad::ALL.map(hpk::bad));
    cases.extend(hpk::both_bad());
    cases.extend((0..3).map(|several| chains::search(Table::T70, Order::Rises, several)));
    cases.extend(Order::ALL[1..].iter().map(|order| chains::search(Table::T70, *order, 1)));
    cases.extend((1..=LENGTHS).map(chains::hpk_length));
    let mut long = full::full(full::TOO_LONG, &mut Random::of_case(SEED, 0));
    hpk::over_full(&mut long);
    cases.push(long);
    cases.extend(numbers(CHOSEN_HPK).into_iter().map(|number| hpk::made(SEED, number)));
    cases
}

/// The proof table in edition 1, and P4's examples over it; each answer in each edition and in none, also over tables
/// that are refused and a category of 513 rows.
pub fn p7_cases() -> Vec<Case> {
    let mut quiet = proof_table::with(&proof_table::QUIET_K);
    quiet.entries.iter_mut().for_each(|entry| entry[EDITION] = EDITION_1);
    let mut cases = vec![proof_table::with_edition(EDITION_1), quiet, edition::each()];
    cases.extend(edition::bad_tables());
    cases.push(edition::too_long(SEED));
    cases
}

pub(super) fn write(dir: &Path, stdin: &[u8], stdout: &[u8]) -> io::Result<()> {
    fs::create_dir_all(dir)?;
    fs::write(dir.join("stdin"), stdin)?;
    fs::write(dir.join("stdout"), stdout)
}

/// The cases as a stream that breaks off inside the front of one more, and the lines that it gets.
pub fn stream(cases: &[Case]) -> (Vec<u8>, Vec<u8>) {
    let (mut stdin, mut stdout) = (vec![], vec![]);
    for case in cases {
        let bytes = case.bytes();
        answers_of_bytes(case, &bytes).iter().for_each(|answer| answer.line(&mut stdout));
        stdin.extend(bytes);
    }
    stdin.extend([0; HEADER / 2]);
    stdout.extend(BROKEN);
    (stdin, stdout)
}

pub fn answers(dir: &Path) -> io::Result<String> {
    let cases = cases();
    let entries: usize = cases.iter().map(|case| case.entries.len()).sum();
    let (stdin, stdout) = stream(&cases);
    write(dir, &stdin, &stdout)?;
    Ok(format!("{} cases, {entries} entries, {} bytes", cases.len(), stdin.len()))
}

/// Streams long enough to be left to `second edges`.
const LONG_STREAM: usize = 100_000;

/// Each short stream of `second edges` in a folder of its own.
pub fn broken(dir: &Path) -> io::Result<usize> {
    let mut streams = edges::streams();
    streams.retain(|(_, stdin, _)| stdin.len() < LONG_STREAM);
    for (number, (_, stdin, stdout)) in streams.iter().enumerate() {
        write(&dir.join(format!("{number:02}")), stdin, stdout.as_bytes())?;
    }
    Ok(streams.len())
}

pub fn unit_input() -> Vec<u8> {
    input::<UnitFile>(SEED, 0..UNIT_FILES)
}

pub fn units(dir: &Path) -> io::Result<usize> {
    let stdin = unit_input();
    let stdout = unit_list(&stdin);
    write(dir, &stdin, &stdout)?;
    Ok(stdout.iter().filter(|c| **c == b'\n').count())
}

/// So many whole calls of file 730 are stored, and behind them so many of file 070; then a damaged one.
pub const CALLS: usize = 1_500;
pub const CALLS_070: usize = 400;
/// The rest is filled up with streams no longer than this.
const FILLING_CALLS: usize = 600;

/// Those of file 070 behind those before P5, which stay as they were; then one of 4,097 bytes, and one more behind it.
pub fn call_input() -> Vec<u8> {
    let mut calls = calls_before_p5();
    let last = calls[0].clone();
    calls.extend(p5_calls());
    let longer = Call::Read(File::F730, vec![b' '; BYTES_MOST as usize + 1]);
    [stream_of(&calls), stream_of(&[longer, last])].concat()
}

/// The chosen calls of file 730, and others.
pub fn calls_before_p5() -> Vec<Call> {
    filled_up(vec![], numbers(CHOSEN_CALLS), made_call_case, CALLS)
}

/// Document 004's rows, read and written; one of them spoilt; the chosen calls of file 070, and others.
pub fn p5_calls() -> Vec<Call> {
    let mut first = vec![];
    for (mutation, row) in [0, 1, 2, 3, 0].into_iter().zip(hpk::ROWS_004) {
        first.push(Call::Read(File::F070, text_070(mutation, row).into_bytes()));
        let record = Record::Link(Link { mutation: mutation as u32, numbers: row.map(|number| number as u32) });
        first.push(Call::Write { record, buffer: vec![b'x'; RECORD + 2], place: 1 });
    }
    first.extend(spoilt(text_070(0, hpk::ROWS_004[0]).into_bytes()));
    filled_up(first, numbers(CHOSEN_CALLS_070), call_case_070, CALLS_070)
}

/// A record of 070 with another character at each place; with 730's number in front; and it and one of 730 read as
/// those of the other file.
fn spoilt(record: Vec<u8>) -> Vec<Call> {
    let at_place = |place: usize| {
        let mut record = record.clone();
        record[place] = b'x';
        Call::Read(File::F070, record)
    };
    let mut calls: Vec<Call> = (0..RECORD).map(at_place).collect();
    let of_730 = good(&mut Random::of_case(SEED, 0), File::F730).to_vec();
    calls.push(Call::Read(File::F070, [&of_730[..4], &record[4..]].concat()));
    calls.extend([Call::Read(File::F070, of_730), Call::Read(File::F730, record)]);
    calls
}

/// Behind the first calls those of the chosen cases, and others, so many in all.
fn filled_up(first: Vec<Call>, chosen: Vec<u64>, made: fn(u64, u64) -> CallCase, count: usize) -> Vec<Call> {
    let made = |number: &u64| CallCase { damaged: None, ..made(SEED, *number) };
    let mut calls = first;
    calls.extend(chosen.iter().flat_map(|number| made(number).whole));
    let others = (0..).filter(|number| !chosen.contains(number)).map(|number| made(&number));
    let room = count - calls.len();
    calls.extend(others.filter(|case| case.bytes().len() <= FILLING_CALLS).flat_map(|case| case.whole).take(room));
    calls
}

pub fn calls(dir: &Path) -> io::Result<usize> {
    let stdin = call_input();
    let stdout = call_lines(&stdin);
    write(dir, &stdin, &stdout)?;
    Ok(stdout.iter().filter(|c| **c == b'\n').count())
}
