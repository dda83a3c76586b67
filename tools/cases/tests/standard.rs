//! The standard run reaches every test, and so do the stored vectors; wrong programs are told, each by a small case.

use cases::generate::calls::{call_case, stream};
use cases::generate::counts::{count_case, CountCase};
use cases::generate::{self, calls::CallCase, case::Case, full, proof_ranges, proof_table};
use cases::run::compare::Programs;
use cases::run::cover::{Coverage, Seen};
use cases::run::difference::Report;
use cases::run::searches::{self, Searches};
use cases::run::smallest::unit_file::UnitFile;
use cases::run::{
    again::again, compare, cover_calls, cover_counts, demand3, edges, store, store_counts, STANDARD_CASES,
    STANDARD_SEED,
};
use second::check::entry::{AGE, COUNT, SURFACE, TIME_UNIT, WEIGHT};
use second::check::test::Shape;
use second::check::{Table, Test};
use second::record::{calls::calls, list::unit_list};
use second::stream::{counts::COUNTS, run};
use std::fs;
use std::os::unix::fs::PermissionsExt;
use std::path::{Path, PathBuf};
use std::process::Command;
use std::sync::LazyLock;

#[test]
fn every_test_gives_its_answer() {
    let mut coverage = Coverage::default();
    for number in 0..STANDARD_CASES {
        coverage.add(&generate::case(STANDARD_SEED, number));
    }
    assert_eq!(coverage.missing(), []);
}

#[test]
fn every_call_has_each_outcome() {
    let mut coverage = cover_calls::Coverage::default();
    for number in 0..STANDARD_CASES {
        coverage.add(&call_case(STANDARD_SEED, number));
    }
    assert_eq!(coverage.missing(), []);
}

#[test]
fn every_range_has_each_outcome() {
    let mut coverage = cover_counts::Coverage::default();
    for number in 0..STANDARD_CASES {
        coverage.add(&count_case(STANDARD_SEED, number));
    }
    assert_eq!(coverage.missing(), []);
}

/// No table is too long in what is stored.
#[test]
fn the_stored_ranges_have_each_outcome() {
    let mut coverage = cover_counts::Coverage::default();
    store_counts::cases().iter().for_each(|case| coverage.add(case));
    let too_long = |table: &Table| cover_counts::Seen::Test(Test::Shape(*table, Shape::TooLong));
    assert_eq!(coverage.missing(), Table::ALL.iter().map(too_long).collect::<Vec<_>>());
}

static STORED: LazyLock<Vec<Case>> = LazyLock::new(store::cases);

/// The stored vectors hold long tables of 640 alone.
#[test]
fn the_stored_vectors_reach_every_test() {
    let mut coverage = Coverage::default();
    STORED.iter().for_each(|case| coverage.add(case));
    let too_long = |table| Seen::Test(Test::Shape(table, Shape::TooLong));
    assert_eq!(coverage.missing(), Table::ALL[1..].iter().map(|table| too_long(*table)).collect::<Vec<Seen>>());
}

/// A stored file of a proved program.
fn file(name: &str) -> Vec<u8> {
    fs::read(format!("{}/../../crates/{name}", env!("CARGO_MANIFEST_DIR"))).expect(name)
}

/// What is stored has to stay below this. With P7 each of its 10,016 older entries took 4 bytes more, and P7's own cases 40 kB;
/// the older cases have to stay.
const STORED_BYTES: usize = 5_460_000;

/// What the gate runs the proved programs on: K1 to K15 first, thousands of cases, about 5 MB.
#[test]
fn the_stored_files_are_these_vectors() {
    let (stdin, stdout) = store::stream(&STORED);
    assert!(file("answers/stdin") == stdin && file("answers/stdout") == stdout, "run tools/store-cases");
    assert!(stdin.starts_with(&proof_table::with(&proof_table::K[..proof_table::BEFORE_P1]).bytes()));
    let before = [store::key_cases(), store::p1_cases(), store::p3_cases(), store::p4_cases(), store::p5_cases()];
    let later = before.concat().len() + store::p7_cases().len();
    assert!(STORED.len() == store::CASES + later && store::CASES >= 3_000 && stdin.len() < STORED_BYTES);
    let units = store::unit_input();
    assert!(file("unit_list/stdin").starts_with(&units), "run tools/store-cases");
    assert!(file("unit_list/stdout").starts_with(&unit_list(&units)), "run tools/store-cases");
    let (stdin, stdout) = (store::call_input(), calls(&store::call_input()));
    assert!(file("record_calls/stdin") == stdin && file("record_calls/stdout") == stdout, "run tools/store-cases");
    assert!(stdout.ends_with(b"\nbroken\n") && stdin.len() + stdout.len() < 1_000_000);
    assert_eq!(stdout.iter().filter(|c| **c == b'\n').count(), store::CALLS + store::CALLS_070 + 1);
    assert!(stdin.starts_with(&stream(&store::calls_before_p5())));
}

/// K1 to K15 for 1, 2 and 3 first, and a broken case last, which by the second program has no line of its own.
#[test]
fn the_stored_ranges_are_these_vectors() {
    let cases = store_counts::cases();
    let (stdin, stdout) = store_counts::stream(&cases);
    assert!(file("counts/stdin") == stdin && file("counts/stdout") == stdout, "run tools/store-cases");
    assert!(stdin.starts_with(&proof_ranges::k_1_to_3().bytes()) && stdout.ends_with(b"\nbroken\n"));
    let before = [store_counts::p3_cases(), store_counts::p4_cases(), store_counts::p5_cases()];
    let later = before.concat().len() + store_counts::p7_cases().len();
    assert!(cases.len() == store_counts::CASES + later && stdin.len() < 500_000);
    let mut lines = vec![];
    run(&COUNTS, &stdin[..], &mut lines).expect("a slice is read and a vector written");
    assert!(lines == stdout);
}

/// Steps 7 and 11 at their bound, each where the keys of 643 rise and where they fall: all of 512 rows fit, one of
/// 512, one of 513. What is to be answered is document 01's, and what is stored is read from the files.
#[test]
fn full_categories_are_stored() {
    let file = String::from_utf8(file("answers/stdout")).expect("digits");
    let (key, mut lines, mut seen) = (full::KEY, file.lines(), vec![]);
    for case in STORED.iter() {
        let stored: Vec<&str> = lines.by_ref().take(case.entries.len()).collect();
        let rows = &case.tables[Table::T643 as usize];
        let of_category: Vec<&[u64]> = rows.cells.chunks_exact(10).filter(|row| row[0] == key).collect();
        let [entry] = case.entries[..] else { continue };
        if of_category.is_empty() {
            continue;
        }
        let number = |place: usize| entry[place] as u64;
        // P1: from the low end to below the high end, or the one value of equal ends
        let within = |row: &[u64], low: usize, number: u64| {
            let (low, high) = (row[low], row[low + 1]);
            low <= number && (number < high || high == 999_999) || low == high && number == low
        };
        let fits = |row: &&&[u64]| {
            within(row, 1, 1_000 * number(AGE))
                && (row[3], row[4]) == (number(COUNT), number(TIME_UNIT))
                && within(row, 5, number(WEIGHT))
                && within(row, 7, number(SURFACE))
        };
        let rises = rows.cells.chunks_exact(10).is_sorted_by_key(|row| row[0]);
        let alone = of_category.len() == rows.count();
        seen.push((of_category.len(), of_category.iter().filter(fits).count(), rises, alone, stored[0]));
    }
    let (all, one, long) = (
        format!("123 0 643 {key} {key} 0 0 0 0"),
        format!("100 0 0 {key} {key} {key} 0 0 0"),
        format!("120 0 643 {key} {key} 0 0 0 0"),
    );
    let mut expected = vec![];
    for (rises, alone) in [(true, true), (false, false), (true, false)] {
        for (count, fitting, line) in [(512, 512, &all), (512, 1, &one), (513, 1, &long)] {
            expected.push((count, fitting, rises, alone, &line[..]));
        }
    }
    assert_eq!(seen, expected);
}

/// By few fresh cases, and by the stored ones that were added for it.
#[test]
fn every_wrong_search_is_told() {
    assert_eq!(searches::run(STANDARD_SEED, STANDARD_CASES / 5).untold(), []);
    let mut stored = Searches::new();
    let cases = [store::key_cases(), store::p4_cases(), store::p5_cases()].concat();
    cases.iter().for_each(|case| stored.tell(case, 0));
    assert_eq!(stored.untold(), []);
}

/// The second program, built where it stands.
static SECOND: LazyLock<PathBuf> = LazyLock::new(|| {
    let folder = Path::new(env!("CARGO_MANIFEST_DIR")).join("../second");
    let words = ["build", "--offline", "--release", "--quiet"];
    assert!(Command::new(env!("CARGO")).args(words).current_dir(&folder).status().expect("cargo").success());
    folder.join("target/release/second")
});

fn program(of: &str) -> String {
    format!("{} {of}", SECOND.display())
}

/// A room of the test's own.
fn room(name: &str) -> PathBuf {
    let room = Path::new(env!("CARGO_TARGET_TMPDIR")).join(name);
    fs::create_dir_all(&room).expect("a room");
    room
}

/// A wrong program: the second program's lines through a filter.
fn wrong(of: &str, name: &str, filter: &str) -> String {
    let script = room(name).join("wrong");
    fs::write(&script, format!("#!/bin/sh\n{} 2>/dev/null | {filter}\n", program(of))).expect("a script");
    fs::set_permissions(&script, fs::Permissions::from_mode(0o755)).expect("a script that runs");
    script.display().to_string()
}

/// More cases than one start of the program gets.
const COMPARED: u64 = 12_000;

/// How many lines were equal.
fn comparison(room: &Path, of: &str, program: &str) -> Result<u64, String> {
    let report = Report { folder: room, again: None };
    let given = |wanted: &str| (wanted == of).then_some(program);
    let [answers, counts, units, calls] = ALL.map(given);
    let programs = Programs { answers, counts, units, calls };
    let run = compare::Run { seed: 77, first: 0, cases: COMPARED, quiet: true, programs, report };
    compare::run(&run).map(|equal| equal.entries + equal.counts + equal.records + equal.calls)
}

/// The commands of the second program.
const ALL: [&str; 4] = ["answers", "counts", "units", "calls"];

#[test]
fn the_program_agrees_with_itself() {
    let room = room("itself");
    for (of, lines) in ALL.into_iter().zip([5 * COMPARED, 15 * COMPARED, 5 * COMPARED, COMPARED]) {
        assert!(comparison(&room, of, &program(of)).expect("all equal") > lines, "{of}");
        let inputs = edges::inputs(of).expect(of);
        assert_eq!(edges::run(&program(of), &inputs), Ok(inputs.len()));
    }
}

/// The bytes of the smallest difference, which `again` must tell, and of which the right program must know nothing.
fn told(of: &str, name: &str, filter: &str) -> (String, usize) {
    let (wrong, room) = (wrong(of, name, filter), room(name));
    let what = comparison(&room, of, &wrong).expect_err(name);
    let file = room.join(of);
    assert!(what.ends_with(&format!("again {of} '{wrong}' {}", file.display())), "{what}");
    let bytes = fs::read(file).expect("the smallest difference");
    let shown = again(of, &wrong, &bytes).expect_err(name);
    assert!(shown.lines().count() > 1 && shown.lines().skip(1).all(|line| what.contains(line)), "{what}\n{shown}");
    assert_eq!(again(of, &program(of), &bytes), Ok(()), "{name}");
    (what, bytes.len())
}

/// 22 numbers.
const ENTRY: usize = 88;
/// A weight outside all rows needs a row of each of four tables, and an entry.
const FOUR_ROWS: usize = 32 + 12 + 20 + 24 + 40 + ENTRY;

#[test]
fn a_wrong_check_is_told_by_a_small_case() {
    let (what, length) = told("answers", "no-weight", "sed 's/^118 14 /114 13 /'");
    assert_eq!(length, FOUR_ROWS, "{what}");
    assert!(what.contains("second:  118 14 ") && what.contains("program: 114 13 "), "{what}");
    // A program that says too little, one that says too much, and one that ends badly.
    assert_eq!(told("answers", "few-lines", "sed '/^118 14 /d'").1, FOUR_ROWS);
    assert_eq!(told("answers", "more-lines", "sed '/^118 14 /p'").1, FOUR_ROWS);
    let (what, _) = told("answers", "bad-end", "awk '{ print } /^118 14 / { exit 3 }'");
    assert!(what.contains("ended with exit status: 3"), "{what}");
    assert_eq!(told("answers", "nothing", "cat >/dev/null").1, 32 + ENTRY);
    // Of table 70 one row, and two.
    let (what, length) = told("answers", "differs", "sed 's/^133 0 /133 16 /'");
    assert_eq!(length, 32 + 24 + ENTRY, "{what}");
    assert_eq!(told("answers", "several-70", "sed 's/^123 0 70 /133 0 0 /'").1, 32 + 48 + ENTRY);
    // A signal is suppressed by a rule of 649, and only edition 1 calls it 117.
    let (what, length) = told("answers", "suppressed-117", "sed 's/ 117$/ 115/'");
    assert_eq!(length, FOUR_ROWS + 16, "{what}");
    assert!(what.contains("quiet 1, edition 1\nsecond:  100 ") && what.contains(" (by the test Suppressed)"), "{what}");
    assert!(comparison(&room("no-program"), "answers", "no such program").is_err());
}

/// A range of no places, or of no count, needs no row.
const NO_ROW: usize = 32 + ENTRY + 12;

#[test]
fn a_wrong_range_is_told_by_a_small_case() {
    let (what, length) = told("counts", "no-range", "sed 's/^131$/132/'");
    assert_eq!(length, NO_ROW, "{what}");
    // 1 to 0, or 0 to 16.
    assert!(what.contains(", places 0\nsecond:  131\nprogram: 132\n"), "{what}");
    let (what, length) = told("counts", "too-short", "sed '/^132$/d'");
    assert_eq!(length, NO_ROW, "{what}");
    assert!(what.contains("range:   counts 0 to 0, places 0\nsecond:  132\nprogram: (no line)\n"), "{what}");
    let (what, length) = told("counts", "no-weight-in-range", "sed 's/^118 14 /114 13 /'");
    assert_eq!(length, FOUR_ROWS + 12, "{what}");
    assert!(what.contains("places 1\nsecond:  118 14 "), "{what}");
    // The first of two answers said again: both lines are shown.
    let (what, _) =
        told("counts", "first-again", "awk '$1 == 100 && was == 115 { $0 = last } { was = $1; last = $0; print }'");
    assert!(what.contains("places 2\nsecond:  115 ") && what.contains("\n         100 "), "{what}");
}

#[test]
fn a_wrong_record_is_told_by_a_small_input() {
    assert_eq!(told("units", "no-digit", "sed 's/refused 203/refused 202/'").1, 64);
    assert_eq!(told("units", "not-64", "sed 's/refused 201/refused 202/'").1, 1);
    // A writing of nothing has 44 bytes.
    assert_eq!(told("calls", "no-room", "sed 's/^206 /205 /'").1, 44);
    assert_eq!(told("calls", "written", "sed 's/^0 20*30/1 &/; s/^0 30/1 &/'").1, 44 + 64);
    assert_eq!(told("calls", "not-broken", "sed '/^broken/d'").1, 1);
    // A reading of 070 has eight numbers in its line, one of 730 six.
    assert_eq!(told("calls", "read-070", "sed -E 's/^(0( [0-9]+){6}) [0-9]+$/\\1/'").1, 12 + 64);
}

#[test]
fn demand_3_holds_and_a_wrong_question_is_told() {
    let room = room("demand3");
    let report = Report { folder: &room, again: None };
    for (of, bytes) in [("answers", FOUR_ROWS), ("counts", FOUR_ROWS + 12)] {
        let judged = demand3::run(of, &program(of), 5, 0..2_000, &report).expect("demand 3");
        assert!(judged.fillings_of_the_question > 1_000 && judged.fillings_of_other_answers > 1_000, "{judged:?}");
        assert!(judged.fillings_of_step_9 > 500 && judged.filled_by_hpk > 2_000, "{judged:?}");
        assert!(judged.in_both_editions > 10_000 && judged.editions_differ > 2_000, "{judged:?}");
        let wrong = |name: &str, filter: &str| wrong(of, &format!("{of}-{name}"), filter);
        let wrong_question = wrong("wrong-question", "sed 's/^105 10 /106 11 /'");
        let what = demand3::run(of, &wrong_question, 5, 0..2_000, &report).expect_err("a wrong question");
        assert!(what.starts_with("demand 3 is broken"), "{what}");
        // One that asks for the PRK where it differs from the HPK's.
        let asks = wrong("differs", "sed 's/^133 0 /104 16 /'");
        let what = demand3::run(of, &asks, 5, 0..2_000, &report).expect_err("a wrong question");
        assert!(what.starts_with("demand 3 is broken") && what.contains("104 asks for PRK, which is given"), "{what}");
        // One that gives edition 1 another text than 8.
        let former = wrong("former-text", "sed 's/^117 8 /117 24 /'");
        let what = demand3::run(of, &former, 5, 0..2_000, &report).expect_err("another edition");
        assert!(what.contains("the editions differ otherwise than P7 says"), "{what}");
        // One that is steady, and differs all the same.
        let steady = wrong("wrong-and-steady", "sed 's/^118 14 /118 15 /'");
        let what = demand3::run(of, &steady, 5, 0..2_000, &report).expect_err("a difference");
        assert!(what.contains("differs") && what.contains("program: 118 15 "), "{what}");
        assert_eq!(fs::read(room.join(of)).map(|bytes| bytes.len()).ok(), Some(bytes));
    }
    assert!(demand3::run("units", &program("units"), 5, 0..1, &report).is_err());
}

#[test]
fn the_same_seed_gives_the_same_stream() {
    let cases = |seed: u64| {
        let mut bytes = vec![];
        (20..400).for_each(|number| generate::case(seed, number).write(&mut bytes));
        bytes
    };
    assert_eq!(cases(3), cases(3));
    assert_ne!(cases(3), cases(4));
    assert_eq!(compare::input::<CountCase>(3, 20..400), compare::input::<CountCase>(3, 20..400));
    assert_ne!(compare::input::<CountCase>(3, 20..400), compare::input::<CountCase>(4, 20..400));
    assert_eq!(compare::input::<UnitFile>(3, 0..50), compare::input::<UnitFile>(3, 0..50));
    assert_eq!(compare::input::<CallCase>(3, 0..50), compare::input::<CallCase>(3, 0..50));
}
