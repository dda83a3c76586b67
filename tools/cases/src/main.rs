//! Commands of the cases.

use cases::generate::{self, calls::CallCase, case::Case, counts::CountCase};
use cases::run::compare::{self, input, Programs};
use cases::run::difference::Report;
use cases::run::smallest::{unit_file::UnitFile, Piece};
use cases::run::{
    again::again, cover, cover_calls, cover_counts, demand3, edges, searches, store, store_counts, STANDARD_CASES,
    STANDARD_SEED,
};
use std::io::{self, Write};
use std::ops::Range;
use std::path::Path;
use std::process::ExitCode;
use std::time::Instant;

const HELP: &str = "cases: random and stored cases, and the comparison of a program with the second program on them

  cases generate answers|counts|units|calls RUN
                                   the run's cases, cases of ranges, unit files or calls of files 730 and 070 as one
                                   input
  cases cover RUN                  how often each test gave its answer; fails if one that can occur did not
  cases searches RUN               the case that first tells each wrong search; fails if one is not told
  cases compare RUN [--answers PROGRAM] [--counts PROGRAM] [--units PROGRAM] [--calls PROGRAM]
                                   runs each PROGRAM on the run's cases, unit files or calls, and compares every line
  cases again answers|counts|units|calls PROGRAM FILE
                                   compares PROGRAM on an input, and shows a difference
  cases edges answers|counts|units|calls PROGRAM
                                   whole and damaged inputs
  cases demand3 answers|counts PROGRAM RUN
                                   fills blanks, asks in both editions and reorders rows, judges the answers of
                                   PROGRAM, and compares them
  cases fill answers|counts RUN    the stream demand3 sends
  cases store answers|counts|broken|units|calls DIR
                                   stored vectors: DIR/stdin and DIR/stdout (broken: a folder for each)

Of a difference the smallest case that is found is written into target/difference, or --folder FOLDER, and the command
that compares it again is printed: `cases again`, or --again COMMAND.

RUN is --seed S --cases N [--first F]; without them the standard run. PROGRAM is a path, or a path and
arguments in one word, as 'tools/second/target/release/second answers'.
";

#[derive(Default)]
struct Arguments {
    words: Vec<String>,
    seed: u64,
    cases: u64,
    first: u64,
    answers: Option<String>,
    counts: Option<String>,
    units: Option<String>,
    calls: Option<String>,
    folder: Option<String>,
    again: Option<String>,
}

impl Arguments {
    fn programs(&self) -> Programs<'_> {
        Programs {
            answers: self.answers.as_deref(),
            counts: self.counts.as_deref(),
            units: self.units.as_deref(),
            calls: self.calls.as_deref(),
        }
    }

    fn report(&self) -> Report<'_> {
        let folder = Path::new(self.folder.as_deref().unwrap_or("target/difference"));
        Report { folder, again: self.again.as_deref() }
    }
}

fn arguments() -> Result<Arguments, String> {
    let mut given = Arguments { seed: STANDARD_SEED, cases: STANDARD_CASES, ..Arguments::default() };
    let mut all = std::env::args().skip(1);
    while let Some(word) = all.next() {
        if !word.starts_with("--") || word == "--help" {
            given.words.push(word);
            continue;
        }
        let value = all.next().ok_or(format!("{word}: no value"))?;
        let number = || value.parse().map_err(|_| format!("{word}: {value} is no number"));
        match word.as_str() {
            "--seed" => given.seed = number()?,
            "--cases" => given.cases = number()?,
            "--first" => given.first = number()?,
            "--answers" => given.answers = Some(value),
            "--counts" => given.counts = Some(value),
            "--units" => given.units = Some(value),
            "--calls" => given.calls = Some(value),
            "--folder" => given.folder = Some(value),
            "--again" => given.again = Some(value),
            _ => return Err(format!("{word}: unknown; see cases --help")),
        }
    }
    Ok(given)
}

fn main() -> ExitCode {
    match arguments().and_then(|given| run(&given)) {
        Ok(()) => ExitCode::SUCCESS,
        Err(what) => {
            eprintln!("{what}");
            ExitCode::FAILURE
        }
    }
}

fn run(given: &Arguments) -> Result<(), String> {
    let words: Vec<&str> = given.words.iter().map(String::as_str).collect();
    let failed = |error: io::Error| error.to_string();
    let numbers = given.first..given.first + given.cases;
    match words[..] {
        ["generate", of] => generated(of, given, numbers),
        ["fill", of] => io::stdout().write_all(&demand3::stream(of, given.seed, numbers)?).map_err(failed),
        ["cover"] => covered(given),
        ["searches"] => told(given),
        ["compare"] if given.programs().are_none() => {
            Err("compare: no program is given, so that nothing would be compared; see cases --help".to_string())
        }
        ["compare"] => compared(given),
        ["again", of, program, file] => {
            again(of, program, &std::fs::read(file).map_err(|error| format!("{file}: {error}"))?)?;
            println!("{program} and the second program write the same for {file}");
            Ok(())
        }
        ["edges", of, program] => {
            let inputs = edges::inputs(of).ok_or(format!("no edges of {of}; see cases --help"))?;
            println!("{} whole and damaged inputs of {of} as expected", edges::run(program, &inputs)?);
            Ok(())
        }
        ["demand3", of, program] => {
            let start = Instant::now();
            let judged = demand3::run(of, program, given.seed, numbers, &given.report())?;
            println!("demand 3 holds through {of}, {} cases: {judged:?}, {:.0?}", given.cases, start.elapsed());
            Ok(())
        }
        ["store", what, dir] => stored(what, Path::new(dir)),
        ["--help"] => {
            print!("{HELP}");
            Ok(())
        }
        _ => Err("no such command; see cases --help".to_string()),
    }
}

fn generated(of: &str, given: &Arguments, numbers: Range<u64>) -> Result<(), String> {
    let bytes = match of {
        Case::OF => input::<Case>(given.seed, numbers),
        CountCase::OF => input::<CountCase>(given.seed, numbers),
        UnitFile::OF => input::<UnitFile>(given.seed, numbers),
        CallCase::OF => input::<CallCase>(given.seed, numbers),
        _ => return Err(format!("cannot generate {of}; see cases --help")),
    };
    io::stdout().write_all(&bytes).map_err(|error| error.to_string())
}

fn covered(given: &Arguments) -> Result<(), String> {
    let mut coverage = cover::Coverage::default();
    for number in given.first..given.first + given.cases {
        coverage.add(&generate::case(given.seed, number));
    }
    let mut counts = cover_counts::Coverage::default();
    let mut calls = cover_calls::Coverage::default();
    for number in given.first..given.first + given.cases {
        counts.add(&generate::counts::count_case(given.seed, number));
        calls.add(&generate::calls::call_case(given.seed, number));
    }
    coverage.print();
    counts.print();
    calls.print();
    match (&coverage.missing()[..], &counts.missing()[..], &calls.missing()[..]) {
        ([], [], []) => Ok(()),
        (cases, counts, calls) => Err(format!("did not occur: {cases:?} {counts:?} {calls:?}")),
    }
}

fn told(given: &Arguments) -> Result<(), String> {
    let searches = searches::run(given.seed, given.cases);
    searches.print();
    match searches.untold().len() {
        0 => Ok(()),
        count => Err(format!("{count} wrong searches are not told")),
    }
}

fn compared(given: &Arguments) -> Result<(), String> {
    let start = Instant::now();
    let equal = compare::run(&compare::Run {
        seed: given.seed,
        first: given.first,
        cases: given.cases,
        quiet: false,
        programs: given.programs(),
        report: given.report(),
    })?;
    let time = start.elapsed();
    println!("{} cases, {equal}, all equal, {time:.0?}", given.cases);
    Ok(())
}

fn stored(what: &str, dir: &Path) -> Result<(), String> {
    let report = match what {
        "answers" => store::answers(dir),
        "counts" => store_counts::counts(dir),
        "broken" => store::broken(dir).map(|count| format!("{count} streams")),
        "units" => store::units(dir).map(|count| format!("{count} records")),
        "calls" => store::calls(dir).map(|count| format!("{count} calls")),
        _ => return Err(format!("cannot store {what}; see cases --help")),
    };
    println!("{}", report.map_err(|error| error.to_string())?);
    Ok(())
}
