//! Bulk comparison of another program with the second program, line by line.

use super::difference::{difference, Report};
use super::smallest::{compared, unit_file::UnitFile, Outcome, Piece};
use crate::generate::{calls::CallCase, case::Case, counts::CountCase};
use std::ops::Range;
use std::time::Instant;

/// Cases for each start of the program: many, since a start under an emulator takes as long as hundreds of cases.
const BATCH: u64 = 10_000;
/// Batches between two lines of progress.
const PROGRESS: u64 = 5;

pub struct Run<'a> {
    pub seed: u64,
    pub first: u64,
    pub cases: u64,
    pub quiet: bool,
    pub programs: Programs<'a>,
    pub report: Report<'a>,
}

/// The programs that are compared.
#[derive(Clone, Copy, Default)]
pub struct Programs<'a> {
    pub answers: Option<&'a str>,
    pub counts: Option<&'a str>,
    pub units: Option<&'a str>,
    pub calls: Option<&'a str>,
}

impl Programs<'_> {
    pub fn are_none(&self) -> bool {
        [self.answers, self.counts, self.units, self.calls].iter().all(Option::is_none)
    }
}

/// Lines that were equal: one for each entry, one for each count of a range or its refusal, one for each record of the
/// unit files, one for each call of files 730 and 070.
#[derive(Default)]
pub struct Equal {
    pub entries: u64,
    pub counts: u64,
    pub records: u64,
    pub calls: u64,
}

impl std::fmt::Display for Equal {
    fn fmt(&self, f: &mut std::fmt::Formatter) -> std::fmt::Result {
        let Equal { entries, counts, records, calls } = self;
        write!(f, "{entries} entries, {counts} lines of ranges, {records} unit records and {calls} calls")
    }
}

/// The lines compared, or the smallest difference that was found where the first one is.
pub fn run(run: &Run) -> Result<Equal, String> {
    let start = Instant::now();
    let mut equal = Equal::default();
    let end = run.first + run.cases;
    for (batch, first) in (run.first..end).step_by(BATCH as usize).enumerate() {
        let numbers = first..end.min(first + BATCH);
        let Programs { answers, counts, units, calls } = run.programs;
        equal.entries += lines::<Case>(run, answers, numbers.clone())?;
        equal.counts += lines::<CountCase>(run, counts, numbers.clone())?;
        equal.records += lines::<UnitFile>(run, units, numbers.clone())?;
        equal.calls += lines::<CallCase>(run, calls, numbers)?;
        if batch as u64 % PROGRESS == PROGRESS - 1 && !run.quiet {
            let done = end.min(first + BATCH) - run.first;
            eprintln!("{done} of {} cases, {equal} equal, {:.0?}", run.cases, start.elapsed());
        }
    }
    Ok(equal)
}

/// The number of lines that were equal; none without a program.
fn lines<P: Piece>(run: &Run, program: Option<&str>, numbers: Range<u64>) -> Result<u64, String> {
    let Some(program) = program else { return Ok(0) };
    let ordered = P::in_order(run.seed, numbers.clone());
    let pieces: Vec<P> = ordered.iter().map(|number| P::of_run(run.seed, *number)).collect();
    let found = match compared(program, &pieces)? {
        Outcome::Same(lines) => return Ok(lines as u64),
        Outcome::Differs(found) => found,
    };
    let Range { start, end } = numbers;
    let all = format!("{} of the {} {start} to {} of seed {}", found.len(), P::NAME, end - 1, run.seed);
    if !run.quiet {
        eprintln!("{program} differs in {all}; looking for the smallest of it ..");
    }
    let name = |place: usize| format!("number {}", ordered[place]);
    Err(format!("{program} differs in {all}\n{}", difference(program, &pieces, &found, name, &run.report)?))
}

/// The run's pieces as one input.
pub fn input<P: Piece>(seed: u64, numbers: Range<u64>) -> Vec<u8> {
    let numbers = P::in_order(seed, numbers).into_iter();
    P::joined(&numbers.map(|number| P::of_run(seed, number)).collect::<Vec<P>>())
}
