//! What the tests by hand share: a program's lines, and the coverage of the standard run.

use cases::generate;
use cases::generate::case::Case;
use cases::run::cover::Coverage;
use cases::run::{STANDARD_CASES, STANDARD_SEED};
use second::stream::{run, Program};

pub fn written(program: &Program, stream: &[u8]) -> Vec<String> {
    let mut out = vec![];
    run(program, stream, &mut out).expect("a slice is read and a vector written");
    String::from_utf8(out).expect("text").lines().map(str::to_string).collect()
}

/// The coverage of the standard run, its cases changed.
pub fn coverage(change: impl Fn(&mut Case)) -> Coverage {
    let mut coverage = Coverage::default();
    for number in 0..STANDARD_CASES {
        let mut case = generate::case(STANDARD_SEED, number);
        change(&mut case);
        coverage.add(&case);
    }
    coverage
}
