//! The front of the dose check: reads CSV files, lets the proved program answer, and says the answers in words.

mod answer;
mod args;
mod ask;
mod check;
mod columns;
mod csv;
mod due;
mod edition;
mod failure;
mod header;
mod kit;
mod limits;
mod links;
mod number;
mod program;
mod progress;
mod range;
mod records;
mod report;
mod sheet;
mod stream;
mod talk;
mod units;
mod words;

use args::Command;
use failure::Failure;
use std::io::Write;
use std::process::ExitCode;

const HELP: &str = include_str!("help.txt");

fn main() -> ExitCode {
    let done = match args::read(std::env::args_os().skip(1)) {
        Err(what) => Err(Failure::Usage(what)),
        Ok(Command::Help) => std::io::stdout()
            .write_all(HELP.as_bytes())
            .map_err(|e| Failure::Program(format!("the help cannot be written: {e}"))),
        Ok(Command::Check(check)) => check::run(&check),
        Ok(Command::Units(units)) => units::run(&units),
        Ok(Command::Products(products)) => records::run(&products),
    };
    match done {
        Ok(()) => ExitCode::SUCCESS,
        Err(failure) => {
            eprint!("{failure}");
            ExitCode::from(failure.status())
        }
    }
}
