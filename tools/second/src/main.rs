//! The programs that the proved ones are compared with.

use second::record::{calls::calls, list::unit_list};
use second::stream::{answers::ANSWERS, counts::COUNTS, run, Program};
use std::io::{self, BufReader, BufWriter, Read, Write};
use std::process::ExitCode;

const HELP: &str = "second: the dose check and files 730 and 070, written from the papers alone

  second answers    cases on standard input, one line of nine numbers per entry
  second counts     cases whose entries have a range of counts, one line of nine numbers per count, or 131 or 132
  second units      the unit list of the records on standard input
  second calls      the calls of files 730 and 070 on standard input, one line for each
";

fn main() -> ExitCode {
    let words: Vec<String> = std::env::args().skip(1).collect();
    let done = match words.iter().map(String::as_str).collect::<Vec<_>>()[..] {
        ["answers"] => cases(&ANSWERS),
        ["counts"] => cases(&COUNTS),
        ["units"] => whole(unit_list),
        ["calls"] => whole(calls),
        ["--help"] => io::stdout().write_all(HELP.as_bytes()),
        _ => Err(io::Error::other("no such command; see second --help")),
    };
    match done {
        Ok(()) => ExitCode::SUCCESS,
        Err(error) => {
            eprintln!("second: {error}");
            ExitCode::FAILURE
        }
    }
}

fn cases(program: &Program) -> io::Result<()> {
    let input = BufReader::with_capacity(1 << 16, io::stdin().lock());
    run(program, input, BufWriter::with_capacity(1 << 16, io::stdout().lock()))
}

fn whole(lines: fn(&[u8]) -> Vec<u8>) -> io::Result<()> {
    let mut input = vec![];
    io::stdin().lock().read_to_end(&mut input)?;
    io::stdout().write_all(&lines(&input))
}
