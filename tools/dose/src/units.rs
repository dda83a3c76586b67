//! `dose units`: the unit list of a file of 730 records, through the proved program `unit_list`.

use crate::failure::{Failure, Fault};
use crate::{program, talk};
use std::io::{self, Write};
use std::path::{Path, PathBuf};

const RECORD_END: &[u8] = b"\r\n";
const REFUSALS: std::ops::RangeInclusive<u32> = 201..=204;

pub struct Units {
    pub file: PathBuf,
    pub program: Option<PathBuf>,
}

pub fn run(units: &Units) -> Result<(), Failure> {
    let refused = |e| {
        let fault = Fault::of_file(&units.file.display().to_string(), format!("cannot be read: {e}"));
        Failure::Refused(vec![fault])
    };
    let bytes = std::fs::read(&units.file).map_err(refused)?;
    let program = program::find(&program::UNIT_LIST, units.program.as_deref()).map_err(Failure::Program)?;
    let list = list(&program, &bytes).map_err(Failure::Program)?;
    let written = io::stdout().lock().write_all(list.as_bytes());
    written.map_err(|e| Failure::Program(format!("the list cannot be written: {e}")))
}

/// The program's lines, one for each record.
fn list(program: &Path, bytes: &[u8]) -> Result<String, String> {
    let (mut list, mut lines) = (String::new(), 0);
    let hear = |line: &str| {
        lines += 1;
        if !is_listed(line) {
            let place = format!("line {lines} of the program {}", program.display());
            return Err(format!("{place}: `{line}` is neither a unit nor a refusal"));
        }
        list += line;
        list.push('\n');
        Ok(())
    };
    talk::run(program, |out| out.write_all(bytes).and_then(|()| out.flush()), hear)?;
    let records = records(bytes);
    if lines != records {
        return Err(format!("the program {} wrote {lines} lines for {records} records", program.display()));
    }
    Ok(list)
}

/// The text before each CR LF is a record, and the rest unless it is empty.
fn records(bytes: &[u8]) -> usize {
    let ends = bytes.windows(RECORD_END.len()).filter(|pair| *pair == RECORD_END).count();
    let has_rest = !bytes.is_empty() && !bytes.ends_with(RECORD_END);
    ends + usize::from(has_rest)
}

/// Whether a line is SRTCDE, CODE, amount and unit, or a refusal.
fn is_listed(line: &str) -> bool {
    let is_number = |word: &str| !word.is_empty() && word.bytes().all(|b| b.is_ascii_digit());
    let is_amount = |word: &str| {
        word.split_once('.')
            .is_some_and(|(whole, part)| is_number(whole) && is_number(part) && part.len() == 3)
    };
    match line.split(' ').collect::<Vec<_>>()[..] {
        ["refused", number] => number.parse().is_ok_and(|number: u32| REFUSALS.contains(&number)),
        [srtcde, code, amount, unit] => {
            is_number(srtcde) && is_number(code) && is_amount(amount) && is_number(unit)
        }
        _ => false,
    }
}
