//! `dose check`: nothing is sent unless all files are sound, and nothing is printed unless all lines are.

use crate::ask::{self, Line, Part};
use crate::columns::{EDITION, ENTRY, LIMITS, LINKS, LINK_RECORDS, TABLES};
use crate::due::{self, Due};
use crate::failure::{Failure, Fault};
use crate::limits::Limits;
use crate::links::Links;
use crate::program::{ANSWERS, COUNTS};
use crate::records;
use crate::report;
use crate::sheet::{self, Names, Sheet};
use crate::stream::{Stream, Tables};
use std::io::{self, BufWriter};
use std::path::{Path, PathBuf};

pub struct Check {
    pub tables: PathBuf,
    pub entries: PathBuf,
    /// The edition of the entries that give none.
    pub edition: u64,
    pub is_csv: bool,
    /// Where the programs `answers` and `counts` are, if that was said.
    pub program: Option<PathBuf>,
    pub counts_program: Option<PathBuf>,
    /// Where `record_calls` is, if that was said.
    pub calls_program: Option<PathBuf>,
}

pub fn run(check: &Check) -> Result<(), Failure> {
    let (tables, mut entries) = read(check)?;
    // to the programs an edition that is not given is 125
    entries.fill(EDITION, check.edition);
    let bytes = Tables::new(check.tables.display().to_string(), &tables);
    let links = Links::new(table(&tables, LINKS));
    let parts = parts(check, &bytes, &entries, &links).map_err(|fault| Failure::Refused(vec![fault]))?;
    if entries.len() == 0 {
        eprintln!("dose: {} has no entries", check.entries.display());
    }
    let lines = ask::all(&parts).map_err(Failure::Program)?;
    print(check, &tables, &entries, &lines)
        .map_err(|e| Failure::Program(format!("the answers cannot be written: {e}")))
}

fn table<'a>(tables: &'a [Sheet], file: &str) -> &'a Sheet {
    let place = TABLES.iter().position(|table| table.file == file).expect("a file of the tables");
    &tables[place]
}

/// All files, or the faults of all of them; the records of table 70 last, since a program reads them.
fn read(check: &Check) -> Result<(Vec<Sheet>, Sheet), Failure> {
    let (links, mut tables, mut faults) = (Place::of(&check.tables), Vec::new(), Vec::new());
    for table in &TABLES {
        let sheet = match (table.file, &links) {
            (LINKS, Ok(Place::Csv)) => sheet::read(&check.tables.join(LINKS), table.columns, Names::None),
            (LINKS, Ok(_)) => Ok(Sheet::of_cells(table.columns, Vec::new())),
            (LINKS, Err(what)) => {
                Err(vec![Fault::of_file(&check.tables.display().to_string(), what.clone())])
            }
            (file, _) => sheet::read(&check.tables.join(file), table.columns, Names::None),
        };
        sheet.map_or_else(|more| faults.extend(more), |sheet| tables.push(sheet));
    }
    let entries = sheet::read(&check.entries, ENTRY, Names::Allowed).map_err(|more| faults.extend(more));
    let (Ok(entries), [], Ok(links)) = (entries, &faults[..], links) else {
        return Err(Failure::Refused(faults));
    };
    match links {
        Place::Csv => {}
        Place::Records(file) => {
            let columns = tables.pop().expect("table 70 is the last").columns();
            tables.push(Sheet::of_cells(columns, cells(check, &file)?));
        }
        Place::Nowhere => eprintln!(
            "dose: {} has neither {LINKS} nor {LINK_RECORDS}: table 70 is empty, and no HPK brings a PRK or a GPK",
            check.tables.display()
        ),
    }
    Ok((tables, entries))
}

/// Where table 70 stands.
enum Place {
    Csv,
    Records(PathBuf),
    Nowhere,
}

impl Place {
    fn of(folder: &Path) -> Result<Place, String> {
        let records = folder.join(LINK_RECORDS);
        match (folder.join(LINKS).exists(), records.exists()) {
            (true, true) => Err(format!("{LINKS} and {LINK_RECORDS} both stand here: leave out one of them")),
            (true, false) => Ok(Place::Csv),
            (false, true) => Ok(Place::Records(records)),
            (false, false) => Ok(Place::Nowhere),
        }
    }
}

/// The cells of table 70 from its records.
fn cells(check: &Check, file: &Path) -> Result<Vec<u64>, Failure> {
    let bytes = records::bytes(file).map_err(|fault| Failure::Refused(vec![fault]))?;
    let records =
        records::read(&bytes, check.calls_program.as_deref(), "--calls-program").map_err(Failure::Program)?;
    let name = file.display().to_string();
    let (cells, withdrawn) = records::cells(&name, records).map_err(Failure::Refused)?;
    if withdrawn > 0 {
        eprintln!("dose: {name}: left out {withdrawn} withdrawn records (mutation digit 1)");
    }
    Ok(cells)
}

/// An entry with one count goes to `answers`. One with a range goes to `counts`, even a range of one count: P3 gives
/// ranges a default for months of their own.
fn parts<'a>(
    check: &'a Check,
    tables: &'a Tables,
    entries: &Sheet,
    links: &Links,
) -> Result<Vec<Part<'a>>, Fault> {
    let (ranged, plain): (Vec<Due>, Vec<Due>) =
        due::of(entries, links).into_iter().partition(Due::is_of_range);
    let stream = Stream::of_answers(tables, entries)?;
    let mut parts = vec![Part { proved: &ANSWERS, given: check.program.as_deref(), stream, due: plain }];
    if !ranged.is_empty() {
        let stream = Stream::of_counts(tables, entries)?;
        parts.push(Part { proved: &COUNTS, given: check.counts_program.as_deref(), stream, due: ranged });
    }
    Ok(parts)
}

fn print(check: &Check, tables: &[Sheet], entries: &Sheet, lines: &[Line]) -> io::Result<()> {
    let mut out = BufWriter::new(io::stdout().lock());
    if check.is_csv {
        return report::csv(&mut out, entries, lines);
    }
    report::readable(&mut out, entries, lines, &Limits::new(table(tables, LIMITS)))
}
