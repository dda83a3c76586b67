//! The words after `dose`.

use crate::check::Check;
use crate::edition;
use crate::records::Products;
use crate::units::Units;
use std::ffi::OsString;
use std::path::PathBuf;

pub enum Command {
    Help,
    Check(Check),
    Units(Units),
    Products(Products),
}

pub fn read(words: impl Iterator<Item = OsString>) -> Result<Command, String> {
    let mut words = words;
    let Some(command) = words.next() else {
        return Err("say what to do: check, units, products or help".to_string());
    };
    let options = Options::read(words)?;
    match command.to_str() {
        Some("help" | "--help" | "-h") => Ok(Command::Help),
        Some("check") => {
            let [tables, entries] = options.files("check TABLES ENTRIES")?;
            let Options { is_csv, program, counts_program, calls_program, .. } = options;
            let edition = options.edition.unwrap_or(edition::DEFAULT);
            Ok(Command::Check(Check {
                tables,
                entries,
                edition,
                is_csv,
                program,
                counts_program,
                calls_program,
            }))
        }
        Some("units") => {
            let [file] = options.of_list("units")?.files("units FILE")?;
            Ok(Command::Units(Units { file, program: options.program }))
        }
        Some("products") => {
            let [file] = options.of_list("products")?.files("products FILE")?;
            Ok(Command::Products(Products { file, program: options.program }))
        }
        _ => Err(format!("`{}` is not a command", command.to_string_lossy())),
    }
}

#[derive(Default)]
struct Options {
    files: Vec<PathBuf>,
    is_csv: bool,
    edition: Option<u64>,
    program: Option<PathBuf>,
    counts_program: Option<PathBuf>,
    calls_program: Option<PathBuf>,
}

impl Options {
    fn read(mut words: impl Iterator<Item = OsString>) -> Result<Options, String> {
        let mut options = Options::default();
        while let Some(word) = words.next() {
            match word.to_str() {
                Some("--csv") => options.is_csv = true,
                Some("--edition") => {
                    let word = words.next().ok_or("--edition needs a number: 1 or 2")?;
                    options.edition = Some(edition::of_option(&word)?);
                }
                Some("--program") => {
                    options.program = Some(words.next().ok_or("--program needs a PATH")?.into());
                }
                Some("--counts-program") => {
                    let path = words.next().ok_or("--counts-program needs a PATH")?;
                    options.counts_program = Some(path.into());
                }
                Some("--calls-program") => {
                    let path = words.next().ok_or("--calls-program needs a PATH")?;
                    options.calls_program = Some(path.into());
                }
                Some(other) if other.starts_with("--") => return Err(format!("`{other}` is not an option")),
                _ => options.files.push(word.into()),
            }
        }
        Ok(options)
    }

    /// A list has one program and no entries, and is no CSV.
    fn of_list(&self, command: &str) -> Result<&Options, String> {
        let others = [
            ("--csv", self.is_csv),
            ("--edition", self.edition.is_some()),
            ("--counts-program", self.counts_program.is_some()),
            ("--calls-program", self.calls_program.is_some()),
        ];
        match others.iter().find(|(_, is_given)| *is_given) {
            Some((option, _)) => Err(format!("{command} has no {option}")),
            None => Ok(self),
        }
    }

    fn files<const N: usize>(&self, usage: &str) -> Result<[PathBuf; N], String> {
        <[PathBuf; N]>::try_from(self.files.clone()).map_err(|_| format!("use it so: dose {usage}"))
    }
}
