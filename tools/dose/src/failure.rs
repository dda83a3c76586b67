//! Why nothing is printed: the input is refused, or the proved program failed.

use std::fmt;

/// How many faults of the input are shown; the rest is counted.
const SHOWN: usize = 20;

/// A place of the input that is refused.
pub struct Fault {
    pub file: String,
    /// The line, counted from 1, and the field, where the fault has them.
    pub line: Option<usize>,
    pub field: Option<String>,
    pub what: String,
}

impl Fault {
    pub fn of_file(file: &str, what: String) -> Self {
        Fault { file: file.to_string(), line: None, field: None, what }
    }

    pub fn of_line(file: &str, line: usize, what: String) -> Self {
        Fault { file: file.to_string(), line: Some(line), field: None, what }
    }

    pub fn of_field(file: &str, line: usize, field: &str, what: String) -> Self {
        Fault { file: file.to_string(), line: Some(line), field: Some(field.to_string()), what }
    }
}

impl fmt::Display for Fault {
    fn fmt(&self, out: &mut fmt::Formatter) -> fmt::Result {
        write!(out, "{}", self.file)?;
        if let Some(line) = self.line {
            write!(out, ", line {line}")?;
        }
        if let Some(field) = &self.field {
            write!(out, ", {field}")?;
        }
        write!(out, ": ")?;
        // what stands in a damaged file must not steer the terminal
        for c in self.what.chars() {
            match c.is_control() {
                true => write!(out, "{}", c.escape_default())?,
                false => write!(out, "{c}")?,
            }
        }
        Ok(())
    }
}

pub enum Failure {
    Usage(String),
    Refused(Vec<Fault>),
    Program(String),
}

impl Failure {
    pub fn status(&self) -> u8 {
        match self {
            Failure::Usage(_) | Failure::Refused(_) => 2,
            Failure::Program(_) => 1,
        }
    }
}

impl fmt::Display for Failure {
    fn fmt(&self, out: &mut fmt::Formatter) -> fmt::Result {
        match self {
            Failure::Usage(what) => writeln!(out, "dose: {what}\nSee: dose help"),
            Failure::Program(what) => writeln!(out, "dose: {what}"),
            Failure::Refused(faults) => {
                for fault in faults.iter().take(SHOWN) {
                    writeln!(out, "dose: {fault}")?;
                }
                if faults.len() > SHOWN {
                    writeln!(out, "dose: and {} faults more", faults.len() - SHOWN)?;
                }
                writeln!(out, "dose: the input is refused, and nothing was checked")
            }
        }
    }
}
