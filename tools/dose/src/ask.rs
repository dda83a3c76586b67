//! A proved program asked: each line that it writes must be the one that is due, and none may be missing.

use crate::answer::Answer;
use crate::due::{Due, What};
use crate::program::{self, Proved};
use crate::progress::Progress;
use crate::stream::Stream;
use crate::talk;
use std::path::{Path, PathBuf};

/// A program with the entries that it is sent and the lines that it owes for them.
pub struct Part<'a> {
    pub proved: &'static Proved,
    /// Where the program is, if that was said.
    pub given: Option<&'a Path>,
    pub stream: Stream<'a>,
    pub due: Vec<Due>,
}

/// A line that was due, and what came.
pub struct Line<'a> {
    pub due: &'a Due,
    pub answer: Answer,
}

/// The lines of all parts, in the order of the entries. A program that owes nothing need not be there; the others
/// are all found before one is started.
pub fn all<'a>(parts: &'a [Part]) -> Result<Vec<Line<'a>>, String> {
    let needed: Vec<&Part> = parts.iter().filter(|part| !part.due.is_empty()).collect();
    let programs: Vec<PathBuf> =
        needed.iter().map(|part| program::find(part.proved, part.given)).collect::<Result<_, _>>()?;
    let mut progress = Progress::new(needed.iter().map(|part| part.due.len()).sum());
    let mut lines = Vec::new();
    for (part, program) in needed.iter().zip(&programs) {
        let answers = ask(program, part, &mut progress)?;
        lines.extend(part.due.iter().zip(answers).map(|(due, answer)| Line { due, answer }));
    }
    // equal rows stay in their order: the counts of a range
    lines.sort_by_key(|line| line.due.row);
    Ok(lines)
}

/// One answer for each line that is due, in their order.
fn ask(program: &Path, part: &Part, progress: &mut Progress) -> Result<Vec<Answer>, String> {
    let (total, entries) = (part.due.len(), part.stream.len());
    let mut answers = Vec::with_capacity(total);
    let hear = |line: &str| {
        let place = format!("line {} of the program {}", answers.len() + 1, program.display());
        let Some(due) = part.due.get(answers.len()) else {
            return Err(format!("{place}: `{line}` is one line too many: {entries} entries were sent"));
        };
        answers.push(read(line, due).map_err(|what| format!("{place}: {what}"))?);
        progress.one_more();
        Ok(())
    };
    talk::run(program, |out| part.stream.write(out), hear)?;
    if answers.len() < total {
        let heard = format!("wrote {} lines for {entries} entries", answers.len());
        return Err(format!("the program {} {heard}, and owes {total}", program.display()));
    }
    Ok(answers)
}

fn read(line: &str, due: &Due) -> Result<Answer, String> {
    if line == "broken" {
        return Err("it says `broken`: it did not take the tables and entries it was sent".to_string());
    }
    let answer = match due.what {
        What::Answer | What::AnswerOf(_) => Answer::read(line)?,
        What::Refusal(range) => Answer::read_refusal(line, range)?,
    };
    if answer.suppressed != 0 && !due.is_quiet {
        return Err(format!("`{line}`: a signal is suppressed, and the entry does not say quiet on"));
    }
    let contradiction = due.edition.contradicts(&answer).or(due.said.contradicts(&answer).map(String::from));
    if let Some(why) = contradiction {
        return Err(format!("`{line}`: {why}"));
    }
    Ok(answer)
}
