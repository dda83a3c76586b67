//! The answers as a person reads them, and as CSV.

use crate::answer::{Answer, NAMES};
use crate::ask::Line;
use crate::columns::{BASE_UNIT, COUNT, HPK, NAME};
use crate::due::{Due, What};
use crate::limits::Limits;
use crate::number::BLANK;
use crate::sheet::Sheet;
use crate::words;
use std::io::{self, Write};

/// The columns behind the numbers, where some entry gives an HPK: what it brought (P5).
const BROUGHT: [&str; 2] = ["PRK brought", "GPK brought"];

/// One line for each entry, or for each count of its range: answer in words, text, limits, basis, category, rule,
/// high, low. A suppressed signal is said in the words, and so is what the HPK brought, or that it differs, and an
/// edition that there is not. A refused range has one line, and 131 has no other numbers.
pub fn readable(out: &mut dyn Write, entries: &Sheet, lines: &[Line], limits: &Limits) -> io::Result<()> {
    let base_unit = entries.place(BASE_UNIT);
    for Line { due, answer } in lines {
        let line = if entries.is_named { "" } else { "line " };
        let label = entries.label(due.row);
        let said = match due.what {
            What::Refusal(_) => format!("{} {}", answer.answer, words::RANGE_REFUSED_MEANS),
            _ => sentence(due, answer, &limits.sentence(answer, entries.row(due.row)[base_unit])),
        };
        match due.what {
            What::Answer => writeln!(out, "{line}{label}: {said}"),
            What::AnswerOf(count) => writeln!(out, "{line}{label}, count {count}: {said}"),
            What::Refusal(range) => writeln!(out, "{line}{label}, counts {range}: {said}"),
        }?;
    }
    out.flush()
}

fn sentence(due: &Due, answer: &Answer, limits: &str) -> String {
    format!(
        "{} {}; text {}; {limits}; basis {}; category {}; rule {}; high {}; low {}",
        answer.answer,
        words::sentence(answer, due.edition, &due.said),
        answer.text,
        answer.basis,
        answer.category,
        answer.rule,
        answer.high,
        answer.low
    )
}

/// A header, then for each line the name or line of its entry and the nine numbers. If some entry has a range,
/// all lines have their count between the two; if some entry gives an HPK, what it brought behind them.
pub fn csv(out: &mut dyn Write, entries: &Sheet, lines: &[Line]) -> io::Result<()> {
    let has_count = entries.has_ranges();
    let hpk = entries.place(HPK);
    let has_hpk = entries.rows().any(|row| row[hpk] != BLANK);
    let mut header = vec![if entries.is_named { NAME } else { "line" }];
    header.extend(has_count.then_some(COUNT));
    header.extend(NAMES);
    header.extend(BROUGHT.into_iter().filter(|_| has_hpk));
    writeln!(out, "{}", header.join(","))?;
    for Line { due, answer } in lines {
        let mut cells = vec![cell(entries.label(due.row))];
        cells.extend(has_count.then(|| count(entries, due)));
        cells.extend(answer.numbers().map(|number| number.to_string()));
        let brought =
            due.said.brought(answer).map(|code| code.map_or(String::new(), |code| code.to_string()));
        cells.extend(brought.into_iter().filter(|_| has_hpk));
        writeln!(out, "{}", cells.join(","))?;
    }
    out.flush()
}

/// The count that was checked. Of a refused range none was: a blank, and not 0, which a range can have.
fn count(entries: &Sheet, due: &Due) -> String {
    match due.what {
        What::Answer => entries.row(due.row)[entries.place(COUNT)].to_string(),
        What::AnswerOf(count) => count.to_string(),
        What::Refusal(_) => String::new(),
    }
}

/// A name, in quotes where a comma, a quote or a space at an end would be lost.
fn cell(name: &str) -> String {
    if name.contains([',', '"']) || name.trim() != name {
        return format!("\"{}\"", name.replace('"', "\"\""));
    }
    name.to_string()
}
