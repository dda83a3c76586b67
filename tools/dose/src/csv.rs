//! A CSV file as lines, and a line as cells.

use std::borrow::Cow;

/// The mark with which some programs begin a file of UTF-8.
const BYTE_ORDER_MARK: &[u8] = b"\xEF\xBB\xBF";

/// The lines without their ends (LF or CR LF); empty lines after the last filled one are left out.
/// Where a line is no UTF-8, its number, counted from 1.
pub fn lines(bytes: &[u8]) -> Result<Vec<&str>, usize> {
    let bytes = bytes.strip_prefix(BYTE_ORDER_MARK).unwrap_or(bytes);
    let mut lines = Vec::new();
    for (i, line) in bytes.split(|&b| b == b'\n').enumerate() {
        let line = std::str::from_utf8(line).map_err(|_| i + 1)?;
        lines.push(line.strip_suffix('\r').unwrap_or(line));
    }
    while lines.last().is_some_and(|line| line.is_empty()) {
        lines.pop();
    }
    Ok(lines)
}

/// A line that cannot be cut into cells: the place of the cell, counted from 0, and why.
pub struct BadCell {
    pub place: usize,
    pub what: &'static str,
}

/// The cells of a line, without the quotes and the spaces around them.
pub fn cells(line: &str) -> Result<Vec<Cow<'_, str>>, BadCell> {
    let mut cells = Vec::new();
    let mut rest = line;
    loop {
        let start = rest.trim_start_matches(is_space);
        let (cell, after) = match start.strip_prefix('"') {
            Some(inside) => quoted(inside).map_err(|what| BadCell { place: cells.len(), what })?,
            None => plain(start),
        };
        cells.push(cell);
        match after {
            Some(next) => rest = next,
            None => return Ok(cells),
        }
    }
}

fn is_space(c: char) -> bool {
    c == ' ' || c == '\t'
}

/// A cell, and the line after the comma that ends it, if one does.
type Cut<'a> = (Cow<'a, str>, Option<&'a str>);

fn plain(start: &str) -> Cut<'_> {
    let (cell, after) = match start.split_once(',') {
        Some((cell, after)) => (cell, Some(after)),
        None => (start, None),
    };
    (Cow::Borrowed(cell.trim_end_matches(is_space)), after)
}

/// A cell after its first quote. Two quotes inside it stand for one.
fn quoted(inside: &str) -> Result<Cut<'_>, &'static str> {
    let mut cell = String::new();
    let mut rest = inside;
    loop {
        let Some((part, after)) = rest.split_once('"') else {
            return Err("a quote is opened and not closed on this line");
        };
        cell.push_str(part);
        if let Some(more) = after.strip_prefix('"') {
            cell.push('"');
            rest = more;
            continue;
        }
        let after = after.trim_start_matches(is_space);
        return match after.strip_prefix(',') {
            Some(next) => Ok((Cow::Owned(cell), Some(next))),
            None if after.is_empty() => Ok((Cow::Owned(cell), None)),
            None => Err("text stands after the closing quote"),
        };
    }
}
