//! A cell as the number that the stream has for it, or as a range of counts.

use crate::columns::Content;
use crate::range::Range;

/// The number that stands for blank, or for a setting not given.
pub const BLANK: u64 = u32::MAX as u64;
const OFF: u64 = 0;
pub const ON: u64 = 1;

pub enum Value {
    Number(u64),
    Range(Range),
}

/// The value, or why the cell is refused. What document 01 or 02 does not permit is not refused here:
/// the proved program answers it with 125, 122 or 131.
pub fn read(cell: &str, content: Content) -> Result<Value, String> {
    let number = match content {
        Content::NumberOrRange => return filled(cell).and_then(count),
        Content::Number => filled(cell).and_then(narrow),
        Content::Wide => filled(cell).and_then(wide),
        Content::NumberOrBlank if cell.is_empty() => Ok(BLANK),
        Content::NumberOrBlank => narrow(cell),
        // no default here: P3 gives one count and a range different ones for months, and the programs have them all
        Content::OnOffOrBlank => match cell {
            "" => Ok(BLANK),
            "on" => Ok(ON),
            "off" => Ok(OFF),
            _ => Err(format!("`{cell}` is neither on, off nor blank")),
        },
    };
    number.map(Value::Number)
}

fn filled(cell: &str) -> Result<&str, String> {
    if cell.is_empty() {
        return Err("the cell is blank, and this field cannot be".to_string());
    }
    Ok(cell)
}

fn is_digits(text: &str) -> bool {
    !text.is_empty() && text.bytes().all(|b| b.is_ascii_digit())
}

fn digits(cell: &str) -> Result<&str, String> {
    if !is_digits(cell) {
        return Err(format!("`{cell}` is damaged: a whole number, in digits alone, must stand here"));
    }
    Ok(cell)
}

fn wide(cell: &str) -> Result<u64, String> {
    // digits alone can only fail by being too many
    digits(cell)?.parse().map_err(|_| format!("{cell} does not fit 64 bits"))
}

fn narrow(cell: &str) -> Result<u64, String> {
    let too_wide = || format!("{cell} does not fit 32 bits");
    let number: u32 = digits(cell)?.parse().map_err(|_| too_wide())?;
    if u64::from(number) == BLANK {
        return Err(format!("{cell} cannot be given: this number stands for a blank"));
    }
    Ok(number.into())
}

/// A whole number, or FIRST-LAST.
fn count(cell: &str) -> Result<Value, String> {
    if is_digits(cell) {
        return narrow(cell).map(Value::Number);
    }
    match cell.split_once('-') {
        Some((first, last)) if is_digits(first) && is_digits(last) => {
            Ok(Value::Range(Range { first: narrow(first)?, last: narrow(last)? }))
        }
        _ => Err(format!(
            "`{cell}` is damaged: a whole number, in digits alone, or a range of two, as 1-3, must stand here"
        )),
    }
}
