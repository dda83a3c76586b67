//! An input, such as that of a difference, compared again.

use super::difference::both;
use super::smallest::{compared, unit_file::UnitFile, Outcome, Piece};
use crate::generate::{calls::CallCase, case::Case, counts::CountCase};

/// Compares a program with the second program on an input; the difference is an error.
pub fn again(of: &str, program: &str, input: &[u8]) -> Result<(), String> {
    match of {
        Case::OF => pieces::<Case>(program, input),
        CountCase::OF => pieces::<CountCase>(program, input),
        UnitFile::OF => pieces::<UnitFile>(program, input),
        CallCase::OF => pieces::<CallCase>(program, input),
        _ => Err(format!("{of}: neither answers nor counts nor units nor calls")),
    }
}

fn pieces<P: Piece>(program: &str, input: &[u8]) -> Result<(), String> {
    let pieces = P::read(input).ok_or(format!("the input is no whole stream of {}", P::NAME))?;
    let Outcome::Differs(found) = compared(program, &pieces)? else { return Ok(()) };
    let shown = found.first().map(|place| both(program, &pieces[*place])).transpose()?;
    Err(format!("{program} differs\n{}", shown.unwrap_or("in no part by itself".to_string()).trim_end()))
}
