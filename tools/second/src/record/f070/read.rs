//! Reading a record of 070: 201, 202, 203, 204, tested in that order.

use super::*;
use crate::record::read::{FIXED_PART, MUTATION, NOT_64, NO_DIGIT};

pub fn read(record: &[u8]) -> Result<Link, u32> {
    if record.len() != RECORD {
        return Err(NOT_64);
    }
    if !fixed(record) {
        return Err(FIXED_PART);
    }
    if !digits(record) {
        return Err(NO_DIGIT);
    }
    let mutation = number(record, MUTATION_AT, 1);
    if mutation > MUTATION_MOST {
        return Err(MUTATION);
    }
    let numbers = PARTS.map(|(_, place, width)| number(record, place, width));
    Ok(Link { mutation, numbers })
}

fn fixed(record: &[u8]) -> bool {
    record.starts_with(FILE) && record[SPACES_AT..] == *SPACES
}

/// A digit is expected from the mutation digit on up to the spaces: nothing else stands between the numbers.
fn digits(record: &[u8]) -> bool {
    record[MUTATION_AT..SPACES_AT].iter().all(u8::is_ascii_digit)
}

fn number(record: &[u8], place: usize, width: usize) -> u32 {
    record[place..place + width].iter().fold(0, |number, c| number * 10 + (c - b'0') as u32)
}
