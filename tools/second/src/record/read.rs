//! Reading a record of 730: 201, 202, 203, 204, tested in that order.

use super::*;

pub const NOT_64: u32 = 201;
pub const FIXED_PART: u32 = 202;
pub const NO_DIGIT: u32 = 203;
pub const MUTATION: u32 = 204;

pub fn read(record: &[u8]) -> Result<Unit, u32> {
    if record.len() != RECORD {
        return Err(NOT_64);
    }
    if !fixed(record) {
        return Err(FIXED_PART);
    }
    if !digits(record) {
        return Err(NO_DIGIT);
    }
    if number(record, MUTATION_AT, 1) > MUTATION_MOST as u64 {
        return Err(MUTATION);
    }
    Ok(Unit {
        mutation: number(record, MUTATION_AT, 1) as u32,
        srtcde: number(record, SRTCDE_AT, SRTCDE_WIDTH) as u32,
        code: number(record, CODE_AT, CODE_WIDTH) as u32,
        cdhoev: number(record, CDHOEV_AT, CDHOEV_WIDTH),
        cdeenh: number(record, CDEENH_AT, CDEENH_WIDTH) as u32,
    })
}

fn fixed(record: &[u8]) -> bool {
    let at = |place: usize, part: &[u8]| record[place..].starts_with(part);
    at(0, FILE) && at(KIND_AT, KIND_THESAURUS) && at(UNIT_AT, UNIT_THESAURUS) && at(SPACES_AT, SPACES)
}

/// The places where a digit is expected.
fn digits(record: &[u8]) -> bool {
    let parts = [
        MUTATION_AT..MUTATION_AT + 1,
        SRTCDE_AT..SRTCDE_AT + SRTCDE_WIDTH,
        CODE_AT..CODE_AT + CODE_WIDTH,
        CDHOEV_AT..CDHOEV_AT + CDHOEV_WIDTH,
        CDEENH_AT..CDEENH_AT + CDEENH_WIDTH,
    ];
    parts.into_iter().flatten().all(|place| record[place].is_ascii_digit())
}

fn number(record: &[u8], place: usize, width: usize) -> u64 {
    record[place..place + width].iter().fold(0, |number, c| number * 10 + (c - b'0') as u64)
}
