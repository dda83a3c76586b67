//! Writing a record of 730 at a place in a lent buffer: 205, then 206; both write nothing.

use super::*;

pub const TOO_WIDE: u32 = 205;
pub const NO_ROOM: u32 = 206;

pub fn write(unit: &Unit, buffer: &mut [u8], place: usize) -> Result<(), u32> {
    if too_wide(unit) {
        return Err(TOO_WIDE);
    }
    if !has_room(buffer.len(), place) {
        return Err(NO_ROOM);
    }
    buffer[place..place + RECORD].copy_from_slice(&characters(unit));
    Ok(())
}

/// Whether 64 characters have room at the place.
fn has_room(length: usize, place: usize) -> bool {
    place < length && length - place >= RECORD
}

fn too_wide(unit: &Unit) -> bool {
    unit.mutation > MUTATION_MOST
        || wide(unit.srtcde as u64, SRTCDE_WIDTH)
        || wide(unit.code as u64, CODE_WIDTH)
        || wide(unit.cdhoev, CDHOEV_WIDTH)
        || wide(unit.cdeenh as u64, CDEENH_WIDTH)
}

fn wide(number: u64, width: usize) -> bool {
    number >= 10u64.pow(width as u32)
}

fn characters(unit: &Unit) -> [u8; RECORD] {
    let mut record = [b' '; RECORD];
    record[..MUTATION_AT].copy_from_slice(FILE);
    digits(&mut record[MUTATION_AT..KIND_AT], unit.mutation as u64);
    record[KIND_AT..SRTCDE_AT].copy_from_slice(KIND_THESAURUS);
    digits(&mut record[SRTCDE_AT..CODE_AT], unit.srtcde as u64);
    digits(&mut record[CODE_AT..CDHOEV_AT], unit.code as u64);
    digits(&mut record[CDHOEV_AT..UNIT_AT], unit.cdhoev);
    record[UNIT_AT..CDEENH_AT].copy_from_slice(UNIT_THESAURUS);
    digits(&mut record[CDEENH_AT..SPACES_AT], unit.cdeenh as u64);
    record
}

/// Digits only, zeros in front.
fn digits(room: &mut [u8], number: u64) {
    let mut rest = number;
    for c in room.iter_mut().rev() {
        *c = b'0' + (rest % 10) as u8;
        rest /= 10;
    }
}
