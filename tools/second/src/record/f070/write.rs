//! Writing a record of 070 at a place in a lent buffer: 205, then 206; both write nothing.

use super::*;
use crate::record::write::{NO_ROOM, TOO_WIDE};

pub fn write(link: &Link, buffer: &mut [u8], place: usize) -> Result<(), u32> {
    if too_wide(link) {
        return Err(TOO_WIDE);
    }
    if !has_room(buffer.len(), place) {
        return Err(NO_ROOM);
    }
    buffer[place..place + RECORD].copy_from_slice(&characters(link));
    Ok(())
}

/// Whether 64 characters have room at the place.
fn has_room(length: usize, place: usize) -> bool {
    place < length && length - place >= RECORD
}

fn too_wide(link: &Link) -> bool {
    let wide = |(part, number): (usize, u32)| number >= 10u32.pow(PARTS[part].2 as u32);
    link.mutation > MUTATION_MOST || link.numbers.into_iter().enumerate().any(wide)
}

fn characters(link: &Link) -> [u8; RECORD] {
    let mut record = [b' '; RECORD];
    record[..MUTATION_AT].copy_from_slice(FILE);
    digits(&mut record[MUTATION_AT..MUTATION_AT + 1], link.mutation);
    for ((_, place, width), number) in PARTS.into_iter().zip(link.numbers) {
        digits(&mut record[place..place + width], number);
    }
    record
}

/// Digits only, zeros in front.
fn digits(room: &mut [u8], number: u32) {
    let mut rest = number;
    for c in room.iter_mut().rev() {
        *c = b'0' + (rest % 10) as u8;
        rest /= 10;
    }
}
