//! The bytes of a lent table: rows of little-endian numbers, 32 bits each, CDHOEV in 64.

use super::fields::{CDEENH, CDHOEV};
use super::test::Table;

pub fn rows(bytes: &[u8], table: Table) -> std::slice::ChunksExact<'_, u8> {
    bytes.chunks_exact(table.row_bytes())
}

fn number(row: &[u8], byte: usize) -> u64 {
    u32::from_le_bytes([row[byte], row[byte + 1], row[byte + 2], row[byte + 3]]) as u64
}

/// The number of a field: in 730, CDHOEV takes eight bytes and CDEENH stands behind it.
pub fn cell(table: Table, row: &[u8], place: usize) -> u64 {
    match (table, place) {
        (Table::T730, CDHOEV) => number(row, 8) | number(row, 12) << 32,
        (Table::T730, CDEENH) => number(row, 16),
        _ => number(row, 4 * place),
    }
}
