//! The fields of each table in document 01's order, with their ranges.

use super::entry::{CODE_MOST, UNIT_MOST};
use super::test::Table;

pub const ROWS_MOST: usize = 65_535;
pub const BOUND_MOST: u64 = 999_999;
pub const LIMIT_MOST: u64 = 999_999_999;
pub const CDHOEV_MOST: u64 = 999_999_999_999;
/// How many units of one product are in another: six wide in file 070.
pub const SIX_DIGITS: u64 = 999_999;

/// A field: its name, lowest and highest permitted number.
type Field = (&'static str, u64, u64);

const CODE: u64 = CODE_MOST as u64;
const UNIT: u64 = UNIT_MOST as u64;

const F640: [Field; 3] = [("GPKODE", 0, CODE), ("GPDGST", 1, 3), ("GPRISC", 0, 1)];
const F641: [Field; 5] =
    [("GPKODE", 0, CODE), ("PRKODE", 0, CODE), ("HPKODE", 0, CODE), ("GPDCOD", 1, 2), ("GPDBAS", 1, CODE)];
const F642: [Field; 6] = [
    ("GPDBAS", 1, CODE),
    ("GPDZCO", 2, 3),
    ("ICPCNR1", 0, CODE),
    ("ICPCTO", 0, 2),
    ("GPKTWG", 0, CODE),
    ("GPDCAT", 1, CODE),
];
const F643: [Field; 10] = [
    ("GPDCAT", 1, CODE),
    ("GPDLFM", 0, BOUND_MOST),
    ("GPDLFX", 0, BOUND_MOST),
    ("GPDFAA", 1, 999),
    ("GPDFEE", 0, UNIT),
    ("GPDKGM", 0, BOUND_MOST),
    ("GPDKGX", 0, BOUND_MOST),
    ("surface low", 0, BOUND_MOST),
    ("surface high", 0, BOUND_MOST),
    ("GPDDNR", 1, CODE),
];
const F649: [Field; 4] = [
    ("GPDDNR", 1, CODE),
    ("norm minimum", 0, LIMIT_MOST),
    ("norm maximum", 0, LIMIT_MOST),
    ("absolute maximum", 0, LIMIT_MOST),
];
const F730: [Field; 4] = [("SRTCDE", 0, UNIT), ("CODE", 0, CODE), ("CDHOEV", 0, CDHOEV_MOST), ("CDEENH", 0, UNIT)];
/// Within the widths of file 070; a code 0 is 122 (document 02, P5).
const F70: [Field; 6] = [
    ("HPKODE", 1, CODE),
    ("PRKODE", 1, CODE),
    ("HPANPR", 0, SIX_DIGITS),
    ("GPKODE", 1, CODE),
    ("PRANGP", 0, SIX_DIGITS),
    ("HPANGP", 0, SIX_DIGITS),
];

/// Place of CDHOEV in 730, the one field of 64 bits, and of CDEENH behind it.
pub const CDHOEV: usize = 2;
pub const CDEENH: usize = 3;

/// Places of the low bounds in 643; each high bound stands behind its low one.
pub const LOW_BOUNDS: [usize; 3] = [1, 5, 7];

impl Table {
    pub fn fields(self) -> &'static [Field] {
        match self {
            Table::T640 => &F640,
            Table::T641 => &F641,
            Table::T642 => &F642,
            Table::T643 => &F643,
            Table::T649 => &F649,
            Table::T730 => &F730,
            Table::T70 => &F70,
        }
    }

    pub fn row_bytes(self) -> usize {
        let wide = if self == Table::T730 { 4 } else { 0 };
        4 * self.fields().len() + wide
    }
}
