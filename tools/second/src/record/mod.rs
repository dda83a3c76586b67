//! Files 730 and 070 (document 004): reader and writer of each, the stream of their calls, and the unit list.

pub mod calls;
pub mod f070;
pub mod list;
pub mod read;
pub mod write;

/// Characters of a record, of either file; the mutation digit stands at the same place in both.
pub const RECORD: usize = 64;
pub const MUTATION_AT: usize = 4;
pub const MUTATION_MOST: u32 = 3;

/// The parts of a record of 730 with their widths, in order.
pub const FILE: &[u8] = b"0730";
pub const KIND_THESAURUS: &[u8] = b"1850";
pub const UNIT_THESAURUS: &[u8] = b"0002";
pub const SPACES: &[u8] = b"                   ";
pub const SRTCDE_WIDTH: usize = 6;
pub const CODE_WIDTH: usize = 8;
pub const CDHOEV_WIDTH: usize = 12;
pub const CDEENH_WIDTH: usize = 6;

pub const KIND_AT: usize = 5;
pub const SRTCDE_AT: usize = 9;
pub const CODE_AT: usize = 15;
pub const CDHOEV_AT: usize = 23;
pub const UNIT_AT: usize = 35;
pub const CDEENH_AT: usize = 39;
pub const SPACES_AT: usize = 45;

/// The numbers of a record of 730.
#[derive(Clone, Copy, Default, PartialEq, Eq, Debug)]
pub struct Unit {
    pub mutation: u32,
    pub srtcde: u32,
    pub code: u32,
    /// thousandths
    pub cdhoev: u64,
    pub cdeenh: u32,
}
