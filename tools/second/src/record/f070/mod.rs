//! File 070 (document 004, BST070T): the PRK and the GPK of an HPK, and how many units of one are in another.

pub mod read;
pub mod write;

use super::{MUTATION_AT, MUTATION_MOST, RECORD};

/// Printed 070, four wide.
pub const FILE: &[u8] = b"0070";
/// The paper leaves 48 to 57 undescribed; document 02, P5, demands spaces from 48 on.
pub const SPACES_AT: usize = 47;
pub const SPACES: &[u8] = b"                 ";

/// The numbers of a record in their order: name, place and width.
pub const PARTS: [(&str, usize, usize); 6] =
    [("HPKODE", 5, 8), ("PRKODE", 13, 8), ("HPANPR", 21, 6), ("GPKODE", 27, 8), ("PRANGP", 35, 6), ("HPANGP", 41, 6)];

#[derive(Clone, Copy, Default, PartialEq, Eq, Debug)]
pub struct Link {
    pub mutation: u32,
    /// In the order of `PARTS`.
    pub numbers: [u32; PARTS.len()],
}
