//! The second program of documents 01 and 02: the dose check, ranges of counts, the unit list and files 730 and 070,
//! written from the papers and their readings alone. It has no switch: the wrong versions are edits of it, beside it in
//! wrong/.

pub mod check;
pub mod record;
pub mod stream;
