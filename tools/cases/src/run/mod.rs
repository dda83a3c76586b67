//! Runs over many cases.

pub mod again;
pub mod compare;
pub mod cover;
pub mod cover_calls;
pub mod cover_counts;
pub mod demand3;
pub mod difference;
pub mod edges;
pub mod edges_calls;
pub mod edges_counts;
pub mod edition;
pub mod exchange;
pub mod fillings;
pub mod hpk;
pub mod lies;
pub mod program;
pub mod quiet;
pub mod searches;
pub mod show;
pub mod smallest;
pub mod store;
pub mod store_counts;

use crate::generate::case::{Case, Numbers};
use second::check::filling::filled;
use second::check::{check, Answer, Entry, Lent};
use second::stream::{parts, Header, HEADER};

/// The standard run: what `cargo test` covers and wrong versions are told by.
pub const STANDARD_SEED: u64 = 1;
pub const STANDARD_CASES: u64 = 20_000;

/// The answers to all entries of a case, by way of the bytes another program would read.
pub fn answers_of(case: &Case) -> Vec<Answer> {
    answers_of_bytes(case, &case.bytes())
}

fn answers_of_bytes(case: &Case, bytes: &[u8]) -> Vec<Answer> {
    let lent = lent_of(bytes);
    case.entries.iter().map(|entry| check(&lent, &Entry::new(*entry))).collect()
}

fn lent_of(bytes: &[u8]) -> Lent {
    let header = Header::new(bytes.first_chunk::<HEADER>().expect("a case has a header"));
    Lent::new(parts(&header, &bytes[HEADER..]).0)
}

/// The entries after P5's filling, of which demand 3 speaks: as they are where a table is refused, or the filling.
pub fn after_filling(case: &Case) -> Vec<Numbers> {
    let lent = lent_of(&case.bytes());
    let is_sound = lent.misshapen.is_none() && lent.out_of_range.is_none();
    let after = |entry: &Numbers| match filled(&lent.t70, &Entry::new(*entry)) {
        Ok(filled) if is_sound => filled.entry.numbers,
        _ => *entry,
    };
    case.entries.iter().map(after).collect()
}
