//! The dose check in document 01's twelve steps, as document 02 changes them.

mod answer;
mod category;
pub mod cells;
pub mod counts;
mod edition;
pub mod entry;
pub mod fields;
pub mod filling;
mod frequency;
mod level;
mod limits;
mod measures;
mod product;
mod quiet;
mod setting;
mod shape;
pub mod tables;
pub mod test;
mod text;
mod unit;
mod ways;

pub use answer::{push_line, push_number, Answer, NUMBERS};
pub use entry::Entry;
pub use filling::{Filled, Filling};
pub use limits::Compared;
pub use quiet::{Quiet, Why};
pub use tables::Lent;
pub use test::{Code, Side, Table, Test, TABLES};
pub use unit::Ratio;
pub use ways::{Care, Level, Reason, Route, Time, Unit, Ways};

use answer::Found;

/// The answer to one entry over the lent tables.
pub fn check(lent: &Lent, entry: &Entry) -> Answer {
    let mut found = Found::default();
    let answer = match steps(lent, entry, &mut found) {
        Ok(compared) => Answer::compared(compared, &found),
        Err(test) => Answer::refused(test, &found),
    };
    edition::in_words_of(entry.edition, answer)
}

/// Each step answers what it chose, or the test that refused.
fn steps(lent: &Lent, entry: &Entry, found: &mut Found) -> Result<Compared, Test> {
    range(lent, entry)?;
    let filled = filling::filled(&lent.t70, entry)?;
    found.filled = Some(filled);
    let entry = &filled.entry;
    let ratio = unit::ratio(&lent.t730, entry)?;
    found.ways.unit = if entry.entered_unit == entry.base_unit { Unit::Same } else { Unit::Converted };
    let product = product::product(&lent.t640, entry)?;
    let age = product::patient(product, entry)?;
    let (basis, level) = level::basis(&lent.t641, entry)?;
    (found.basis, found.ways.level) = (basis, level);
    let setting = setting::setting(&lent.t642, entry, basis, &mut found.ways)?;
    found.category = setting.gpdcat;
    let aged = category::of_age(&lent.t643, found.category, age)?;
    let missing = quiet::Missing { product, setting, aged: &aged, t649: &lent.t649, ratio };
    let timed = frequency::of_frequency(&aged, entry, &mut found.ways);
    let timed = timed.map_err(|signal| quiet::instead(signal, &missing, entry, found))?;
    let weighed = measures::of_weight(&timed, entry, &mut found.ways)?;
    let left = measures::of_surface(&weighed, entry, &mut found.ways)?;
    let limits = limits::of_rule(&lent.t649, &left, found)?;
    Ok(limits::compare(limits, ratio, entry, product.gprisc))
}

/// Step 1: 125, then all of 121, then all of 122.
fn range(lent: &Lent, entry: &Entry) -> Result<(), Test> {
    let tests = [entry::out_of_range(entry), lent.misshapen, lent.out_of_range];
    tests.into_iter().flatten().next().map_or(Ok(()), Err)
}
