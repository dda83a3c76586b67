//! Which way each step went: only counted, never consulted.

use super::entry::Entry;
use super::quiet::Quiet;
use super::test::Test;

#[derive(Clone, Copy, Default, PartialEq, Eq, PartialOrd, Ord, Debug)]
pub enum Unit {
    #[default]
    NotReached,
    Same,
    Converted,
}

#[derive(Clone, Copy, Default, PartialEq, Eq, PartialOrd, Ord, Debug)]
pub enum Level {
    #[default]
    NotReached,
    Hpk,
    Prk,
    PrkAfterHpk,
    Base,
    BaseAfterHpk,
    BaseAfterPrk,
    BaseAfterBoth,
}

#[derive(Clone, Copy, Default, PartialEq, Eq, PartialOrd, Ord, Debug)]
pub enum Care {
    #[default]
    NotReached,
    All,
    Intensive,
    IntensiveToAll,
}

#[derive(Clone, Copy, Default, PartialEq, Eq, PartialOrd, Ord, Debug)]
pub enum Reason {
    #[default]
    NotReached,
    NoneGiven,
    Exact,
    ExactWithIcpcto,
    WithZero,
    ToGeneral,
}

#[derive(Clone, Copy, Default, PartialEq, Eq, PartialOrd, Ord, Debug)]
pub enum Route {
    #[default]
    NotReached,
    NoneGiven,
    Exact,
    ToZero,
}

#[derive(Clone, Copy, Default, PartialEq, Eq, PartialOrd, Ord, Debug)]
pub enum Time {
    #[default]
    NotReached,
    Exact,
    /// The entered time unit, whose twin served.
    Twin(u32),
}

#[derive(Clone, Copy, Default, PartialEq, Eq, PartialOrd, Ord, Debug)]
pub struct Ways {
    pub unit: Unit,
    pub level: Level,
    pub care: Care,
    pub reason: Reason,
    pub route: Route,
    pub time: Time,
    /// Where step 9 found no frequency: the signal for it, given or not.
    pub signal: Option<Test>,
    /// The same with quiet on: what came of it.
    pub quiet: Option<Quiet>,
    pub weight_matters: Option<bool>,
    pub surface_matters: Option<bool>,
}

impl Reason {
    pub fn exact(entry: &Entry) -> Reason {
        if entry.icpcto == 0 {
            Reason::Exact
        } else {
            Reason::ExactWithIcpcto
        }
    }
}
