//! Document 02, P4: what step 9 makes of a missing frequency, and where the doses lie that it compares.

mod compared;
mod doses;

use super::answers_of;
use super::lies::{fit, of_age, Row};
use crate::generate::case::{Case, Numbers};
use crate::generate::joints::Bounded;
pub use crate::generate::quiet::Setting;
use compared::{compared, stands, suppressed};
pub use doses::{Comparison, Lies};
use doses::{Entered, Rule, MAXIMUM};
use second::check::entry::{HIGHEST, LOWEST, QUIET, QUIET_ON};
use second::check::{Answer, Quiet, Reason, Table, Why};

const PER_DAY: u64 = 19;
/// Columns of 643.
const GPDFAA: usize = 3;
const GPDFEE: usize = 4;
const GPDDNR: usize = 9;

/// The products of a day, and what they would say in 64 bits.
#[derive(Clone, Copy, PartialEq, Eq, PartialOrd, Ord, Debug)]
pub enum Cut {
    Within64Bits,
    Same,
    Suppresses,
    Stands,
}

/// What is counted where the frequency is missing.
#[derive(Clone, Copy, PartialEq, Eq, PartialOrd, Ord, Debug)]
pub enum Missing {
    /// Quiet on: what came of it, and the signal.
    Came(Quiet, u32),
    /// Quiet off or not given, where on would ask or suppress.
    NotOn(Setting, Quiet),
    Dose(Comparison, Lies),
    Cut(Cut),
    /// Suppressed, where the products would be equal in 53 bits.
    Rounded(Comparison),
    /// The signal stands by this comparison, and the lowest dose would suppress it.
    LowestSuppresses(Comparison),
    /// The signal stands, and an absolute maximum would suppress it.
    AbsoluteSuppresses,
    /// One rule is above at a time, another in a day, none both.
    Apart,
    /// One rule's norm maximum with another's count would suppress.
    Crossed,
    /// Suppressed, and not by the rule with the highest norm maximum.
    HighestStands,
    /// Suppressed, beside a rule without a norm maximum.
    BesideNoMaximum,
    /// Asked, though no rule could suppress.
    InVain(Bounded),
    /// Suppressed with so many rows that fit; 3 is three or more.
    Rows(usize),
    /// Suppressed, with Q general found so.
    By(Reason),
}

/// The rows per day that fit; weight and surface are looked at where they are given.
fn per_day<'c>(case: &'c Case, answer: &Answer, entry: &Numbers) -> Vec<Row<'c>> {
    let mut rows = of_age(case, answer, entry);
    rows.retain(|row| row[GPDFEE] == PER_DAY);
    for of in [Bounded::Weight, Bounded::Surface] {
        if let Some(value) = of.value(entry) {
            fit(of, &mut rows, value);
        }
    }
    rows
}

fn rules(case: &Case, rows: &[Row]) -> Vec<Rule> {
    let limits: Vec<[u64; 4]> = case.tables[Table::T649 as usize].cells.as_chunks().0.to_vec();
    let of = |row: &Row| limits.iter().filter(|limits| limits[0] == row[GPDDNR]).copied().collect();
    rows.iter().map(|row| Rule { count: row[GPDFAA] as u128, limits: of(row) }).collect()
}

/// The rules that are looked for in 649, where quiet comes so far.
pub fn looked_for(case: &Case, answer: &Answer, entry: &Numbers) -> Vec<u64> {
    use Why::*;
    match answer.ways.quiet {
        Some(Quiet::Suppressed | Quiet::Stands(LimitsAbsent | LimitsSeveral | NormMinimum)) => {}
        Some(Quiet::Stands(NoNormMaximum | SingleDose | DayDose)) => {}
        _ => return vec![],
    }
    per_day(case, answer, entry).iter().map(|row| row[GPDDNR]).collect()
}

/// What is seen of the answer to an entry.
pub fn missing(case: &Case, answer: &Answer, entry: &Numbers) -> Vec<Missing> {
    // Edition 2's, whether or not it is given.
    let Some(signal) = answer.ways.signal else { return vec![] };
    match (answer.ways.quiet, Setting::of(entry)) {
        (Some(quiet), _) => {
            let mut all = vec![Missing::Came(quiet, signal.answer())];
            all.extend(of_rules(case, answer, entry, quiet));
            all
        }
        (None, Some(setting)) => not_on(case, entry, setting).into_iter().collect(),
        _ => vec![],
    }
}

fn not_on(case: &Case, entry: &Numbers, setting: Setting) -> Option<Missing> {
    let mut on = Case { tables: case.tables.clone(), entries: vec![*entry] };
    on.entries[0][QUIET] = QUIET_ON;
    let quiet = answers_of(&on)[0].ways.quiet?;
    (!matches!(quiet, Quiet::Stands(_))).then_some(Missing::NotOn(setting, quiet))
}

fn of_rules(case: &Case, answer: &Answer, entry: &Numbers, quiet: Quiet) -> Vec<Missing> {
    let rows = per_day(case, answer, entry);
    let (rules, entered) = (rules(case, &rows), Entered::new(case, entry, HIGHEST));
    let in_vain = |of| {
        let could = |rule: &Rule| rule.can_suppress() && entered.is_suppressed_by(rule, MAXIMUM);
        (!rules.iter().any(could)).then_some(Missing::InVain(of)).into_iter().collect()
    };
    match quiet {
        Quiet::WeightAsked => in_vain(Bounded::Weight),
        Quiet::SurfaceAsked => in_vain(Bounded::Surface),
        Quiet::Suppressed => [compared(&entered, &rules), suppressed(&entered, &rules, answer)].concat(),
        Quiet::Stands(why @ (Why::NoNormMaximum | Why::SingleDose | Why::DayDose)) => {
            let lowest = Entered::new(case, entry, LOWEST);
            [compared(&entered, &rules), stands(&entered, &lowest, &rules, why)].concat()
        }
        Quiet::Stands(_) => vec![],
    }
}

/// Why the signal stands, with each signal that it can be: a row per day that passed the age makes it 115.
fn stand() -> Vec<Missing> {
    let mut all = vec![];
    for why in [Why::Narrow, Why::OtherSetting, Why::OtherUnit] {
        all.extend([115, 116, 117].map(|signal| Missing::Came(why.into(), signal)));
    }
    all.extend([116, 117].map(|signal| Missing::Came(Why::NoRowPerDay.into(), signal)));
    use Why::*;
    let others =
        [NoRowForWeight, NoRowForSurface, LimitsAbsent, LimitsSeveral, NormMinimum, NoNormMaximum, SingleDose, DayDose];
    all.extend(others.map(|why| Missing::Came(why.into(), 115)));
    all
}

/// All that can occur.
pub fn required() -> Vec<Missing> {
    let mut all = stand();
    let not_signal = [Quiet::WeightAsked, Quiet::SurfaceAsked, Quiet::Suppressed];
    for quiet in not_signal {
        all.push(Missing::Came(quiet, 115));
        all.extend([Setting::Off, Setting::NotGiven].map(|setting| Missing::NotOn(setting, quiet)));
    }
    for of in [Comparison::Single, Comparison::Day] {
        use Lies::*;
        all.extend([Below, JustBelow, Equal, JustAbove, Above].map(|lies| Missing::Dose(of, lies)));
        all.extend([Missing::Rounded(of), Missing::LowestSuppresses(of)]);
    }
    all.extend([Cut::Within64Bits, Cut::Same, Cut::Suppresses, Cut::Stands].map(Missing::Cut));
    all.extend([Missing::AbsoluteSuppresses, Missing::Apart, Missing::Crossed]);
    all.extend([Missing::HighestStands, Missing::BesideNoMaximum]);
    all.extend([Bounded::Weight, Bounded::Surface].map(Missing::InVain));
    all.extend([1, 2, 3].map(Missing::Rows));
    use Reason::*;
    all.extend([NoneGiven, Exact, ExactWithIcpcto, WithZero, ToGeneral].map(Missing::By));
    all
}
