//! Document 02, P4: step 9 where no frequency is found and quiet is on, by 001, 3.4.2.

use super::answer::Found;
use super::category::Rows;
use super::entry::{Entry, QUIET_OFF, QUIET_ON};
use super::measures::{of_surface, of_weight};
use super::setting::Q_GENERAL;
use super::tables::{Row640, Row642, Row643, Row649};
use super::test::Test;
use super::unit::Ratio;
use super::ways::Ways;

/// GPRISC of a substance whose range is not narrow.
const EMPTY: u32 = 0;
const PER_DAY: u32 = 19;

/// What comes of a frequency that is not found, with quiet on.
#[derive(Clone, Copy, PartialEq, Eq, PartialOrd, Ord, Debug)]
pub enum Quiet {
    /// The original signal.
    Stands(Why),
    WeightAsked,
    SurfaceAsked,
    Suppressed,
}

/// Why the signal stands, in 001's order.
#[derive(Clone, Copy, PartialEq, Eq, PartialOrd, Ord, Debug)]
pub enum Why {
    Narrow,
    OtherSetting,
    OtherUnit,
    NoRowPerDay,
    NoRowForWeight,
    NoRowForSurface,
    LimitsAbsent,
    LimitsSeveral,
    NormMinimum,
    NoNormMaximum,
    SingleDose,
    DayDose,
}

impl From<Why> for Quiet {
    fn from(why: Why) -> Quiet {
        Quiet::Stands(why)
    }
}

/// What the steps have found where the frequency is missing.
pub struct Missing<'t> {
    pub product: &'t Row640,
    pub setting: &'t Row642,
    /// The rows that passed the age.
    pub aged: &'t [&'t Row643],
    pub t649: &'t [Row649],
    pub ratio: Ratio,
}

/// The signal, or what stands before it. Quiet not given means off.
pub fn instead(signal: Test, missing: &Missing, entry: &Entry, found: &mut Found) -> Test {
    found.ways.signal = Some(signal);
    if entry.quiet.unwrap_or(QUIET_OFF) != QUIET_ON {
        return signal;
    }
    let quiet = suppresses(missing, entry).err().unwrap_or(Quiet::Suppressed);
    found.ways.quiet = Some(quiet);
    match quiet {
        Quiet::Stands(_) => signal,
        Quiet::WeightAsked => Test::QuietWeightMissing,
        Quiet::SurfaceAsked => Test::QuietSurfaceMissing,
        Quiet::Suppressed => {
            found.suppressed = signal.answer();
            Test::Suppressed
        }
    }
}

fn suppresses(missing: &Missing, entry: &Entry) -> Result<(), Quiet> {
    conditions(missing, entry)?;
    let rows = per_day(missing.aged, entry)?;
    let rules = rules(&rows, missing.t649)?;
    compare(rules, missing.ratio, entry)?;
    Ok(())
}

/// The three conditions. Q general is the chosen setting's, whatever else it says and whatever reason was entered.
fn conditions(missing: &Missing, entry: &Entry) -> Result<(), Why> {
    if missing.product.gprisc != EMPTY {
        return Err(Why::Narrow);
    }
    if missing.setting.icpcnr1 != Q_GENERAL {
        return Err(Why::OtherSetting);
    }
    if entry.time_unit != PER_DAY {
        return Err(Why::OtherUnit);
    }
    Ok(())
}

/// 3.4.2.1: the rows per day that fit age, weight and surface. Weight and surface are judged as in step 10, and a blank
/// that matters is asked whatever the comparison would say.
fn per_day<'t>(aged: &[&'t Row643], entry: &Entry) -> Result<Rows<'t>, Quiet> {
    let rows: Rows = aged.iter().copied().filter(|row| row.gpdfee == PER_DAY).collect();
    if rows.is_empty() {
        return Err(Why::NoRowPerDay.into());
    }
    // Step 10 itself is not reached, so that its ways are not counted.
    let ways = &mut Ways::default();
    let weighed = of_weight(&rows, entry, ways).map_err(|test| match test {
        Test::WeightMissing => Quiet::WeightAsked,
        _ => Why::NoRowForWeight.into(),
    })?;
    of_surface(&weighed, entry, ways).map_err(|test| match test {
        Test::SurfaceMissing => Quiet::SurfaceAsked,
        _ => Why::NoRowForSurface.into(),
    })
}

/// Of a row per day: its count, and its rule's norm maximum.
#[derive(Clone, Copy)]
struct Rule {
    count: u32,
    maximum: u32,
}

/// 3.4.2.2: each rule has one row in 649, and none has a norm minimum.
fn rules(rows: &[&Row643], t649: &[Row649]) -> Result<Vec<Rule>, Why> {
    let mut rules = vec![];
    for row in rows {
        let limits: Vec<&Row649> = t649.iter().filter(|limits| limits.gpddnr == row.gpddnr).collect();
        match limits[..] {
            [] => return Err(Why::LimitsAbsent),
            [limits] if limits.minimum > 0 => return Err(Why::NormMinimum),
            [limits] => rules.push(Rule { count: row.gpdfaa, maximum: limits.maximum }),
            _ => return Err(Why::LimitsSeveral),
        }
    }
    Ok(rules)
}

/// 3.4.2.3 to 3.4.2.5, each with the rules that are left: a norm maximum is given, it is above the single dose, and a
/// day of it above the entered day.
fn compare(rules: Vec<Rule>, ratio: Ratio, entry: &Entry) -> Result<(), Why> {
    let given = left(rules, |rule| rule.maximum > 0, Why::NoNormMaximum)?;
    let above = left(given, |rule| above_single(rule, ratio, entry), Why::SingleDose)?;
    left(above, |rule| above_day(rule, ratio, entry), Why::DayDose)?;
    Ok(())
}

fn left(rules: Vec<Rule>, test: impl Fn(&Rule) -> bool, none: Why) -> Result<Vec<Rule>, Why> {
    let rules: Vec<Rule> = rules.into_iter().filter(test).collect();
    if rules.is_empty() {
        return Err(none);
    }
    Ok(rules)
}

/// The norm maximum against the single dose, the highest, by cross products: equal is not above.
fn above_single(rule: &Rule, ratio: Ratio, entry: &Entry) -> bool {
    let maximum = rule.maximum as u128 * ratio.entered as u128;
    let dose = entry.highest as u128 * ratio.base as u128;
    maximum > dose
}

/// The same times the row's own count against the dose times the entered count; this passes 64 bits.
fn above_day(rule: &Rule, ratio: Ratio, entry: &Entry) -> bool {
    let allowed = rule.maximum as u128 * rule.count as u128 * ratio.entered as u128;
    let entered = entry.highest as u128 * entry.count as u128 * ratio.base as u128;
    allowed > entered
}
