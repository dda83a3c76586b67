//! How often each test gave its answer, and each step went each of its ways.

use super::answers_of;
use super::edition::{self, editions, Edition};
use super::exchange::{self, exchange, Exchange};
use super::hpk::{self, brought, Brought};
use super::lies::{lies, Lies};
use super::quiet::{self, missing, Missing};
use crate::generate::case::{Case, Numbers};
use crate::generate::joints::Bounded;
use crate::generate::months::Setting;
use crate::generate::order::{keys, Order};
use second::check::entry::{
    BASE_UNIT, BLANK, CODE, ENTERED_UNIT, GPK, HIGHEST, HPK, ICPCTO, LOWEST, MAY_BE_BLANK, RANGES,
};
use second::check::fields::LOW_BOUNDS;
use second::check::test::{Amount, Shape};
use second::check::{Answer, Care, Code, Level, Reason, Route, Side, Table, Test, Time, Unit, TABLES};
use std::collections::BTreeMap;

/// Places of the basis, the category and the rule in the answer.
const BASIS: usize = 3;
const CATEGORY: usize = 4;
const RULE: usize = 5;

/// What months not given means.
const MONTHS_NOT_GIVEN: Setting = Setting::Off;

/// A limit of 649.
#[derive(Clone, Copy, PartialEq, Eq, PartialOrd, Ord, Debug)]
pub enum Limit {
    Minimum,
    Maximum,
    Absolute,
}

/// Where the dose lies to a limit; a fraction is less than one thousandth of the base unit.
#[derive(Clone, Copy, PartialEq, Eq, PartialOrd, Ord, Debug)]
pub enum Near {
    NoLimit,
    Below,
    FractionBelow,
    Equal,
    FractionAbove,
    Above,
}

/// Where a key stands that a step looks for; one that the first row has is first.
#[derive(Clone, Copy, PartialEq, Eq, PartialOrd, Ord, Debug)]
pub enum Stands {
    First,
    Between,
    Last,
    Absent,
}

/// How often a table's keys fall from row to row.
#[derive(Clone, Copy, PartialEq, Eq, PartialOrd, Ord, Debug)]
pub enum Falls {
    Never,
    Once,
    Often,
}

/// What is counted.
#[derive(Clone, Copy, PartialEq, Eq, PartialOrd, Ord, Debug)]
pub enum Seen {
    Test(Test),
    Unit(Unit),
    Level(Level),
    Care(Care),
    Reason(Reason),
    Route(Route),
    Time(Time),
    WeightMatters(bool),
    SurfaceMatters(bool),
    /// high, low, GPRISC
    Verdict(u32, u32, u32),
    Dose(Limit, Near),
    /// A datum to the bounds of a row that a filter looked at.
    Lies(Bounded, Lies),
    /// Rows of the unit beside the entered one, by the months setting.
    Exchange(Exchange),
    /// The frequency is missing.
    Missing(Missing),
    /// What came of the HPK.
    Brought(Brought),
    Edition(Edition),
    /// A table that was searched, of three rows or more, in which a key has several.
    Order(Table, Order),
    /// A key looked for in a table of three rows or more.
    Key(Table, Falls, Stands),
}

#[derive(Default)]
pub struct Coverage {
    pub counts: BTreeMap<Seen, u64>,
    pub cases: u64,
    pub entries: u64,
}

impl Coverage {
    pub fn add(&mut self, case: &Case) {
        self.cases += 1;
        let orders = Table::ALL.map(|table| order(case, table));
        for (answer, entry) in answers_of(case).iter().zip(&case.entries) {
            self.entries += 1;
            let lies = lies(case, answer, entry).into_iter().map(|(of, lies)| Seen::Lies(of, lies));
            let exchange = Setting::of(entry).and_then(|setting| exchange(case, answer, entry, setting));
            let missing = missing(case, answer, entry).into_iter().map(Seen::Missing);
            let more = searches(answer, entry, &orders).into_iter().chain(lies).chain(exchange.map(Seen::Exchange));
            let more = more.chain(missing).chain(brought(case, answer, entry).into_iter().map(Seen::Brought));
            let more = more.chain(editions(case, answer, entry).into_iter().map(Seen::Edition));
            for seen in seen(answer, entry).into_iter().chain(more) {
                *self.counts.entry(seen).or_default() += 1;
            }
        }
    }

    /// What can occur and did not.
    pub fn missing(&self) -> Vec<Seen> {
        required().into_iter().filter(|seen| !self.counts.contains_key(seen)).collect()
    }

    pub fn print(&self) {
        println!("{} cases, {} entries", self.cases, self.entries);
        for seen in required() {
            println!("{:>9}  {}", self.counts.get(&seen).unwrap_or(&0), name(seen));
        }
        for (seen, count) in self.counts.iter().filter(|(seen, _)| !required().contains(seen)) {
            println!("{count:>9}  {} (not required)", name(*seen));
        }
    }
}

fn seen(answer: &Answer, entry: &Numbers) -> Vec<Seen> {
    let ways = &answer.ways;
    let mut all = vec![Seen::Test(answer.test)];
    all.extend((ways.unit != Unit::NotReached).then_some(Seen::Unit(ways.unit)));
    all.extend((ways.level != Level::NotReached).then_some(Seen::Level(ways.level)));
    if answer.numbers[CATEGORY] > 0 {
        // Step 6 went these ways to a row, not to 113.
        all.extend([Seen::Care(ways.care), Seen::Reason(ways.reason), Seen::Route(ways.route)]);
    }
    all.extend((ways.time != Time::NotReached).then_some(Seen::Time(ways.time)));
    all.extend(ways.weight_matters.map(Seen::WeightMatters));
    all.extend(ways.surface_matters.map(Seen::SurfaceMatters));
    if let Some(compared) = answer.compared {
        all.push(Seen::Verdict(compared.high, compared.low, compared.gprisc));
        let near = |dose: u32, limit: u32| {
            let exact = dose as u128 * compared.ratio.base as u128;
            let bound = limit as u128 * compared.ratio.entered as u128;
            near(exact, bound, compared.ratio.entered as u128)
        };
        all.push(Seen::Dose(Limit::Minimum, near(entry[LOWEST], compared.limits.minimum)));
        all.push(Seen::Dose(Limit::Maximum, near(entry[HIGHEST], compared.limits.maximum)));
        all.push(Seen::Dose(Limit::Absolute, near(entry[HIGHEST], compared.limits.absolute)));
    }
    all
}

/// The keys of a table of three rows or more, how they go, and whether one has several rows.
struct Keys {
    keys: Vec<u64>,
    order: Order,
    several: bool,
}

fn order(case: &Case, table: Table) -> Option<Keys> {
    let keys = keys(&case.tables[table as usize]);
    if keys.len() < 3 {
        return None;
    }
    let mut sorted = keys.clone();
    sorted.sort();
    let several = sorted.windows(2).any(|pair| pair[0] == pair[1]);
    Some(Keys { order: Order::of(&keys), several, keys })
}

/// The tables that were searched, each with the key that was looked for.
pub fn searched(answer: &Answer, entry: &Numbers) -> Vec<(Table, u64)> {
    let numbers = &answer.numbers;
    let converts = entry[ENTERED_UNIT] != entry[BASE_UNIT];
    let gpk = answer.filled.map_or(entry[GPK], |filled| filled.entry.gpk);
    let all = [
        (Table::T640, answer.test > Test::NoGpk, gpk),
        (Table::T641, answer.test > Test::SexDiffers, gpk),
        (Table::T642, numbers[BASIS] > 0, numbers[BASIS]),
        (Table::T643, numbers[CATEGORY] > 0, numbers[CATEGORY]),
        (Table::T649, numbers[RULE] > 0, numbers[RULE]),
        (Table::T730, answer.test >= Test::BaseUnitAbsent && converts, entry[CODE]),
        (Table::T70, answer.test >= Test::FillingSeveral && entry[HPK] != BLANK, entry[HPK]),
    ];
    all.into_iter().filter(|(_, searched, _)| *searched).map(|(table, _, key)| (table, key as u64)).collect()
}

fn searches(answer: &Answer, entry: &Numbers, orders: &[Option<Keys>; TABLES]) -> Vec<Seen> {
    let mut all = vec![];
    for (table, key) in searched(answer, entry) {
        let Some(of) = &orders[table as usize] else { continue };
        let stands = match of.keys.iter().position(|other| *other == key) {
            None => Stands::Absent,
            Some(0) => Stands::First,
            _ if of.keys.last() == Some(&key) => Stands::Last,
            _ => Stands::Between,
        };
        let falls = match of.order {
            Order::Rises => Falls::Never,
            Order::FallsOften => Falls::Often,
            _ => Falls::Once,
        };
        all.push(Seen::Key(table, falls, stands));
        all.extend(of.several.then_some(Seen::Order(table, of.order)));
    }
    all
}

fn near(dose: u128, bound: u128, one: u128) -> Near {
    match () {
        _ if bound == 0 => Near::NoLimit,
        _ if dose == bound => Near::Equal,
        _ if dose > bound && dose - bound < one => Near::FractionAbove,
        _ if dose > bound => Near::Above,
        _ if bound - dose < one => Near::FractionBelow,
        _ => Near::Below,
    }
}

/// All that can occur.
pub fn required() -> Vec<Seen> {
    let mut all: Vec<Seen> = tests().into_iter().map(Seen::Test).collect();
    all.extend([Unit::Same, Unit::Converted].map(Seen::Unit));
    use Level::*;
    all.extend([Hpk, Prk, PrkAfterHpk, Base, BaseAfterHpk, BaseAfterPrk, BaseAfterBoth].map(Seen::Level));
    all.extend([Care::All, Care::Intensive, Care::IntensiveToAll].map(Seen::Care));
    use Reason::*;
    all.extend([Reason::NoneGiven, Exact, ExactWithIcpcto, WithZero, ToGeneral].map(Seen::Reason));
    all.extend([Route::NoneGiven, Route::Exact, Route::ToZero].map(Seen::Route));
    all.push(Seen::Time(Time::Exact));
    all.extend([21, 22, 35, 36, 40, 41, 50, 51].map(|unit| Seen::Time(Time::Twin(unit))));
    all.extend([false, true].map(Seen::WeightMatters));
    all.extend([false, true].map(Seen::SurfaceMatters));
    for gprisc in 0..2 {
        for low in 0..2 {
            all.extend([0, 1, 2].map(|high| Seen::Verdict(high, low, gprisc)));
        }
    }
    use Near::*;
    for limit in [Limit::Minimum, Limit::Maximum, Limit::Absolute] {
        all.extend([NoLimit, Below, FractionBelow, Equal, FractionAbove, Above].map(|near| Seen::Dose(limit, near)));
    }
    for of in Bounded::ALL {
        all.extend(Lies::ALL.into_iter().filter(|lies| lies.can_occur(of)).map(|lies| Seen::Lies(of, lies)));
    }
    all.extend(exchange::required(MONTHS_NOT_GIVEN).into_iter().map(Seen::Exchange));
    all.extend(quiet::required().into_iter().map(Seen::Missing));
    all.extend(hpk::required().into_iter().map(Seen::Brought));
    all.extend(edition::required().into_iter().map(Seen::Edition));
    for table in Table::ALL {
        all.extend(Order::ALL.map(|order| Seen::Order(table, order)));
        for falls in [Falls::Never, Falls::Once, Falls::Often] {
            use Stands::*;
            all.extend([First, Between, Last, Absent].map(|stands| Seen::Key(table, falls, stands)));
        }
    }
    all
}

/// Every test that can give an answer, in document 01's order.
pub fn tests() -> Vec<Test> {
    use Test::*;
    let mut all = vec![];
    for (place, (_, low, _)) in RANGES.iter().enumerate() {
        let place = place as u8;
        all.extend((*low > 0).then_some(Entry(place, Side::Low)));
        all.push(Entry(place, Side::High));
    }
    all.extend([Entry(ICPCTO as u8, Side::Odds), Entry(LOWEST as u8, Side::Odds)]);
    for table in Table::ALL {
        all.extend([Shape(table, self::Shape::NotWhole), Shape(table, self::Shape::TooLong)]);
    }
    for table in Table::ALL {
        for (place, (_, low, _)) in table.fields().iter().enumerate() {
            let place = place as u8;
            all.extend((*low > 0).then_some(Range(table, place, Side::Low)));
            all.push(Range(table, place, Side::High));
        }
    }
    all.extend(LOW_BOUNDS.map(|place| Range(Table::T643, place as u8, Side::Odds)));
    all.push(FillingSeveral);
    all.extend([Code::Prk, Code::Gpk, Code::Both].map(FillingDiffers));
    all.extend([BaseUnitAbsent, BaseUnitSeveral, EnteredUnitAbsent, EnteredUnitSeveral]);
    all.extend([Amount::Base, Amount::Entered, Amount::Both].map(AmountZero));
    all.extend([Amount::Base, Amount::Entered, Amount::Both].map(AmountAbove));
    all.extend([NoGpk, GpkAbsent, GpkSeveral, AgeMissing, SexMissing, SexDiffers]);
    all.extend([HpkMissing, HpkSeveral, PrkMissing, PrkSeveral, BaseLevelAbsent, BaseLevelSeveral]);
    all.extend([SettingAbsent, SettingSeveral, CategoryTooLong, AgeNoRow]);
    all.extend([QuietWeightMissing, QuietSurfaceMissing, Suppressed]);
    all.extend([OnlyCountDiffers, OnlyUnitDiffers, BothDiffer]);
    all.extend([WeightMissing, WeightNoRow, SurfaceMissing, SurfaceNoRow]);
    all.extend([RowsSeveral, LimitsAbsent, LimitsSeveral, Compared]);
    all
}

fn name(seen: Seen) -> String {
    match seen {
        Seen::Test(test) => format!("{} {}", test.answer(), test_name(test)),
        other => format!("    {other:?}"),
    }
}

fn test_name(test: Test) -> String {
    match test {
        Test::Entry(place, side) => {
            let blank = if MAY_BE_BLANK.contains(&(place as usize)) { ", given" } else { "" };
            format!("entry, {} {side:?}{blank}", RANGES[place as usize].0)
        }
        Test::Range(table, place, side) => {
            format!("range, {}, {} {side:?}", table.number(), table.fields()[place as usize].0)
        }
        other => format!("{other:?}"),
    }
}
