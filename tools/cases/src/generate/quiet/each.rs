//! Each condition and each comparison by itself: what is asked of the products.

use super::products::*;
use super::*;
use crate::generate::counts::{CountCase, Range};
use crate::generate::order::{fall_as, Order};
use second::check::entry::*;

type Changes = &'static [(usize, u32)];

/// An entry over one of the categories.
pub struct Asked {
    pub name: &'static str,
    category: usize,
    count: u32,
    /// The lowest dose and the highest.
    doses: (u32, u32),
    changes: Changes,
}

impl Asked {
    /// GPK, basis and category.
    pub fn key(&self) -> u32 {
        KEY + self.category as u32
    }

    fn entry(&self) -> Numbers {
        let doses = [(LOWEST, self.doses.0), (HIGHEST, self.doses.1)];
        entry(self.key(), self.count, &[&doses, self.changes].concat())
    }
}

/// With the same lowest and highest dose.
const fn ask(name: &'static str, category: usize, count: u32, dose: u32, changes: Changes) -> Asked {
    Asked { name, category, count, doses: (dose, dose), changes }
}

const fn from_to(name: &'static str, count: u32, lowest: u32, highest: u32) -> Asked {
    Asked { name, category: PLAIN, count, doses: (lowest, highest), changes: &[] }
}

/// By the conversion of this number.
const fn converted(number: u32) -> [(usize, u32); 3] {
    [(SRTCDE, CONVERTED), (CODE, KEY + number), (ENTERED_UNIT, CONVERTED_UNIT)]
}

const ASKED: [Asked; 94] = [
    ask("3 times 600", PLAIN, 3, 600, &[]),
    ask("the same, quiet off", PLAIN, 3, 600, &[(QUIET, QUIET_OFF)]),
    ask("the same, quiet not given", PLAIN, 3, 600, &[(QUIET, BLANK)]),
    ask("the same, quiet 2", PLAIN, 3, 600, &[(QUIET, 2)]),
    ask("the same, quiet 4,294,967,294", PLAIN, 3, 600, &[(QUIET, BLANK - 1)]),
    ask("quiet not given, though a weight would be asked", WEIGHTS, 3, 600, &[(QUIET, BLANK), (WEIGHT, BLANK)]),
    ask("quiet off, though a surface would be asked", SURFACES, 3, 600, &[(QUIET, QUIET_OFF)]),
    ask("quiet off, though a weight would be asked", WEIGHTS, 3, 600, &[(QUIET, QUIET_OFF), (WEIGHT, BLANK)]),
    ask("quiet not given, though a surface would be asked", SURFACES, 3, 600, &[(QUIET, BLANK)]),
    ask("the frequency is there", PLAIN, 2, 600, &[]),
    ask("the frequency is there, the dose too high", PLAIN, 2, 1_001, &[]),
    ask("3 times 666", PLAIN, 3, 666, &[]),
    ask("3 times 667", PLAIN, 3, 667, &[]),
    ask("4 times 499", PLAIN, 4, 499, &[]),
    ask("4 times 500, the day equal", PLAIN, 4, 500, &[]),
    ask("once 999", PLAIN, 1, 999, &[]),
    ask("once 1,000, equal", PLAIN, 1, 1_000, &[]),
    ask("once 1,001", PLAIN, 1, 1_001, &[]),
    ask("once 1,999", PLAIN, 1, 1_999, &[]),
    ask("999 times 2", PLAIN, 999, 2, &[]),
    ask("999 times 3", PLAIN, 999, 3, &[]),
    from_to("3 times 1 to 666", 3, 1, 666),
    from_to("3 times 1 to 667", 3, 1, 667),
    from_to("once 1 to 1,000", 1, 1, 1_000),
    ask("per 2 days, for 3", PLAIN, 3, 600, &[(TIME_UNIT, 21)]),
    ask("per 2 days, for 2", PLAIN, 2, 600, &[(TIME_UNIT, 21)]),
    ask("per 2 days, which has a row for 2", DAY_AND_TWO_DAYS, 3, 600, &[(TIME_UNIT, 21)]),
    ask("per 18, for 3", PLAIN, 3, 600, &[(TIME_UNIT, 18)]),
    ask("per 2 days, weight blank", WEIGHTS, 3, 600, &[(TIME_UNIT, 21), (WEIGHT, BLANK)]),
    ask("a narrow range", NARROW, 3, 600, &[]),
    ask("a narrow range, per 2 days, for 2", NARROW, 2, 600, &[(TIME_UNIT, 21)]),
    ask("a narrow range, per 2 days, for 3", NARROW, 3, 600, &[(TIME_UNIT, 21)]),
    ask("a narrow range, weight blank", NARROW_BY_WEIGHT, 3, 600, &[(WEIGHT, BLANK)]),
    ask("for reason 5000", OTHER, 3, 600, &[(REASON, 5_000)]),
    ask("for reason 17552", OTHER, 3, 600, &[(REASON, 17_552)]),
    ask("for reason 17751", OTHER, 3, 600, &[(REASON, 17_751)]),
    ask("for reason 17753", OTHER, 3, 600, &[(REASON, 17_753)]),
    ask("for reason 5000, per 2 days, for 2", OTHER, 2, 600, &[(REASON, 5_000), (TIME_UNIT, 21)]),
    ask("for reason 5000, per 2 days, for 3", OTHER, 3, 600, &[(REASON, 5_000), (TIME_UNIT, 21)]),
    ask("for reason 5000, weight blank", OTHER_BY_WEIGHT, 3, 600, &[(REASON, 5_000), (WEIGHT, BLANK)]),
    ask("reason 6000 falls to Q general", OF_REASONS, 3, 600, &[(REASON, 6_000), (ICPCTO, 2)]),
    ask("reason Q general", OF_REASONS, 3, 600, &[(REASON, 17_752)]),
    ask("reason Q general with ICPCTO 1", OF_REASONS, 3, 600, &[(REASON, 17_752), (ICPCTO, 1)]),
    ask("reason Q general, from ICPCTO 2 to 0", OF_REASONS, 3, 600, &[(REASON, 17_752), (ICPCTO, 2)]),
    ask("route 5", OF_REASONS, 3, 600, &[(ROUTE, 5)]),
    ask("no row per day, for 3", TWO_DAYS, 3, 600, &[(WEIGHT, BLANK)]),
    ask("no row per day, for 2", TWO_DAYS, 2, 600, &[(WEIGHT, BLANK)]),
    ask("239 months: a row per day", YOUNG, 3, 600, &[(AGE, 239), (WEIGHT, 60_000)]),
    ask("239 months, weight blank", YOUNG, 3, 600, &[(AGE, 239), (WEIGHT, BLANK)]),
    ask("240 months: no row per day", YOUNG, 3, 600, &[(WEIGHT, BLANK)]),
    ask("240 months: no row per day, for 2", YOUNG, 2, 600, &[(WEIGHT, BLANK)]),
    ask("a row per 2 days has the weights", TWO_DAYS_BY_WEIGHT, 3, 600, &[(WEIGHT, BLANK)]),
    ask("weight 69,999", WEIGHTS, 3, 600, &[(WEIGHT, 69_999)]),
    ask("weight 70,000", WEIGHTS, 3, 600, &[(WEIGHT, 70_000)]),
    ask("weight 80,000", WEIGHTS, 3, 600, &[(WEIGHT, 80_000)]),
    ask("weight 80,000, the frequency is there", WEIGHTS, 2, 600, &[(WEIGHT, 80_000)]),
    ask("weight blank", WEIGHTS, 3, 600, &[(WEIGHT, BLANK)]),
    ask("weight blank, the frequency is there", WEIGHTS, 2, 600, &[(WEIGHT, BLANK)]),
    ask("weight blank, the dose above all", WEIGHTS, 3, 999_999_999, &[(WEIGHT, BLANK)]),
    ask("weight blank, each rule with a norm minimum", IN_VAIN, 3, 600, &[(WEIGHT, BLANK)]),
    ask("surface 1,499", SURFACES, 3, 600, &[(SURFACE, 1_499)]),
    ask("surface 1,500", SURFACES, 3, 600, &[(SURFACE, 1_500)]),
    ask("surface 2,000", SURFACES, 3, 600, &[(SURFACE, 2_000)]),
    ask("surface 2,000, the frequency is there", SURFACES, 2, 600, &[(SURFACE, 2_000)]),
    ask("surface blank", SURFACES, 3, 600, &[]),
    ask("surface blank, and a weight that does not matter", SURFACES, 3, 600, &[(WEIGHT, BLANK)]),
    ask("surface blank, no rule that could suppress", ABSENT_BY_SURFACE, 3, 600, &[]),
    ask("weight and surface blank", BOTH, 3, 600, &[(WEIGHT, BLANK)]),
    ask("no row for the weight", BOTH, 3, 600, &[(WEIGHT, 80_000), (SURFACE, 1_000)]),
    ask("the row for the weight has no surface", BOTH, 3, 600, &[(WEIGHT, 60_000)]),
    ask("the row for the weight has a surface", BOTH, 3, 600, &[(WEIGHT, 75_000)]),
    ask("the row for the weight has another surface", BOTH, 3, 600, &[(WEIGHT, 75_000), (SURFACE, 1_500)]),
    ask("a norm minimum behind", WITH_MINIMUM, 3, 600, &[]),
    ask("a norm minimum in front", MINIMUM_FIRST, 3, 600, &[]),
    ask("a rule that is not in 649 behind", WITH_ABSENT, 3, 600, &[]),
    ask("a rule that is not in 649 in front", ABSENT_FIRST, 3, 600, &[]),
    ask("a rule that is twice in 649 behind", WITH_TWICE, 3, 600, &[]),
    ask("a rule that is twice in 649 in front", TWICE_FIRST, 3, 600, &[]),
    ask("no norm maximum", WITHOUT_MAXIMUM, 3, 600, &[]),
    ask("no norm maximum beside one", WITH_OTHER_MAXIMUM, 3, 600, &[]),
    ask("the absolute maximum alone above", ABSOLUTE_ABOVE, 1, 1_200, &[]),
    ask("one rule above at a time, another in a day", APART, 3, 2_000, &[]),
    ask("one rule's maximum with another's count", CROSSED, 2, 2_000, &[]),
    ask("the highest maximum is not the one", HIGHEST_ALONE, 2, 2_000, &[]),
    ask("one rule on two rows", ONE_RULE, 3, 600, &[]),
    ask("3 times 1,999 thirds", PLAIN, 3, 1_999, &converted(1)),
    ask("3 times 2,000 thirds, the day equal", PLAIN, 3, 2_000, &converted(1)),
    ask("the allowed day passes 64 bits", GREAT_4, 3, 1_000_000, &converted(2)),
    ask("the entered day passes 64 bits", GREAT_4, 5, 400_000_000, &converted(3)),
    ask("both days pass 64 bits", GREAT_4, 5, 399_999_999, &converted(6)),
    ask("once 999,999,998, by one", GREATEST_2, 1, 999_999_998, &converted(4)),
    ask("once 999,999,999", GREATEST_2, 1, 999_999_999, &converted(4)),
    ask("3 times 999,999,997, by one", NEARLY_2, 3, 999_999_997, &converted(5)),
    ask("3 times 999,999,998", NEARLY_2, 3, 999_999_998, &converted(5)),
];

/// What is asked.
pub fn asked() -> &'static [Asked] {
    &ASKED
}

/// All that is asked.
pub fn each() -> Case {
    let mut case = tables();
    case.entries = ASKED.iter().map(Asked::entry).collect();
    case
}

/// What needs a rule at each place of 649: the first of it, some between, one twice, none, the last.
const SEARCHED: [&str; 5] = [
    "3 times 600",
    "the highest maximum is not the one",
    "a rule that is twice in 649 behind",
    "a rule that is not in 649 behind",
    "once 999,999,998, by one",
];

/// The same over a table 649 whose keys fall once, or often.
pub fn ordered(order: Order) -> Case {
    let mut case = tables();
    case.entries = ASKED.iter().filter(|asked| SEARCHED.contains(&asked.name)).map(Asked::entry).collect();
    fall_as(case.rows(T649), order);
    case
}

/// What is also asked for a range.
const RANGED: [&str; 15] = [
    "3 times 600",
    "the same, quiet off",
    "the same, quiet not given",
    "the same, quiet 2",
    "3 times 666",
    "once 1,000, equal",
    "weight blank",
    "weight 80,000",
    "surface blank",
    "surface 2,000",
    "the highest maximum is not the one",
    "239 months, weight blank",
    "240 months: no row per day",
    "the allowed day passes 64 bits",
    "the entered day passes 64 bits",
];
/// First, last and places.
const RANGE: [u32; 3] = [1, 4, 4];
/// What is suppressed first, last, alone; behind 0; 1,000 among others; 131 and 132.
const OTHER_RANGES: [[u32; 3]; 7] =
    [[3, 4, 2], [2, 3, 3], [3, 3, 1], [0, 1, 2], [998, 1_001, 4], [3, 2, 64], [1, 4, 3]];
const SETTINGS: [u32; 4] = [QUIET_ON, QUIET_OFF, BLANK, 2];

/// What is also asked for a range, for 1 to 4; the first of it for other ranges, with each setting.
pub fn ranges() -> CountCase {
    let mut made = CountCase { case: tables(), ranges: vec![] };
    let mut push = |entry: Numbers, [first, last, places]: [u32; 3]| {
        made.case.entries.push(entry);
        made.ranges.push(Range { first, last, places });
    };
    ASKED.iter().filter(|asked| RANGED.contains(&asked.name)).for_each(|asked| push(asked.entry(), RANGE));
    for range in OTHER_RANGES {
        for setting in SETTINGS {
            let mut entry = ASKED[0].entry();
            entry[QUIET] = setting;
            push(entry, range);
        }
    }
    made
}
