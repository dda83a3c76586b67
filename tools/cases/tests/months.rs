//! Document 02, P3, by hand: what each months setting gets, in the single check and in a range. And what was stored
//! before gives a setting.

mod common;

use cases::generate::case::Case;
use cases::generate::counts::CountCase;
use cases::generate::months::{asked, each, ranges, say_on, Asked, Setting, NO_SETTING, UNITS};
use cases::generate::proof_ranges::{k_1_to_3_with_months, K_1_TO_3};
use cases::generate::proof_table::{with_months, K};
use cases::run::cover::Seen;
use cases::run::{answers_of, exchange, store};
use common::{coverage, written};
use second::check::entry::{BLANK, COUNT, MONTHS, MONTHS_OFF, TIME_UNIT};
use second::check::NUMBERS;
use second::stream::{answers::ANSWERS, counts::COUNTS};

/// Whether two units that stand beside each other are twins: with months on, off and not given, in the single check and
/// in a range.
const TWINS: [(&[u32], [bool; 3], [bool; 3]); 3] = [
    (&[21, 22, 50, 51], [true; 3], [true; 3]),
    (&[35, 36, 40, 41], [true, false, false], [true, false, true]),
    (&[45, 46], [false; 3], [false; 3]),
];

/// What is got for 1, 2, 3 and 4 where the two units are twins, and where they are not: r1 and r2 are the rules.
const GETS: [(&str, &str, &str); 14] = [
    ("the unit beside for 2", "115 r1 115 115", "117 116 117 117"),
    ("the unit beside for 2, the entered one for 3", "115 r1 r2 115", "115 115 r2 115"),
    ("both units for 2", "115 r2 115 115", "115 r2 115 115"),
    ("the unit beside for 3, per day for 2", "115 115 r1 115", "117 116 116 117"),
    ("weight blank", "115 105 115 115", "117 116 117 117"),
    ("weight in the second row", "115 r2 115 115", "117 116 117 117"),
    ("weight in no row", "115 118 115 115", "117 116 117 117"),
    ("surface blank", "115 106 115 115", "117 116 117 117"),
    ("surface in the second row", "115 r2 115 115", "117 116 117 117"),
    ("surface in no row", "115 119 115 115", "117 116 117 117"),
    ("two rows of the unit beside", "115 123 115 115", "117 116 117 117"),
    ("a rule that is not in 649, and one that is there twice", "115 124 twice 115", "117 116 116 117"),
    ("240 months: the unit beside for 2", "115 r1 115 115", "117 116 117 117"),
    ("239 months: the entered unit for 2, the one beside for 3", "115 r2 r1 115", "115 r2 115 115"),
];

/// The first of them for 2 to 5, 2, 0 to 2, 998 to 1,001, 3 to 2, and for 1 to 4 with three places; and what a setting
/// that is out of range gets.
const OTHER_RANGES: [(&str, &str, &str); 6] = [
    ("r1 115 115 115", "116 117 117 117", "125 125 125 125"),
    ("r1", "116", "125"),
    ("125 115 r1", "125 117 116", "125 125 125"),
    ("115 115 125 125", "117 117 125 125", "125 125 125 125"),
    ("131", "131", "131"),
    ("132", "132", "132"),
];

/// The nine numbers; K stands for the basis and the category.
fn line(gets: &str, key: u32) -> String {
    let numbers = match gets {
        "r1" => "100 1 0 K K 7000001 1 0 0",
        "r2" => "100 0 0 K K 7000002 0 0 0",
        "105" => "105 10 0 K K 0 0 0 0",
        "106" => "106 11 0 K K 0 0 0 0",
        "115" => "115 24 0 K K 0 0 0 0",
        "116" => "116 25 0 K K 0 0 0 0",
        "117" => "117 8 0 K K 0 0 0 0",
        "118" => "118 14 0 K K 0 0 0 0",
        "119" => "119 15 0 K K 0 0 0 0",
        "123" => "123 0 643 K K 0 0 0 0",
        "124" => "124 0 649 K K 7000003 0 0 0",
        "twice" => "123 0 649 K K 7000004 0 0 0",
        "125" => "125 0 0 0 0 0 0 0 0",
        refusal => refusal,
    };
    numbers.replace('K', &key.to_string())
}

fn lines_of(gets: &str, key: u32) -> Vec<String> {
    gets.split(' ').map(|gets| line(gets, key)).collect()
}

/// What is got for 1 to 4.
fn gets(asked: &Asked, twins: bool) -> Vec<String> {
    let (_, as_twins, as_others) = GETS.iter().find(|(name, ..)| *name == asked.name).expect("what it gets");
    lines_of(if twins { as_twins } else { as_others }, asked.key())
}

#[test]
fn each_setting_in_the_single_check() {
    for (units, twins, _) in TWINS {
        for unit in units {
            let case = each(*unit);
            let lines = written(&ANSWERS, &case.bytes());
            let mut given = case.entries.iter().zip(&lines);
            for asked in asked(*unit) {
                for count in asked.counts {
                    for (setting, twins) in Setting::ALL.into_iter().zip(twins) {
                        let (entry, line) = given.next().expect("an entry for each setting");
                        assert_eq!([entry[TIME_UNIT], entry[COUNT], entry[MONTHS]], [*unit, *count, setting.number()]);
                        let expected = &gets(asked, twins)[*count as usize - 1];
                        assert_eq!(line, expected, "{}: unit {unit}, count {count}, {setting:?}", asked.name);
                    }
                }
            }
            let (entry, last) = given.next().expect("a setting out of range");
            assert_eq!((entry[MONTHS], &last[..]), (NO_SETTING, "125 0 0 0 0 0 0 0 0"));
            assert!(given.next().is_none());
        }
    }
}

#[test]
fn each_setting_in_a_range() {
    for (units, _, twins) in TWINS {
        for unit in units {
            let mut expected: Vec<Vec<String>> = vec![];
            for asked in asked(*unit) {
                expected.extend(twins.map(|twins| gets(asked, twins)));
            }
            if [35, 36, 40, 41].contains(unit) {
                for (as_twins, as_others, no_setting) in OTHER_RANGES {
                    // On, off, not given, 7.
                    let key = asked(*unit)[0].key();
                    expected.extend([as_twins, as_others, as_twins, no_setting].map(|gets| lines_of(gets, key)));
                }
            }
            let case = ranges(*unit);
            assert_eq!(case.ranges.len(), expected.len());
            assert_eq!(written(&COUNTS, &case.bytes()), expected.concat(), "unit {unit}");
        }
    }
}

/// Its rows are per day, which has no twin, and 46 is never one.
#[test]
fn the_proof_table_needs_no_setting() {
    let line = |numbers: [u32; NUMBERS]| numbers.map(|number| number.to_string()).join(" ");
    for setting in [MONTHS_OFF, BLANK] {
        let case = with_months(setting);
        assert!(case.entries.iter().all(|entry| entry[MONTHS] == setting));
        assert_eq!(written(&ANSWERS, &case.bytes()), K.map(|k| line(k.2)));
        let ranges: CountCase = k_1_to_3_with_months(setting);
        assert_eq!(written(&COUNTS, &ranges.bytes()), K_1_TO_3.concat());
    }
}

fn numbers(case: &Case) -> Vec<[u32; NUMBERS]> {
    answers_of(case).iter().map(|answer| answer.numbers).collect()
}

/// So that their answers are those they had. Those whose answer rests on not given are stored as they were too.
#[test]
fn what_was_stored_before_gives_a_setting() {
    let before = store::cases_before_p3();
    assert!(before.iter().flat_map(|case| &case.entries).all(|entry| entry[MONTHS] != BLANK));
    let p3 = store::p3_cases();
    let as_they_were = &p3[2 + UNITS.len()..];
    assert_eq!(as_they_were.len(), 18);
    for case in as_they_were {
        assert!(case.entries.iter().all(|entry| entry[MONTHS] == BLANK));
        let mut on = case.clone();
        say_on(&mut on.entries);
        assert!(numbers(&on).iter().zip(numbers(case)).any(|(on, off)| *on != off && (115..=117).contains(&off[0])));
    }
}

#[test]
fn of_the_unit_beside_nothing_else_occurs() {
    let possible = exchange::required(Setting::Off);
    let seen = coverage(|_| {}).counts;
    let others = seen.keys().filter(|seen| matches!(seen, Seen::Exchange(seen) if !possible.contains(seen)));
    assert_eq!(others.collect::<Vec<_>>(), Vec::<&Seen>::new());
}

/// The coverage says so where no entry leaves the setting out.
#[test]
fn entries_without_a_setting_are_missed() {
    let missing = coverage(|case| say_on(&mut case.entries)).missing();
    let all = exchange::required(Setting::Off).into_iter();
    let without = all.filter(|seen| seen.setting == Setting::NotGiven).map(Seen::Exchange);
    assert_eq!(missing, without.collect::<Vec<_>>());
}
