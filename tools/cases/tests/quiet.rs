//! Document 02, P4, by hand: what a missing frequency gets with each quiet setting, in the single check and in a range.
//! And what was stored before gives no setting.

mod common;

use cases::generate;
use cases::generate::case::{Case, Numbers};
use cases::generate::counts::CountCase;
use cases::generate::order::Order;
use cases::generate::proof_ranges::{k_1_to_3_with_quiet, quiet_1_to_4, K_1_TO_3, K_1_TO_3_QUIETLY, QUIET_1_TO_4};
use cases::generate::proof_table::{with, with_quiet, K, QUIET_K};
use cases::generate::quiet::{asked, each, full, ordered, ranges, One, KEY};
use cases::random::Random;
use cases::run::cover::Seen;
use cases::run::{answers_of, quiet, store, store_counts};
use common::{coverage, written};
use second::check::entry::{BLANK, QUIET, QUIET_OFF, QUIET_ON};
use second::check::NUMBERS;
use second::stream::{answers::ANSWERS, counts::COUNTS};

/// What each of them gets: S is 115 suppressed, and r a rule by its number.
const GETS: [(&str, &str); 94] = [
    // 1,800 a day, and 1,000 twice a day are allowed
    ("3 times 600", "S"),
    ("the same, quiet off", "115"),
    ("the same, quiet not given", "115"),
    ("the same, quiet 2", "125"),
    ("the same, quiet 4,294,967,294", "125"),
    ("quiet not given, though a weight would be asked", "115"),
    ("quiet off, though a surface would be asked", "115"),
    ("quiet off, though a weight would be asked", "115"),
    ("quiet not given, though a surface would be asked", "115"),
    ("the frequency is there", "r1"),
    ("the frequency is there, the dose too high", "r1 high"),
    // 1,998, 2,001, 1,996 and 2,000
    ("3 times 666", "S"),
    ("3 times 667", "115"),
    ("4 times 499", "S"),
    ("4 times 500, the day equal", "115"),
    // below 2,000 a day all of them, and 999 alone below 1,000 at a time
    ("once 999", "S"),
    ("once 1,000, equal", "115"),
    ("once 1,001", "115"),
    ("once 1,999", "115"),
    // 1,998 and 2,997
    ("999 times 2", "S"),
    ("999 times 3", "115"),
    // the highest dose decides
    ("3 times 1 to 666", "S"),
    ("3 times 1 to 667", "115"),
    ("once 1 to 1,000", "115"),
    // the third condition, and no question
    ("per 2 days, for 3", "117"),
    ("per 2 days, for 2", "116"),
    ("per 2 days, which has a row for 2", "115"),
    ("per 18, for 3", "117"),
    ("per 2 days, weight blank", "117"),
    // the first condition
    ("a narrow range", "115"),
    ("a narrow range, per 2 days, for 2", "116"),
    ("a narrow range, per 2 days, for 3", "117"),
    ("a narrow range, weight blank", "115"),
    // the second: the chosen row's ICPCNR1, whatever its ICPCTO and route
    ("for reason 5000", "115"),
    ("for reason 17552", "115"),
    ("for reason 17751", "115"),
    ("for reason 17753", "115"),
    ("for reason 5000, per 2 days, for 2", "116"),
    ("for reason 5000, per 2 days, for 3", "117"),
    ("for reason 5000, weight blank", "115"),
    ("reason 6000 falls to Q general", "S"),
    ("reason Q general", "S"),
    ("reason Q general with ICPCTO 1", "S"),
    ("reason Q general, from ICPCTO 2 to 0", "S"),
    ("route 5", "S"),
    // 3.4.2.1: no row per day passed the age, and no question
    ("no row per day, for 3", "117"),
    ("no row per day, for 2", "116"),
    ("239 months: a row per day", "S"),
    ("239 months, weight blank", "105"),
    ("240 months: no row per day", "117"),
    ("240 months: no row per day, for 2", "116"),
    ("a row per 2 days has the weights", "S"),
    // rows up to and from 70,000, of which the second has a norm minimum; none from 80,000 on
    ("weight 69,999", "S"),
    ("weight 70,000", "115"),
    ("weight 80,000", "115"),
    ("weight 80,000, the frequency is there", "118"),
    ("weight blank", "105"),
    ("weight blank, the frequency is there", "105"),
    ("weight blank, the dose above all", "105"),
    ("weight blank, each rule with a norm minimum", "105"),
    // the same for the surface
    ("surface 1,499", "S"),
    ("surface 1,500", "115"),
    ("surface 2,000", "115"),
    ("surface 2,000, the frequency is there", "119"),
    ("surface blank", "106"),
    ("surface blank, and a weight that does not matter", "106"),
    ("surface blank, no rule that could suppress", "106"),
    ("weight and surface blank", "105"),
    ("no row for the weight", "115"),
    ("the row for the weight has no surface", "S"),
    ("the row for the weight has a surface", "106"),
    ("the row for the weight has another surface", "115"),
    // 3.4.2.2: each rule has one row in 649, and no norm minimum
    ("a norm minimum behind", "115"),
    ("a norm minimum in front", "115"),
    ("a rule that is not in 649 behind", "115"),
    ("a rule that is not in 649 in front", "115"),
    ("a rule that is twice in 649 behind", "115"),
    ("a rule that is twice in 649 in front", "115"),
    // 3.4.2.3: some rule has a norm maximum
    ("no norm maximum", "115"),
    ("no norm maximum beside one", "S"),
    ("the absolute maximum alone above", "115"),
    // 3.4.2.4 and 3.4.2.5, 6,000 a day: 3,000 once; 1,000 ten times
    ("one rule above at a time, another in a day", "115"),
    // 4,000 a day: 3,000 once; 1,000 three times
    ("one rule's maximum with another's count", "115"),
    // 3,000 once; 2,500 three times
    ("the highest maximum is not the one", "S"),
    ("one rule on two rows", "S"),
    // 1,999 and 2,000 a day
    ("3 times 1,999 thirds", "S"),
    ("3 times 2,000 thirds, the day equal", "115"),
    // 18,446,744,074,000,000,000 allowed, 290,448,384 above 2^64, and 3,000,000,000 entered
    ("the allowed day passes 64 bits", "S"),
    // 18,446,744,072,000,000,000 allowed, and 18,446,744,074,000,000,000 entered
    ("the entered day passes 64 bits", "115"),
    // 18,446,744,074,000,000,000 allowed, and 18,446,744,073,883,139,700 entered
    ("both days pass 64 bits", "S"),
    // n times n allowed at a time, n - 1 times n + 1 entered; then n times n + 1
    ("once 999,999,998, by one", "S"),
    ("once 999,999,999", "115"),
    // the same in a day, with n = 999,999,998: twice 499,999,999 is n, three times 333,333,333 is n + 1
    ("3 times 999,999,997, by one", "S"),
    ("3 times 999,999,998", "115"),
];

/// For 1 to 4.
const GETS_IN_RANGE: [(&str, &str); 15] = [
    ("3 times 600", "S r1 S 115"),
    ("the same, quiet off", "115 r1 115 115"),
    ("the same, quiet not given", "115 r1 115 115"),
    ("the same, quiet 2", "125 125 125 125"),
    ("3 times 666", "S r1 S 115"),
    ("once 1,000, equal", "115 r1 115 115"),
    ("weight 80,000", "115 118 115 115"),
    ("weight blank", "105 105 105 105"),
    ("surface 2,000", "115 119 115 115"),
    ("surface blank", "106 106 106 106"),
    ("the highest maximum is not the one", "r3 S r2 115"),
    ("239 months, weight blank", "105 105 105 105"),
    ("240 months: no row per day", "117 116 117 117"),
    ("the allowed day passes 64 bits", "S S S r9"),
    ("the entered day passes 64 bits", "S S S r9"),
];

/// The first of them for 3 to 4, 2 to 3, 3, 0 to 1, 998 to 1,001, 3 to 2, and for 1 to 4 with three places: with quiet
/// on; off or not given; and 2.
const OTHER_RANGES: [(&str, &str, &str); 7] = [
    ("S 115", "115 115", "125 125"),
    ("r1 S", "r1 115", "125 125"),
    ("S", "115", "125"),
    ("125 S", "125 115", "125 125"),
    ("115 115 125 125", "115 115 125 125", "125 125 125 125"),
    ("131", "131", "131"),
    ("132", "132", "132"),
];

/// The nine numbers; K stands for the basis and the category.
fn line(gets: &str, key: u32) -> String {
    let numbers = match gets {
        "S" => "100 0 0 K K 0 0 0 115",
        "r1" => "100 0 0 K K 8000001 0 0 0",
        "r1 high" => "100 1 0 K K 8000001 1 0 0",
        "r2" => "100 0 0 K K 8000002 0 0 0",
        "r3" => "100 0 0 K K 8000003 0 0 0",
        "r9" => "100 0 0 K K 8000009 0 0 0",
        "105" => "105 10 0 K K 0 0 0 0",
        "106" => "106 11 0 K K 0 0 0 0",
        "115" => "115 24 0 K K 0 0 0 0",
        "116" => "116 25 0 K K 0 0 0 0",
        "117" => "117 8 0 K K 0 0 0 0",
        "118" => "118 14 0 K K 0 0 0 0",
        "119" => "119 15 0 K K 0 0 0 0",
        "125" => "125 0 0 0 0 0 0 0 0",
        refusal => refusal,
    };
    numbers.replace('K', &key.to_string())
}

fn lines_of(gets: &str, key: u32) -> Vec<String> {
    gets.split(' ').map(|gets| line(gets, key)).collect()
}

fn spelled(numbers: [u32; NUMBERS]) -> String {
    numbers.map(|number| number.to_string()).join(" ")
}

#[test]
fn the_examples_over_the_proof_table() {
    let lines = written(&ANSWERS, &with(&QUIET_K).bytes());
    assert_eq!(lines, QUIET_K.map(|k| spelled(k.2)));
    assert_eq!(lines[2], "100 0 0 1500 33784 0 0 0 115");
    assert_eq!(lines[6], "100 0 0 1500 33790 0 0 0 115");
    assert_eq!(written(&COUNTS, &quiet_1_to_4().bytes()), QUIET_1_TO_4.concat());
}

#[test]
fn k1_to_k15_with_each_setting() {
    for setting in [QUIET_OFF, QUIET_ON, BLANK] {
        assert_eq!(written(&ANSWERS, &with_quiet(setting).bytes()), K.map(|k| spelled(k.2)));
        let expected = if setting == QUIET_ON { K_1_TO_3_QUIETLY } else { K_1_TO_3 };
        let ranges: CountCase = k_1_to_3_with_quiet(setting);
        assert_eq!(written(&COUNTS, &ranges.bytes()), expected.concat());
    }
}

#[test]
fn each_condition_and_each_comparison() {
    let lines = written(&ANSWERS, &each().bytes());
    assert_eq!((lines.len(), asked().len()), (GETS.len(), GETS.len()));
    for ((asked, (name, gets)), given) in asked().iter().zip(GETS).zip(lines) {
        assert_eq!(asked.name, name);
        assert_eq!(given, line(gets, asked.key()), "{name}");
    }
}

#[test]
fn the_order_of_649_changes_nothing() {
    let names = [
        "3 times 600",
        "a rule that is not in 649 behind",
        "a rule that is twice in 649 behind",
        "the highest maximum is not the one",
        "once 999,999,998, by one",
    ];
    let of = |name: &str| asked().iter().find(|asked| asked.name == name).expect("what is asked").key();
    let expected: Vec<String> =
        names.iter().zip("S 115 115 S S".split(' ')).map(|(n, gets)| line(gets, of(n))).collect();
    for order in Order::ALL {
        assert_eq!(written(&ANSWERS, &ordered(order).bytes()), expected, "{order:?}");
    }
}

#[test]
fn each_setting_in_a_range() {
    let mut expected = vec![];
    for asked in asked() {
        let gets = GETS_IN_RANGE.iter().find(|(name, _)| *name == asked.name);
        expected.extend(gets.into_iter().flat_map(|(_, gets)| lines_of(gets, asked.key())));
    }
    for (on, off, no_setting) in OTHER_RANGES {
        // On, off, not given, 2.
        expected.extend([on, off, off, no_setting].into_iter().flat_map(|gets| lines_of(gets, KEY)));
    }
    assert_eq!(written(&COUNTS, &ranges().bytes()), expected);
}

/// One row decides, wherever it stands.
#[test]
fn a_category_of_512_rows_per_day() {
    let r = &mut Random::of_case(4, 4);
    for (one, gets) in [(One::Suppresses, "S"), (One::LimitsAbsent, "115"), (One::NormMinimum, "115")] {
        for place in [0, 1, 255, 510, 511] {
            for rises in [true, false] {
                assert_eq!(written(&ANSWERS, &full(one, place, rises, r).bytes()), [line(gets, KEY)]);
            }
        }
    }
}

/// The stored lines of older cases are what they were with a 0 behind.
#[test]
fn what_was_stored_before_gives_no_setting() {
    let before = store::cases_before_p4();
    let ranges = store_counts::cases_before_p4();
    let entries = before.iter().chain(ranges.iter().map(|case| &case.case)).flat_map(|case| &case.entries);
    assert!(entries.clone().count() > 10_000 && entries.into_iter().all(|entry| entry[QUIET] == BLANK));
    assert!(before.iter().flat_map(answers_of).all(|answer| answer.numbers[8] == 0));
}

/// On changes nothing but 115 to 117, and these to 105, 106 or a suppressed 100.
#[test]
fn quiet_speaks_of_a_missing_frequency_alone() {
    let mut changed = 0;
    for number in 0..4_000 {
        let lines = [QUIET_ON, QUIET_OFF, BLANK].map(|setting| {
            let mut case = generate::case(9, number);
            case.entries.iter_mut().for_each(|entry| entry[QUIET] = setting);
            answers_of(&case).iter().map(|answer| answer.numbers).collect::<Vec<_>>()
        });
        let [on, off, not_given] = lines;
        assert_eq!(off, not_given, "case {number}");
        assert!(off.iter().all(|numbers| numbers[8] == 0), "case {number}");
        for (on, off) in on.iter().zip(&off).filter(|(on, off)| on != off) {
            assert!((115..=117).contains(&off[0]) && on[3..5] == off[3..5], "case {number}: {on:?}");
            let is_suppressed = *on == [100, 0, 0, on[3], on[4], 0, 0, 0, off[0]];
            let is_asked = [[105, 10], [106, 11]].contains(&[on[0], on[1]]) && on[8] == 0;
            assert!(is_suppressed || is_asked, "case {number}: {on:?}");
            changed += 1;
        }
    }
    assert!(changed > 500, "{changed}");
}

#[test]
fn of_a_missing_frequency_nothing_else_occurs() {
    let possible = quiet::required();
    let seen = coverage(|_| {}).counts;
    let others = seen.keys().filter(|seen| matches!(seen, Seen::Missing(seen) if !possible.contains(seen)));
    assert_eq!(others.collect::<Vec<_>>(), Vec::<&Seen>::new());
}

/// The coverage says so where no entry leaves the setting out.
#[test]
fn entries_without_a_setting_are_missed() {
    let not_given = |entry: &&mut Numbers| entry[QUIET] == BLANK;
    let say_off =
        |case: &mut Case| case.entries.iter_mut().filter(not_given).for_each(|entry| entry[QUIET] = QUIET_OFF);
    let missing = coverage(say_off).missing();
    let not_on = |seen: &quiet::Missing| matches!(seen, quiet::Missing::NotOn(quiet::Setting::NotGiven, _));
    let without = quiet::required().into_iter().filter(not_on).map(Seen::Missing);
    assert_eq!(missing, without.collect::<Vec<_>>());
}
