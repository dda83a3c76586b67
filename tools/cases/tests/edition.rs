//! Document 02, P7, by hand: what each answer is in editions 1 and 2, and that all else is 125; in the single check and
//! in a range. And what was stored before says 2.

mod common;

use cases::generate;
use cases::generate::case::Numbers;
use cases::generate::counts::CountCase;
use cases::generate::edition::{
    asked, bad_tables, each, k_1_to_3, quiet_1_to_4, ranges, too_long, with_edition, EDITIONS, NO_EDITIONS,
};
use cases::generate::full;
use cases::generate::proof_ranges::{K_1_TO_3, QUIET_1_TO_4};
use cases::generate::proof_table::{self, changed, tables, with, K, QUIET_K};
use cases::run::cover::Seen;
use cases::run::edition::{self, in_edition_1, Edition};
use cases::run::{answers_of, store, store_counts};
use common::{coverage, written};
use second::check::entry::{BLANK, COUNT, EDITION, EDITION_1, EDITION_2, TIME_UNIT, WEIGHT};
use second::check::{Test, NUMBERS};
use second::stream::{answers::ANSWERS, counts::COUNTS};

const OUT_OF_RANGE: &str = "125 0 0 0 0 0 0 0 0";

/// What each of them gets in edition 2, and in edition 1 where that is not the same.
const GETS: [(&str, &str, Option<&str>); 48] = [
    // rule 1: 500 to 2,000, at most 3,000; texts 1, 3 and 2, with a narrow range 5, 6 and 2
    ("K1", "100 0 0 1500 33784 1 0 0 0", None),
    ("dose 2,001", "100 1 0 1500 33784 1 1 0 0", None),
    ("dose 3,001", "100 3 0 1500 33784 1 2 0 0", None),
    ("lowest 499", "100 2 0 1500 33784 1 0 1 0", None),
    ("narrow, dose 2,001", "100 5 0 4000001 4000001 4000001 1 0 0", None),
    ("narrow, dose 3,001", "100 6 0 4000001 4000001 4000001 2 0 0", None),
    ("narrow, lowest 499", "100 2 0 4000001 4000001 4000001 0 1 0", None),
    ("age blank", "101 12 0 0 0 0 0 0 0", None),
    ("sex blank", "102 7 0 0 0 0 0 0 0", None),
    ("HPK blank", "103 16 0 0 0 0 0 0 0", None),
    ("PRK blank", "104 16 0 0 0 0 0 0 0", None),
    ("weight blank", "105 10 0 1500 33784 0 0 0 0", None),
    ("surface blank", "106 11 0 4000003 4000003 0 0 0 0", None),
    ("no GPK", "110 0 0 0 0 0 0 0 0", None),
    ("GPK not in 640", "111 16 0 0 0 0 0 0 0", None),
    ("the other sex", "112 7 0 0 0 0 0 0 0", None),
    ("no setting", "113 0 0 1601 0 0 0 0 0", None),
    ("no row for the age", "114 13 0 1500 33784 0 0 0 0", None),
    ("weight 80,001", "118 14 0 1500 33784 0 0 0 0", None),
    ("surface 1,500", "119 15 0 4000003 4000003 0 0 0 0", None),
    ("twice in 640", "123 0 640 0 0 0 0 0 0", None),
    ("twice in 641", "123 0 641 0 0 0 0 0 0", None),
    ("twice in 642", "123 0 642 4000005 0 0 0 0 0", None),
    ("twice in 643", "123 0 643 4000006 4000006 0 0 0 0", None),
    ("twice in 649", "123 0 649 4000008 4000008 4000008 0 0 0", None),
    ("twice in 730", "123 0 730 0 0 0 0 0 0", None),
    ("twice in 70", "123 0 70 0 0 0 0 0 0", None),
    ("not in 641", "124 0 641 0 0 0 0 0 0", None),
    ("not in 649", "124 0 649 4000007 4000007 4000007 0 0 0", None),
    ("no lowest dose", OUT_OF_RANGE, None),
    ("unit not in 730", "126 0 730 0 0 0 0 0 0", None),
    ("amount 0", "127 0 730 0 0 0 0 0 0", None),
    ("amount above", "128 0 730 0 0 0 0 0 0", None),
    ("another PRK than the HPK's", "133 0 0 0 0 0 0 0 0", None),
    // a missing frequency
    ("K11, count", "115 24 0 1500 33784 0 0 0 0", Some("117 8 0 1500 33784 0 0 0 0")),
    ("K11, unit", "116 25 0 1500 33784 0 0 0 0", Some("117 8 0 1500 33784 0 0 0 0")),
    ("K11, both", "117 8 0 1500 33784 0 0 0 0", None),
    ("count differs, by the HPK's GPK", "115 24 0 1500 33784 0 0 0 0", Some("117 8 0 1500 33784 0 0 0 0")),
    ("quiet off, count differs", "115 24 0 1500 33784 0 0 0 0", Some("117 8 0 1500 33784 0 0 0 0")),
    // 2,997 a day below 3,000, and 7,998 below 8,000
    ("quiet, dose 999", "100 0 0 1500 33784 0 0 0 115", Some("100 0 0 1500 33784 0 0 0 117")),
    ("quiet, care 2", "100 0 0 1500 33790 0 0 0 115", Some("100 0 0 1500 33790 0 0 0 117")),
    // 3,000 a day; another unit, of which no signal is suppressed; a narrow range
    ("quiet, dose 1,000", "115 24 0 1500 33784 0 0 0 0", Some("117 8 0 1500 33784 0 0 0 0")),
    ("quiet, unit differs", "116 25 0 1500 33784 0 0 0 0", Some("117 8 0 1500 33784 0 0 0 0")),
    ("quiet, both differ", "117 8 0 1500 33784 0 0 0 0", None),
    ("quiet, narrow", "115 24 0 4000001 4000001 0 0 0 0", Some("117 8 0 4000001 4000001 0 0 0 0")),
    // asked in step 9, before its signals; then no row for the surface
    ("quiet, weight asked", "105 10 0 1500 33784 0 0 0 0", None),
    ("quiet, surface asked", "106 11 0 4000003 4000003 0 0 0 0", None),
    ("quiet, surface 1,500", "115 24 0 4000003 4000003 0 0 0 0", Some("117 8 0 4000003 4000003 0 0 0 0")),
];

/// K1 for 2 to 4, 1 to 2, 1 to 3, 0 to 2, 998 to 1,001; 3 to 2, 1 to 17, and 1 to 3 with two places. Then where rule 2
/// allows 1,500 twice a day and 999 is entered: below it once and three times, above it four times.
/// S is the signal, Q a suppressed one.
const OF_K1: [&str; 8] = ["r1 S S", "S r1", "S r1 S", "125 S r1", "S S 125 125", "131", "131", "132"];
const OF_SUPPRESSED: [&str; 8] = ["r2 Q S", "Q r2", "Q r2 Q", "125 Q r2", "S S 125 125", "131", "131", "132"];
/// In a number that is no edition.
const OF_NONE: [&str; 8] =
    ["125 125 125", "125 125", "125 125 125", "125 125 125", "125 125 125 125", "131", "131", "132"];

fn lines_of(gets: &str, edition: u32) -> Vec<String> {
    let line = |gets: &str| match (gets, edition) {
        ("S", EDITION_1) => "117 8 0 1500 33784 0 0 0 0",
        ("S", _) => "115 24 0 1500 33784 0 0 0 0",
        ("Q", EDITION_1) => "100 0 0 1500 33784 0 0 0 117",
        ("Q", _) => "100 0 0 1500 33784 0 0 0 115",
        ("r1", _) => "100 0 0 1500 33784 1 0 0 0",
        ("r2", _) => "100 0 0 1500 33784 2 0 0 0",
        ("125", _) => OUT_OF_RANGE,
        ("131", _) => "131",
        _ => "132",
    };
    gets.split(' ').map(|gets| line(gets).to_string()).collect()
}

fn spelled(numbers: [u32; NUMBERS]) -> String {
    numbers.map(|number| number.to_string()).join(" ")
}

/// The proof table with one entry.
fn line(entry: Numbers) -> String {
    let mut case = tables();
    case.entries = vec![entry];
    written(&ANSWERS, &case.bytes()).remove(0)
}

/// What each of them gets in edition 2, in edition 1, and in none.
fn gets() -> Vec<String> {
    GETS.iter().flat_map(|(_, now, former)| [*now, former.unwrap_or(now), OUT_OF_RANGE].map(str::to_string)).collect()
}

#[test]
fn each_answer_in_each_edition() {
    let (case, expected) = (each(), gets());
    let lines = written(&ANSWERS, &case.bytes());
    assert_eq!((lines.len(), asked().len()), (expected.len(), GETS.len()));
    for (place, (line, entry)) in lines.iter().zip(&case.entries).enumerate() {
        let (name, ..) = GETS[place / 3];
        assert_eq!(asked()[place / 3].name, name);
        assert_eq!(*line, expected[place], "{name}, edition {}", entry[EDITION]);
    }
    assert!(EDITIONS.iter().chain(&NO_EDITIONS).all(|of| case.entries.iter().any(|entry| entry[EDITION] == *of)));
}

#[test]
fn the_proof_table_in_each_edition() {
    assert!(K.iter().all(|k| changed(k.1)[EDITION] == EDITION_2));
    for (name, changes, numbers) in K {
        assert_eq!(line(with_edition(changed(changes), EDITION_2)), spelled(numbers), "{name}");
        // K10 and K11 alone have a missing frequency.
        let former = match name {
            "K10" | "K11, count" | "K11, unit" | "K11, both" => "117 8 0 1500 33784 0 0 0 0".to_string(),
            _ => spelled(numbers),
        };
        assert_eq!(line(with_edition(changed(changes), EDITION_1)), former, "{name}");
    }
    let lines = K.map(|k| line(with_edition(changed(k.1), EDITION_1)));
    assert_eq!(written(&ANSWERS, &proof_table::with_edition(EDITION_1).bytes()), lines);
}

/// K7 with a frequency that is missing: the weight is not looked at.
#[test]
fn a_missing_frequency_stands_before_the_weight() {
    let k7 = |changes: &[(usize, u32)], edition: u32| {
        line(with_edition(changed(&[&[(WEIGHT, 80_001)], changes].concat()), edition))
    };
    for (changes, now) in [
        (&[(COUNT, 3)][..], "115 24 0 1500 33784 0 0 0 0"),
        (&[(TIME_UNIT, 46)], "116 25 0 1500 33784 0 0 0 0"),
        (&[(COUNT, 3), (TIME_UNIT, 46)], "117 8 0 1500 33784 0 0 0 0"),
    ] {
        assert_eq!(k7(changes, EDITION_2), now);
        assert_eq!(k7(changes, EDITION_1), "117 8 0 1500 33784 0 0 0 0");
    }
    assert_eq!(EDITIONS.map(|edition| k7(&[], edition)), ["118 14 0 1500 33784 0 0 0 0"; 2]);
}

#[test]
fn all_else_is_out_of_range() {
    for edition in NO_EDITIONS.into_iter().chain([4, 255, 256, 512, 1 << 24, (1 << 24) + 1, 1 << 31]) {
        for changes in [&[][..], &[(COUNT, 3)], &[(COUNT, 0)]] {
            assert_eq!(line(with_edition(changed(changes), edition)), OUT_OF_RANGE, "{edition}");
        }
    }
}

/// P4's examples: five of them give 115 in edition 2, two suppress it, one asks for the weight.
#[test]
fn quiet_in_each_edition() {
    let mut case = with(&QUIET_K);
    assert_eq!(written(&ANSWERS, &case.bytes()), QUIET_K.map(|k| spelled(k.2)));
    case.entries.iter_mut().for_each(|entry| entry[EDITION] = EDITION_1);
    let signal = "117 8 0 1500 33784 0 0 0 0";
    let expected = [
        signal,
        signal,
        "100 0 0 1500 33784 0 0 0 117",
        "105 10 0 1500 33784 0 0 0 0",
        signal,
        signal,
        "100 0 0 1500 33790 0 0 0 117",
        "117 8 0 1500 33790 0 0 0 0",
    ];
    assert_eq!(written(&ANSWERS, &case.bytes()), expected);
}

/// 125 stands before 121 and 122, and these are what they were.
#[test]
fn refused_tables_and_a_full_category() {
    let [not_whole, out_of_range] = bad_tables().map(|case| written(&ANSWERS, &case.bytes()));
    assert_eq!(not_whole, ["121 0 649 0 0 0 0 0 0", "121 0 649 0 0 0 0 0 0", OUT_OF_RANGE]);
    assert_eq!(out_of_range, ["122 0 640 0 0 0 0 0 0", "122 0 640 0 0 0 0 0 0", OUT_OF_RANGE]);
    let long = format!("120 0 643 {0} {0} 0 0 0 0", full::KEY);
    assert_eq!(written(&ANSWERS, &too_long(3).bytes()), [&long, &long, OUT_OF_RANGE]);
}

/// What stands by hand for edition 2, with 117 and 8 for 115 and 24 and for 116 and 25, and 117 as the ninth number.
fn by_hand(lines: &[&str], edition: u32) -> Vec<String> {
    let former = |line: &&str| {
        let line = line.replace("115 24 ", "117 8 ").replace("116 25 ", "117 8 ");
        line.strip_suffix(" 115").map_or(line.clone(), |front| format!("{front} 117"))
    };
    match edition {
        EDITION_1 => lines.iter().map(former).collect(),
        _ => lines.iter().map(|line| line.to_string()).collect(),
    }
}

#[test]
fn ranges_of_the_proof_table_in_each_edition() {
    for edition in EDITIONS {
        let (ks, quiet): (CountCase, CountCase) = (k_1_to_3(edition), quiet_1_to_4(edition));
        assert_eq!(written(&COUNTS, &ks.bytes()), by_hand(&K_1_TO_3.concat(), edition));
        assert_eq!(written(&COUNTS, &quiet.bytes()), by_hand(&QUIET_1_TO_4.concat(), edition));
    }
    assert_eq!(written(&COUNTS, &k_1_to_3(BLANK).bytes()), vec![OUT_OF_RANGE; 3 * K.len()]);
}

/// Each place has its edition's answer; 131 and 132 stand before 125.
#[test]
fn each_edition_in_a_range() {
    let [alone, others, bad @ .., long] = &ranges(3)[..] else { panic!("five cases") };
    assert_eq!(written(&COUNTS, &alone.bytes()), gets());
    let mut expected = vec![];
    for (of, editions) in [(OF_K1, &EDITIONS[..]), (OF_NONE, &[0, 3, BLANK, 258]), (OF_SUPPRESSED, &EDITIONS)] {
        for edition in editions {
            expected.extend(of.iter().flat_map(|gets| lines_of(gets, *edition)));
        }
    }
    assert_eq!(written(&COUNTS, &others.bytes()), expected);
    for (ranges, case) in bad.iter().zip(bad_tables()) {
        assert_eq!(written(&COUNTS, &ranges.bytes()), written(&ANSWERS, &case.bytes()));
    }
    assert_eq!(written(&COUNTS, &long.bytes()), written(&ANSWERS, &too_long(3).bytes()));
}

/// So that their lines are what they were.
#[test]
fn what_was_stored_before_says_edition_2() {
    let ranges = store_counts::cases_before_p7();
    let before = [store::cases_before_p7(), ranges.into_iter().map(|case| case.case).collect()].concat();
    let mut entries = before.iter().flat_map(|case| &case.entries);
    assert!(before.len() > 3_500 && entries.all(|entry| entry[EDITION] == EDITION_2));
}

/// The lines of a case whose entries all say this.
fn lines(number: u64, edition: u32) -> Vec<String> {
    let mut case = generate::case(9, number);
    case.entries.iter_mut().for_each(|entry| entry[EDITION] = edition);
    answers_of(&case).iter().map(|answer| spelled(answer.numbers)).collect()
}

#[test]
fn nothing_else_differs() {
    let mut different = 0;
    for number in 0..4_000 {
        for (former, now) in lines(number, EDITION_1).into_iter().zip(lines(number, EDITION_2)) {
            assert_eq!(former, in_edition_1(&now), "case {number}");
            different += (former != now) as u64;
        }
    }
    assert!(different > 4_000, "{different}");
}

/// The test that gave an answer, its ways and what was filled are the same in both: the place is the same.
#[test]
fn the_place_is_the_same() {
    for number in 0..1_000 {
        let [former, now] = EDITIONS.map(|edition| {
            let mut case = generate::case(9, number);
            case.entries.iter_mut().for_each(|entry| entry[EDITION] = edition);
            answers_of(&case).iter().map(|answer| (answer.test, answer.ways)).collect::<Vec<_>>()
        });
        assert_eq!(former, now, "case {number}");
    }
}

#[test]
fn of_an_edition_nothing_else_occurs() {
    let possible = edition::required();
    let seen = coverage(|_| {}).counts;
    let others = seen.keys().filter(|seen| matches!(seen, Seen::Edition(seen) if !possible.contains(seen)));
    assert_eq!(others.collect::<Vec<_>>(), Vec::<&Seen>::new());
}

/// The coverage says so where all entries say 2: what is seen of an edition then, and all else is missed.
#[test]
fn entries_of_edition_1_are_missed() {
    let missing = coverage(|case| case.entries.iter_mut().for_each(|entry| entry[EDITION] = EDITION_2)).missing();
    let of_2 = |seen: &Edition| matches!(seen, Edition::Signal(EDITION_2, _) | Edition::Suppressed(EDITION_2, _));
    let mut without: Vec<Seen> =
        edition::required().into_iter().filter(|seen| !of_2(seen)).map(Seen::Edition).collect();
    let is_of_edition = |test: &Test| matches!(test, Test::Entry(place, _) if *place as usize == EDITION);
    let tests = cases::run::cover::tests().into_iter().filter(is_of_edition).map(Seen::Test);
    without.splice(0..0, tests);
    assert_eq!(missing, without);
}
