//! The edition (document 02, P7): what is said of it, and what a program may answer by it. Then the sample with both
//! editions. tests/edition_cells.rs has how it is written.

mod common;
use common::proof_table::*;
use common::{edition, k1_ending, program_line, Room, ENTRIES};

/// As many as a range may have counts (P2).
const PLACES: u32 = 16;
const COMPARED: &str = "100 0 0 1500 33784 1 0 0 0\n";
const OUT_OF_RANGE: &str = "125 0 0 0 0 0 0 0 0\n";
const IN_EDITION_1: &str =
    "no row for the frequency: edition 1 does not say whether count, unit or both differ";

/// K1 with count 3, quiet on and this edition.
fn k1_in(edition: &str) -> String {
    k1_ending(&[("K1", "3")], "months,quiet,edition", &format!("on,on,{edition}"))
}

/// What is said of K1 with these entries, where the program answers this line.
fn said(room: &Room, entries: String, line: &str) -> String {
    room.write(ENTRIES, entries);
    room.fake_says(&format!("{}\n", line.trim_end()));
    let ran = room.check(&[]);
    assert_eq!((ran.status, ran.complained.as_str()), (0, ""), "{line}");
    let words = ran.said.strip_prefix("K1: ").unwrap();
    words.split("; text ").next().unwrap().to_string()
}

#[test]
fn a_missing_frequency_in_words() {
    let room = Room::new("a_missing_frequency_by_edition");
    let both = "no row for the frequency: count and unit differ";
    let suppressed = "\
        is suppressed, since quiet is on and a fitting rule per day allows more by its norm maximum, at a time and \
        in a day";
    for (edition, meaning) in [("1", IN_EDITION_1), ("2", both), ("", both)] {
        let line = "117 8 0 1500 33784 0 0 0 0";
        assert_eq!(said(&room, k1_in(edition), line), format!("117 {meaning}"));
        let line = "100 0 0 1500 33784 0 0 0 117";
        assert_eq!(said(&room, k1_in(edition), line), format!("100 no signal: 117 ({meaning}) {suppressed}"));
    }
    // the words are those of the edition that went out
    room.fake_says("117 8 0 1500 33784 0 0 0 0\n");
    assert!(room.check(&["--edition", "1"]).said.starts_with(&format!("K1: 117 {IN_EDITION_1}; text 8; ")));
    // all other answers have one meaning
    for line in ["114 13 0 1500 33784 0 0 0 0", "118 14 0 1500 33784 0 0 0 0", COMPARED] {
        assert_eq!(said(&room, k1_in("1"), line), said(&room, k1_in("2"), line));
    }
}

#[test]
fn why_it_is_125() {
    let room = Room::new("why_it_is_125");
    for number in ["0", "3", "17752"] {
        let words = format!("125 entry out of range; edition {number} is neither 1 nor 2");
        assert_eq!(said(&room, k1_in(number), OUT_OF_RANGE), words);
    }
    for number in ["1", "2", ""] {
        assert_eq!(said(&room, k1_in(number), OUT_OF_RANGE), "125 entry out of range");
    }
    // at each count of a range; 131 comes before it
    room.counts_says(&format!("{}131\n", OUT_OF_RANGE.repeat(2)));
    room.write(ENTRIES, k1_ending(&[("A", "1-2"), ("B", "3-1")], "months,edition", "on,3"));
    let ran = room.check(&[]);
    assert_eq!(ran.said.matches("125 entry out of range; edition 3 is neither 1 nor 2;").count(), 2);
    assert!(ran.said.ends_with("B, counts 3-1: 131 first count above the last, or over 16 counts\n"));
}

#[test]
fn answers_that_the_edition_contradicts() {
    let room = Room::new("answers_that_the_edition_contradicts");
    let fails = |edition: &str, line: &str, words: &str| {
        room.write(ENTRIES, k1_in(edition));
        room.fake_says(&format!("{}\n", line.trim_end()));
        let ran = room.check(&[]);
        assert_eq!((ran.status, ran.said.as_str()), (1, ""), "{edition}: {line}");
        assert!(ran.complained.contains(words), "`{words}` is not in: {}", ran.complained);
    };
    for (signal, text) in [(115, 24), (116, 25)] {
        let words = format!("the entry's edition is 1, which has 117 and no {signal}");
        fails("1", &format!("{signal} {text} 0 1500 33784 0 0 0 0"), &words);
        fails("1", &format!("100 0 0 1500 33784 0 0 0 {signal}"), &words);
    }
    let other =
        ["117 8 0 1500 33784 0 0 0 0", "100 0 0 1500 33784 0 0 0 117", "122 0 640 0 0 0 0 0 0", COMPARED];
    for (edition, line) in ["0", "3"].into_iter().flat_map(|edition| other.map(|line| (edition, line))) {
        fails(edition, line, &format!("the entry's edition is {edition}, which is 125"));
    }
}

/// A room with the sample, where the programs say what expected.csv has from the papers.
fn room(test: &str) -> Room {
    let room = Room::new(test);
    room.write(ENTRIES, edition(ENTRIES));
    let expected = edition("expected.csv");
    let (ranged, plain): (Vec<&str>, Vec<&str>) =
        expected.lines().skip(1).partition(|line| line.starts_with("range "));
    let says = |lines: Vec<&str>| lines.into_iter().map(program_line).collect::<String>();
    room.fake_says(&says(plain));
    room.counts_says(&says(ranged));
    room
}

/// What an entry of the sample changes of K1 besides its edition.
type Changes = &'static [(usize, u32)];
const QUIETLY: [(usize, u32); 4] = [(WEIGHT, 60000), (LOWEST, 999), (HIGHEST, 999), (QUIET, ON)];

/// The sample's entries with one count: whether they are quiet, their changes and their edition.
const PLAIN: [(bool, Changes, u32); 24] = [
    (false, &[], 1),
    (false, &[(LOWEST, 3001), (HIGHEST, 3001)], 1),
    (false, &[(COUNT, 3)], 1),
    (false, &[(COUNT, 3)], 2),
    (false, &[(COUNT, 3)], 2),
    (false, &[(TIME, 46)], 1),
    (false, &[(TIME, 46)], 2),
    (false, &[(COUNT, 3), (TIME, 46)], 1),
    (false, &[(COUNT, 3), (TIME, 46)], 2),
    (true, &[(COUNT, 3)], 1),
    (true, &[(COUNT, 3)], 2),
    (true, &[(TIME, 46)], 1),
    (true, &[(TIME, 46)], 2),
    (true, &[(COUNT, 3), (TIME, 46)], 1),
    (true, &[(COUNT, 3), (TIME, 46)], 2),
    (true, &[(COUNT, 3), (LOWEST, 1000), (HIGHEST, 1000)], 1),
    (true, &[(COUNT, 3), (LOWEST, 1000), (HIGHEST, 1000)], 2),
    (true, &[(COUNT, 3), (WEIGHT, BLANK)], 1),
    (true, &[(COUNT, 3), (WEIGHT, BLANK)], 2),
    (false, &[(COUNT, 3), (AGE, 71)], 1),
    (false, &[(COUNT, 3), (AGE, 71)], 2),
    (false, &[(WEIGHT, 80001)], 1),
    (false, &[], 0),
    (false, &[], 3),
];

/// Those with a range: whether they are quiet, first, last and edition.
const RANGED: [(bool, u32, u32, u32); 5] =
    [(false, 1, 3, 1), (false, 1, 3, 2), (true, 1, 4, 1), (false, 1, 2, 3), (false, 3, 1, 3)];

#[test]
fn each_program_hears_its_entries() {
    let room = room("edition_each_program_hears");
    assert_eq!(room.check(&[]).status, 0);
    let entry = |is_quiet: bool, changes: &[(usize, u32)], edition| {
        let quietly = if is_quiet { &QUIETLY[..] } else { &[] };
        k1_but(&[quietly, changes, &[(EDITION, edition)]].concat())
    };
    let plain = PLAIN.map(|(is_quiet, changes, edition)| entry(is_quiet, changes, edition));
    assert_eq!(room.heard().unwrap(), case(&plain));
    let ranged = RANGED.map(|(is_quiet, first, last, edition)| {
        [entry(is_quiet, &[(COUNT, first)], edition), vec![first, last, PLACES]].concat()
    });
    assert_eq!(room.counts_heard().unwrap(), case(&ranged));
}

#[test]
fn a_person_reads_words() {
    let ran = room("edition_a_person_reads").check(&[]);
    assert_eq!((ran.status, ran.complained.as_str()), (0, ""));
    assert_eq!(ran.said, edition("expected.txt"));
}

#[test]
fn a_machine_reads_numbers() {
    let ran = room("edition_a_machine_reads").check(&["--csv"]);
    assert_eq!((ran.status, ran.complained.as_str()), (0, ""));
    assert_eq!(ran.said, edition("expected.csv"));
}
