//! The sample of document 01 through the front: the bytes that the program hears and the lines that a person reads.

mod common;
use common::proof_table::*;
use common::{sample, Room, ENTRIES, TABLES};

/// Document 01's changes from K1, and P1's weight, in the sample's order.
const CHANGES: [&[(usize, u32)]; 22] = [
    &[],
    &[(LOWEST, 2001), (HIGHEST, 2001)],
    &[(LOWEST, 3000), (HIGHEST, 3000)],
    &[(LOWEST, 3001), (HIGHEST, 3001)],
    &[(LOWEST, 499), (HIGHEST, 3001)],
    &[(WEIGHT, BLANK)],
    &[(WEIGHT, 70000)],
    &[(WEIGHT, 80001)],
    &[(WEIGHT, 80000)],
    &[(GPK, 900001), (AGE, BLANK)],
    &[(AGE, 1080)],
    &[(AGE, 216), (COUNT, 1)],
    &[(COUNT, 3)],
    &[(TIME, 46)],
    &[(COUNT, 3), (TIME, 46)],
    &[(GPK, 900001), (SEX, 1)],
    &[(GPK, 900001), (SEX, 2)],
    &[(CARE, 2), (WEIGHT, BLANK)],
    &[(REASON, 5000), (COUNT, 1)],
    &[(REASON, 6000)],
    &[(REASON, 5000), (CARE, 2)],
    &[(REASON, 5000), (CARE, 2), (WEIGHT, BLANK)],
];

fn stream() -> Vec<u8> {
    case(&CHANGES.map(k1_but))
}

#[test]
fn the_program_hears_one_case() {
    let room = Room::new("the_program_hears_one_case");
    assert_eq!(room.check(&[]).status, 0);
    assert_eq!(room.heard().unwrap(), stream());
}

#[test]
fn a_person_reads_words() {
    let room = Room::new("a_person_reads_words");
    let ran = room.check(&[]);
    assert_eq!((ran.status, ran.complained.as_str()), (0, ""));
    assert_eq!(ran.said, sample("expected.txt"));
}

#[test]
fn a_machine_reads_numbers() {
    let room = Room::new("a_machine_reads_numbers");
    let ran = room.check(&["--csv"]);
    assert_eq!((ran.status, ran.complained.as_str()), (0, ""));
    assert_eq!(ran.said, sample("expected.csv"));
}

#[test]
fn other_ways_to_write_the_same_files() {
    let room = Room::new("other_ways");
    let cr_lf = |text: String| text.replace('\n', "\r\n");
    let mark = |text: String| format!("\u{FEFF}{text}");
    let quotes = |text: String| {
        let quote = |cell: &str| format!("\"{cell}\"");
        let line = |line: &str| line.split(',').map(quote).collect::<Vec<_>>().join(",") + "\n";
        text.lines().map(line).collect::<String>()
    };
    let spaces = |text: String| text.replace(',', " ,\t");
    let open_end = |text: String| text.trim_end().to_string();
    let empty_end = |text: String| text + "\n\r\n";
    let all = |text: String| mark(cr_lf(quotes(text)));
    let ways: [&dyn Fn(String) -> String; 7] = [&cr_lf, &mark, &quotes, &spaces, &open_end, &empty_end, &all];
    for (i, way) in ways.iter().enumerate() {
        for file in TABLES.iter().chain([&ENTRIES]) {
            room.write(file, way(sample(file)));
        }
        let ran = room.check(&[]);
        assert_eq!((ran.status, ran.complained.as_str()), (0, ""), "way {i}");
        assert_eq!(ran.said, sample("expected.txt"), "way {i}");
        assert_eq!(room.heard().unwrap(), stream(), "way {i}");
    }
}

#[test]
fn entries_without_names_are_called_by_their_line() {
    let room = Room::new("entries_without_names");
    let nameless = |line: &str| line.split_once(',').unwrap().1.to_string() + "\n";
    room.write(ENTRIES, sample(ENTRIES).lines().map(nameless).collect::<String>());
    let ran = room.check(&[]);
    assert_eq!(room.heard().unwrap(), stream());
    for (i, (line, expected)) in ran.said.lines().zip(sample("expected.txt").lines()).enumerate() {
        assert_eq!(line, format!("line {}: {}", i + 2, expected.split_once(": ").unwrap().1));
    }
    let csv = room.check(&["--csv"]).said;
    assert!(csv.starts_with(
        "line,answer,text,table,basis,category,rule,high,low,suppressed\n2,100,0,0,1500,33784,1,0,0,0\n"
    ));
    assert_eq!(csv.lines().count(), 1 + CHANGES.len());
}

#[test]
fn a_name_keeps_its_comma_and_quotes() {
    let room = Room::new("a_name_keeps_its_comma");
    let entries = sample(ENTRIES).replace("\nK1,", "\n\"bed 3, \"\"left\"\"\",");
    room.write(ENTRIES, entries);
    assert!(room.check(&[]).said.starts_with("bed 3, \"left\": 100 compared"));
    assert!(room.check(&["--csv"]).said.contains("\n\"bed 3, \"\"left\"\"\",100,0,0,1500,33784,1,0,0,0\n"));
}

#[test]
fn no_entries() {
    let room = Room::new("no_entries");
    room.write(ENTRIES, sample(ENTRIES).lines().next().unwrap());
    let ran = room.check(&["--csv"]);
    assert_eq!(
        (ran.status, ran.said.as_str()),
        (0, "name,answer,text,table,basis,category,rule,high,low,suppressed\n")
    );
    assert!(ran.complained.contains("has no entries"));
    assert!(room.heard().is_none());
}
