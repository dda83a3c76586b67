//! A case has at most 4 MiB: entries are split over cases, and tables that leave no room are refused.

mod common;
use common::{k1_with, sample, Room, ENTRIES, TABLES};

const LONGEST_CASE: usize = 4_194_304;
const HEAD: usize = 32;
const ENTRY: usize = 88;
/// An entry of `counts`, with first, last and places.
const RANGE: usize = 100;
const ANSWER: &str = "100 0 0 1500 33784 1 0 0 0\n";

/// The lengths of the cases in a stream, each with its number of entries, which have this length.
fn cases(mut stream: &[u8], entry: usize) -> Vec<(usize, usize)> {
    let mut cases = Vec::new();
    while !stream.is_empty() {
        let word = |i: usize| number(stream, 4 * i);
        let entries = word(7);
        let length = HEAD + (0..7).map(word).sum::<usize>() + entry * entries;
        cases.push((length, entries));
        stream = &stream[length..];
    }
    cases
}

fn number(stream: &[u8], place: usize) -> usize {
    u32::from_le_bytes(stream[place..place + 4].try_into().unwrap()) as usize
}

/// Where each entry stands. There must be two cases, each with the sample's tables, the first as full as it can be.
fn places_in_two_cases(heard: &[u8], count: usize, entry: usize) -> Vec<usize> {
    let tables = 24 + 60 + 72 + 200 + 80;
    let first = (LONGEST_CASE - HEAD - tables) / entry;
    let lengths = [first, count - first].map(|entries| (HEAD + tables + entry * entries, entries));
    assert_eq!(cases(heard, entry), lengths);
    let second = lengths[0].0;
    assert_eq!(heard[..28], heard[second..second + 28]);
    assert_eq!(heard[HEAD..HEAD + tables], heard[second + HEAD..second + HEAD + tables]);
    let place = |i| if i < first { entry * i } else { second + entry * (i - first) };
    (0..count).map(|i| HEAD + tables + place(i)).collect()
}

fn write_rows(room: &Room, file: &str, row: &str, count: usize) {
    let header = sample(file).lines().next().unwrap().to_string();
    room.write(file, format!("{header}\n{}", format!("{row}\n").repeat(count)));
}

#[test]
fn many_entries_are_split_and_keep_their_order() {
    let room = Room::new("many_entries");
    let count = 60_000;
    let entry = |i| format!("{},,,240,,75000,,3,0,0,0,2,19,2000,2000,233,233,0,0,on,2\n", i + 1);
    let header = sample(ENTRIES).lines().next().unwrap().replace("name,", "");
    room.write(ENTRIES, format!("{header}\n{}", (0..count).map(entry).collect::<String>()));
    room.fake_says(&ANSWER.repeat(count));
    let ran = room.check(&["--csv"]);
    assert_eq!(ran.status, 0, "{}", ran.complained);
    assert_eq!(ran.said.lines().count(), count + 1);
    let heard = room.heard().unwrap();
    for (i, place) in places_in_two_cases(&heard, count, ENTRY).into_iter().enumerate() {
        assert_eq!(number(&heard, place), i + 1);
    }
}

#[test]
fn many_ranges_are_split_and_keep_their_order() {
    let room = Room::new("many_ranges");
    let count = 50_000;
    let ranges: Vec<String> = (0..count).map(|i| format!("{i}-{}", i + 1)).collect();
    let entries: Vec<(&str, &str)> = ranges.iter().map(|range| ("bed", range.as_str())).collect();
    room.write(ENTRIES, k1_with(&entries));
    room.counts_says(&ANSWER.repeat(2 * count));
    let ran = room.check(&["--csv"]);
    assert_eq!(ran.status, 0, "{}", ran.complained);
    assert_eq!(ran.said.lines().count(), 2 * count + 1);
    let heard = room.counts_heard().unwrap();
    for (i, place) in places_in_two_cases(&heard, count, RANGE).into_iter().enumerate() {
        assert_eq!([0, 4, 8].map(|more| number(&heard, place + ENTRY + more)), [i, i + 1, 16]);
    }
}

/// A room whose tables have no rows.
fn room_without_rows(test: &str) -> Room {
    let room = Room::new(test);
    for file in TABLES {
        write_rows(&room, file, "", 0);
    }
    room
}

#[test]
fn tables_that_leave_room_for_one_entry_or_none() {
    let room = room_without_rows("tables_that_leave_room");
    let entries: Vec<String> = sample(ENTRIES).lines().take(3).map(String::from).collect();
    room.write(ENTRIES, entries.join("\n"));
    room.fake_says(&ANSWER.repeat(2));
    write_rows(&room, "643.csv", "33784,216000,999999,2,19,70000,80000,0,999999,1", 65_535);
    write_rows(&room, "642.csv", "1500,3,17752,0,0,33784", 65_532);
    write_rows(&room, "649.csv", "1,500,2000,3000", 1);
    assert_eq!(room.check(&[]).status, 0);
    assert_eq!(cases(&room.heard().unwrap(), ENTRY), [(4_194_304, 1), (4_194_304, 1)]);
    write_rows(&room, "070.csv", "216267,5541,1,16004,1,1", 1);
    room.refused(&[
        "the tables are too long for the program",
        "make 4194328 bytes, and a case has at most 4194304",
        "640.csv 0, 641.csv 0, 642.csv 1572768, 643.csv 2621400, 649.csv 16, 730.csv 0, 070.csv 24",
    ]);
}

#[test]
fn tables_that_leave_room_for_one_count_and_no_range() {
    let room = room_without_rows("tables_that_leave_no_room_for_a_range");
    room.fake_says(ANSWER);
    room.counts_says(ANSWER);
    write_rows(&room, "643.csv", "33784,216000,999999,2,19,70000,80000,0,999999,1", 65_535);
    write_rows(&room, "642.csv", "1500,3,17752,0,0,33784", 65_532);
    write_rows(&room, "649.csv", "1,500,2000,3000", 1);
    room.write(ENTRIES, k1_with(&[("K1", "2")]));
    assert_eq!(room.check(&[]).status, 0);
    room.write(ENTRIES, k1_with(&[("K1", "2"), ("K1", "2-2")]));
    room.refused(&["the tables are too long", "make 4194316 bytes, and a case has at most 4194304"]);
    write_rows(&room, "642.csv", "1500,3,17752,0,0,33784", 65_531);
    assert_eq!(room.check(&[]).status, 0);
    assert_eq!(cases(&room.heard().unwrap(), ENTRY), [(4_194_280, 1)]);
    assert_eq!(cases(&room.counts_heard().unwrap(), RANGE), [(4_194_292, 1)]);
}
