//! The months setting (document 02, P3). The front has no default for it: a blank cell goes out as not given, and the
//! programs decide what that means, `answers` off and `counts` on. Then the sample with months.

mod common;
use common::proof_table::*;
use common::{k1_with, months, program_line, Room, ENTRIES, TABLES};

const OFF: u32 = 0;
/// As many as a range may have counts (P2).
const PLACES: u32 = 16;
/// Behind the lengths of the seven tables stands the number of entries.
const ENTRIES_AT: usize = 28;
const COMPARED: &str = "100 0 0 1500 33784 1 0 0 0\n";

#[test]
fn a_setting_goes_out_as_it_is_written() {
    let room = Room::new("a_setting_goes_out");
    room.fake_says(COMPARED);
    room.counts_says(&COMPARED.repeat(3));
    let entries = k1_with(&[("one count", "2"), ("two counts", "1-2"), ("range of one", "2-2")]);
    for (cell, number) in [("on", ON), ("off", OFF), ("", BLANK), ("  ", BLANK), ("\"\"", BLANK)] {
        room.write(ENTRIES, entries.replace(",on,2\n", &format!(",{cell},2\n")));
        let ran = room.check(&[]);
        assert_eq!((ran.status, ran.complained.as_str()), (0, ""), "{cell}");
        let single = |count| k1_but(&[(COUNT, count), (MONTHS, number)]);
        let range = |first, last| [single(first), vec![first, last, PLACES]].concat();
        assert_eq!(room.heard().unwrap(), case(&[single(2)]), "{cell}");
        assert_eq!(room.counts_heard().unwrap(), case(&[range(1, 2), range(2, 2)]), "{cell}");
    }
}

/// The sample's entries with one count: GPK, count, time unit, dose, months.
const PLAIN: [[u32; 5]; 23] = [
    [900036, 1, 35, 1000, ON],
    [900036, 1, 35, 1000, OFF],
    [900036, 1, 35, 1000, BLANK],
    [900036, 1, 36, 1000, BLANK],
    [900036, 2, 35, 1000, ON],
    [900036, 2, 35, 1000, OFF],
    [900036, 2, 35, 1000, BLANK],
    [900099, 1, 35, 1500, ON],
    [900099, 1, 35, 1500, OFF],
    [900099, 1, 35, 1500, BLANK],
    [900035, 2, 36, 1000, ON],
    [900035, 2, 36, 1000, OFF],
    [900035, 2, 36, 1000, BLANK],
    [900041, 1, 40, 2000, ON],
    [900041, 1, 40, 2000, OFF],
    [900041, 1, 40, 2000, BLANK],
    [900040, 1, 41, 2000, ON],
    [900040, 1, 41, 2000, OFF],
    [900040, 1, 41, 2000, BLANK],
    [900021, 1, 22, 1000, BLANK],
    [900021, 1, 22, 1000, OFF],
    [900050, 1, 51, 6000, BLANK],
    [900046, 1, 45, 3000, ON],
];

/// Those with a range: the same with the first count, then the last.
const RANGED: [([u32; 5], u32); 6] = [
    ([900036, 1, 35, 1000, BLANK], 2),
    ([900036, 1, 35, 1000, ON], 2),
    ([900036, 1, 35, 1000, OFF], 2),
    ([900035, 2, 36, 1000, BLANK], 2),
    ([900035, 2, 36, 1000, OFF], 2),
    ([900041, 1, 40, 2000, BLANK], 2),
];

fn entry([gpk, count, unit, dose, months]: [u32; 5]) -> Vec<u32> {
    let patient = [BLANK, BLANK, 480, BLANK, BLANK, BLANK, 3, 0, 0, 0];
    [&[gpk], &patient[..], &[count, unit, dose, dose, 245, 245, 0, 0, months, BLANK, 2]].concat()
}

fn bytes(entries: &[Vec<u32>]) -> Vec<u8> {
    entries.concat().iter().flat_map(|number| number.to_le_bytes()).collect()
}

/// A room with the sample, where the programs say what expected.csv has from the papers.
fn room(test: &str) -> Room {
    let room = Room::new(test);
    for file in TABLES.into_iter().chain([ENTRIES]) {
        room.write(file, months(file));
    }
    let expected = months("expected.csv");
    let (ranged, plain): (Vec<&str>, Vec<&str>) =
        expected.lines().skip(1).partition(|line| line.contains(" range "));
    let says = |lines: Vec<&str>| lines.into_iter().map(program_line).collect::<String>();
    room.fake_says(&says(plain));
    room.counts_says(&says(ranged));
    room
}

#[test]
fn each_program_hears_its_entries() {
    let room = room("months_each_program_hears");
    assert_eq!(room.check(&[]).status, 0);
    let with_range =
        |(numbers, last): ([u32; 5], u32)| [entry(numbers), vec![numbers[1], last, PLACES]].concat();
    for (heard, entries) in [
        (room.heard().unwrap(), PLAIN.map(entry).to_vec()),
        (room.counts_heard().unwrap(), RANGED.map(with_range).to_vec()),
    ] {
        assert_eq!(heard[ENTRIES_AT..ENTRIES_AT + 4], (entries.len() as u32).to_le_bytes());
        assert!(heard.ends_with(&bytes(&entries)));
    }
}

#[test]
fn a_person_reads_words() {
    let ran = room("months_a_person_reads").check(&[]);
    assert_eq!((ran.status, ran.complained.as_str()), (0, ""));
    assert_eq!(ran.said, months("expected.txt"));
}

#[test]
fn a_machine_reads_numbers() {
    let ran = room("months_a_machine_reads").check(&["--csv"]);
    assert_eq!((ran.status, ran.complained.as_str()), (0, ""));
    assert_eq!(ran.said, months("expected.csv"));
}
