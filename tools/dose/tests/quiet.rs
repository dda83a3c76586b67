//! The quiet setting (document 02, P4): how it is written and goes out, and what is said where a signal was suppressed.
//! Then the sample with quiet.

mod common;
use common::proof_table::*;
use common::{k1_ending, k1_with, program_line, quiet, sample, Room, ENTRIES};

const OFF: u32 = 0;
const COMPARED: &str = "100 0 0 1500 33784 1 0 0 0\n";
const SUPPRESSED: &str = "100 0 0 1500 33784 0 0 0 115\n";

/// K1 under a name with this count and this cell in the column quiet, which the proof table's file has not.
fn k1_quiet(counts: &[(&str, &str)], cell: &str) -> String {
    k1_ending(counts, "months,quiet,edition", &format!("on,{cell},2"))
}

#[test]
fn a_setting_goes_out_as_it_is_written() {
    let room = Room::new("a_quiet_setting_goes_out");
    room.fake_says(COMPARED);
    room.counts_says(&COMPARED.repeat(2));
    for (cell, number) in [("on", ON), ("off", OFF), ("", BLANK), ("  ", BLANK), ("\"\"", BLANK)] {
        room.write(ENTRIES, k1_quiet(&[("one count", "2"), ("two counts", "1-2")], cell));
        let ran = room.check(&[]);
        assert_eq!((ran.status, ran.complained.as_str()), (0, ""), "{cell}");
        let single = |count| k1_but(&[(COUNT, count), (QUIET, number)]);
        assert_eq!(room.heard().unwrap(), case(&[single(2)]), "{cell}");
        assert_eq!(room.counts_heard().unwrap(), case(&[[single(1), vec![1, 2, 16]].concat()]), "{cell}");
    }
}

#[test]
fn a_file_without_the_column_gives_no_setting() {
    let room = Room::new("a_file_without_quiet");
    room.fake_says(COMPARED);
    room.write(ENTRIES, k1_with(&[("K1", "2")]));
    assert_eq!(room.check(&[]).status, 0);
    assert_eq!(room.heard().unwrap(), case(&[k1_but(&[(QUIET, BLANK)])]));
    // all lines have the cells of the header, or none
    room.write(ENTRIES, k1_with(&[("K1", "2")]).replace(",on,2\n", ",on,on,2\n"));
    room.refused(&["23 cells stand on this line and 22 in the header: nothing may stand after edition"]);
    room.write(ENTRIES, k1_quiet(&[("K1", "2")], "on").replace(",on,on,2\n", ",on\n"));
    room.refused(&["it ends before quiet"]);
}

#[test]
fn a_damaged_setting_or_column() {
    let room = Room::new("a_damaged_quiet");
    for cell in ["1", "0", "2", "On", "yes", "4294967295"] {
        room.write(ENTRIES, k1_quiet(&[("K1", "2")], cell));
        room.refused(&["entries.csv, line 2, quiet"]);
    }
    let with = |header: &str| k1_quiet(&[("K1", "2")], "on").replace(",months,quiet,edition\n", header);
    room.write(ENTRIES, with(",months,quite,edition\n"));
    room.refused(&["quite is extra: column 22 may only be quiet"]);
    room.write(ENTRIES, with(",quiet,months,edition\n"));
    room.refused(&["columns are exchanged: column 21 must be months, but quiet stands there"]);
    room.write(ENTRIES, with(",months,quiet,quiet,edition\n"));
    room.refused(&["quiet is extra: it stands in column 22 and again in column 23"]);
    room.write(ENTRIES, with(",quiet,edition\n"));
    room.refused(&["months is missing"]);
}

#[test]
fn a_suppressed_signal_in_words() {
    let room = Room::new("a_suppressed_signal");
    room.write(ENTRIES, k1_quiet(&[("K1", "3")], "on"));
    let meanings = [
        (115, "no row for the frequency: only the count differs"),
        (116, "no row for the frequency: only the unit differs"),
        (117, "no row for the frequency: count and unit differ"),
    ];
    for (signal, meaning) in meanings {
        room.fake_says(&format!("100 0 0 1500 33784 0 0 0 {signal}\n"));
        let ran = room.check(&[]);
        let said = format!(
            "K1: 100 no signal: {signal} ({meaning}) is suppressed, since quiet is on and a fitting rule per day \
             allows more by its norm maximum, at a time and in a day; text 0; limits: no rule was chosen; basis \
             1500; category 33784; rule 0; high 0; low 0\n"
        );
        assert_eq!((ran.status, ran.said, ran.complained.as_str()), (0, said, ""));
    }
}

#[test]
fn a_suppressed_signal_where_none_can_be() {
    let room = Room::new("no_suppressed_signal");
    let fails = |line: &str, words: &str| {
        room.fake_says(&format!("{}\n", line.trim_end()));
        let ran = room.check(&[]);
        assert_eq!((ran.status, ran.said.as_str()), (1, ""), "{line}");
        assert!(ran.complained.contains(words), "{}", ran.complained);
    };
    for cell in ["off", ""] {
        room.write(ENTRIES, k1_quiet(&[("K1", "3")], cell));
        fails(SUPPRESSED, "the entry does not say quiet on");
    }
    room.write(ENTRIES, k1_with(&[("K1", "3")]));
    fails(SUPPRESSED, "the entry does not say quiet on");
    room.write(ENTRIES, k1_quiet(&[("K1", "3")], "on"));
    for line in [
        "100 0 0 1500 33784 0 0 0 114",
        "100 0 0 1500 33784 0 0 0 118",
        "100 0 0 1500 33784 0 0 0 1",
        "115 24 0 1500 33784 0 0 0 115",
        "105 10 0 1500 33784 0 0 0 115",
        "100 20 0 1500 33784 0 0 0 115",
        "100 0 649 1500 33784 0 0 0 115",
        "100 0 0 0 33784 0 0 0 115",
        "100 0 0 1500 0 0 0 0 115",
        "100 0 0 1500 33784 2 0 0 115",
        "100 0 0 1500 33784 0 1 0 115",
        "100 0 0 1500 33784 0 0 1 115",
    ] {
        fails(line, "no answer with a suppressed signal");
    }
}

/// A room with the sample, where the programs say what expected.csv has from the papers.
fn room(test: &str) -> Room {
    let room = Room::new(test);
    room.write(ENTRIES, quiet(ENTRIES));
    let expected = quiet("expected.csv");
    let (ranged, plain): (Vec<&str>, Vec<&str>) =
        expected.lines().skip(1).partition(|line| line.starts_with("range "));
    let says = |lines: Vec<&str>| lines.into_iter().map(program_line).collect::<String>();
    room.fake_says(&says(plain));
    room.counts_says(&says(ranged));
    room
}

#[test]
fn each_program_hears_its_entries() {
    let room = room("quiet_each_program_hears");
    assert_eq!(room.check(&[]).status, 0);
    let asked = |weight, dose, quiet| {
        k1_but(&[(WEIGHT, weight), (COUNT, 3), (LOWEST, dose), (HIGHEST, dose), (QUIET, quiet)])
    };
    let mut entries = vec![asked(75000, 2000, ON), asked(60000, 1000, ON), asked(60000, 999, ON)];
    entries.push(k1_but(&[(WEIGHT, 60000), (COUNT, 3), (LOWEST, 1), (HIGHEST, 1000), (QUIET, ON)]));
    entries.extend([ON, OFF, BLANK].map(|setting| asked(BLANK, 2000, setting)));
    entries.push(asked(80000, 2000, ON));
    for (dose, setting) in [(2666, ON), (2667, ON), (2666, OFF)] {
        let mut entry = asked(BLANK, dose, setting);
        entry[CARE] = 2;
        entries.push(entry);
    }
    let others = [(60000, 999, (TIME, 46)), (75000, 300, (REASON, 5000)), (60000, 999, (COUNT, 2))];
    for (weight, dose, (place, number)) in others {
        let mut entry = asked(weight, dose, ON);
        entry[place] = number;
        entries.push(entry);
    }
    assert_eq!(room.heard().unwrap(), case(&entries));
    let range = |weight, last, setting| {
        let mut entry = asked(weight, 999, setting);
        entry[COUNT] = 1;
        [entry, vec![1, last, 16]].concat()
    };
    let ranges = [range(60000, 4, ON), range(60000, 3, BLANK), range(BLANK, 3, ON)];
    assert_eq!(room.counts_heard().unwrap(), case(&ranges));
}

#[test]
fn a_person_reads_words() {
    let ran = room("quiet_a_person_reads").check(&[]);
    assert_eq!((ran.status, ran.complained.as_str()), (0, ""));
    assert_eq!(ran.said, quiet("expected.txt"));
}

#[test]
fn a_machine_reads_numbers() {
    let ran = room("quiet_a_machine_reads").check(&["--csv"]);
    assert_eq!((ran.status, ran.complained.as_str()), (0, ""));
    assert_eq!(ran.said, quiet("expected.csv"));
}

/// The files of the proof table have no column quiet.
#[test]
fn the_column_stands_behind_months_and_may_be_absent() {
    let header = |entries: String| entries.lines().next().unwrap().to_string();
    assert!(header(sample(ENTRIES)).ends_with(",CODE,months,edition"));
    assert_eq!(header(quiet(ENTRIES)), header(sample(ENTRIES)).replace(",edition", ",quiet,edition"));
}
