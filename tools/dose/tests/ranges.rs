//! The sample with ranges of counts through the front: which program hears which entry, and the lines of each count.

mod common;
use common::proof_table::*;
use common::{k1_with, program_line, ran, ranges, Room, ENTRIES, FAKE, FAKE_COUNTS};
use std::fs;
use std::os::unix::fs::symlink;
use std::path::Path;
use std::process::Command;

/// What an entry changes of K1: places and numbers.
type Changes = &'static [(usize, u32)];

/// The sample's entries with one count.
const PLAIN: [Changes; 2] = [&[], &[(LOWEST, 2001), (HIGHEST, 2001)]];
const PLAIN_NAMES: [&str; 2] = ["K1,", "K2,"];

/// The sample's entries with a range, with its first and last count.
const RANGED: [(Changes, u32, u32); 16] = [
    (&[], 1, 3),
    (&[], 2, 2),
    (&[(LOWEST, 499), (HIGHEST, 3001)], 2, 3),
    (&[(WEIGHT, BLANK)], 1, 3),
    (&[(AGE, 216)], 1, 3),
    (&[(AGE, 215)], 1, 3),
    (&[(TIME, 46)], 2, 3),
    (&[(CARE, 2), (WEIGHT, BLANK)], 1, 2),
    (&[(REASON, 5000)], 1, 2),
    (&[], 0, 2),
    (&[], 998, 1000),
    (&[], 1, 16),
    (&[], 1, 17),
    (&[], 3, 1),
    (&[(AGE, 1801)], 1, 2),
    (&[(AGE, 1801)], 3, 1),
];

/// As many as a range may have counts (P2).
const PLACES: u32 = 16;

/// A room with the sample's entries, where the programs say what expected.csv has from the papers.
fn room(test: &str) -> Room {
    let room = Room::new(test);
    room.write(ENTRIES, ranges(ENTRIES));
    let expected = ranges("expected.csv");
    let is_plain = |line: &&str| PLAIN_NAMES.iter().any(|name| line.starts_with(name));
    let (plain, ranged): (Vec<&str>, Vec<&str>) = expected.lines().skip(1).partition(is_plain);
    let says = |lines: Vec<&str>| lines.into_iter().map(program_line).collect::<String>();
    room.fake_says(&says(plain));
    room.counts_says(&says(ranged));
    room
}

#[test]
fn each_program_hears_its_entries() {
    let room = room("each_program_hears_its_entries");
    assert_eq!(room.check(&[]).status, 0);
    assert_eq!(room.heard().unwrap(), case(&PLAIN.map(k1_but)));
    let with_range = |(changes, first, last): (Changes, u32, u32)| {
        let own_count = [(COUNT, first)];
        [k1_but(&[changes, &own_count].concat()), vec![first, last, PLACES]].concat()
    };
    assert_eq!(room.counts_heard().unwrap(), case(&RANGED.map(with_range)));
}

#[test]
fn a_person_reads_a_line_for_each_count() {
    let room = room("a_person_reads_a_line");
    let ran = room.check(&[]);
    assert_eq!((ran.status, ran.complained.as_str()), (0, ""));
    assert_eq!(ran.said, ranges("expected.txt"));
}

#[test]
fn a_machine_reads_the_count() {
    let room = room("a_machine_reads_the_count");
    let ran = room.check(&["--csv"]);
    assert_eq!((ran.status, ran.complained.as_str()), (0, ""));
    assert_eq!(ran.said, ranges("expected.csv"));
}

#[test]
fn entries_without_names_are_called_by_their_line() {
    let room = room("ranges_without_names");
    let nameless = |line: &str| line.split_once(',').unwrap().1.to_string() + "\n";
    room.write(ENTRIES, ranges(ENTRIES).lines().map(nameless).collect::<String>());
    let readable = room.check(&[]).said;
    let lines: Vec<&str> = readable.lines().collect();
    assert_eq!(lines.len(), ranges("expected.txt").lines().count());
    assert!(lines[0].starts_with("line 2: 100 compared"), "{}", lines[0]);
    assert!(lines[3].starts_with("line 3, count 3: 115 no row"), "{}", lines[3]);
    assert_eq!(lines[46], "line 17, counts 3-1: 131 first count above the last, or over 16 counts");
    let csv = room.check(&["--csv"]).said;
    assert!(
        csv.starts_with("line,count,answer,text,table,basis,category,rule,high,low,suppressed\n2,2,100,0,"),
        "{csv}"
    );
    assert!(csv.contains("\n3,3,115,24,0,1500,33784,0,0,0,0\n"), "{csv}");
    assert!(csv.contains("\n17,,131,0,0,0,0,0,0,0,0\n"), "{csv}");
}

const COMPARED: &str = "100 0 0 1500 33784 1 0 0 0\n";

#[test]
fn a_program_is_needed_only_for_its_entries() {
    let room = Room::new("a_program_is_needed");
    room.fake_says(COMPARED);
    room.counts_says(COMPARED);
    let check = |count, options: [&str; 4]| {
        room.write(ENTRIES, k1_with(&[("bed 3", count)]));
        ran(room.check_without_programs().args(options))
    };
    let ran = check("2", ["--program", FAKE, "--counts-program", "absent"]);
    assert_eq!((ran.status, room.counts_heard()), (0, None), "{}", ran.complained);
    assert!(ran.said.starts_with("bed 3: 100 compared"), "{}", ran.said);
    let ran = check("2-2", ["--program", "absent", "--counts-program", FAKE_COUNTS]);
    assert_eq!((ran.status, room.heard()), (0, None), "{}", ran.complained);
    assert!(ran.said.starts_with("bed 3, count 2: 100 compared"), "{}", ran.said);
}

#[test]
fn all_programs_are_found_before_one_is_started() {
    let room = room("all_programs_are_found");
    for options in [
        ["--program", FAKE, "--counts-program", "absent"],
        ["--program", "absent", "--counts-program", FAKE_COUNTS],
    ] {
        let ran = ran(room.check_without_programs().args(options));
        assert_eq!((ran.status, ran.said.as_str()), (1, ""));
        assert!(ran.complained.contains("the program absent cannot be found"), "{}", ran.complained);
        assert_eq!((room.heard(), room.counts_heard()), (None, None));
    }
}

/// The front of this repository, without an option that names a program.
fn check_from(room: &Room, repository: &Path) -> Command {
    let mut command = Command::new(repository.join("dose"));
    for (variable, value) in room.dose().get_envs() {
        command.env(variable, value.unwrap());
    }
    command.current_dir(repository).arg("check").arg(&room.folder).arg(room.folder.join(ENTRIES));
    command
}

#[test]
fn the_programs_of_the_repository() {
    let room = room("the_programs_of_the_repository");
    let repository = room.folder.join("repository");
    let out = |name: &str| {
        let folder = repository.join("crates").join(name).join("out");
        fs::create_dir_all(&folder).unwrap();
        folder
    };
    fs::create_dir_all(&repository).unwrap();
    fs::write(repository.join("crates.txt"), "").unwrap();
    fs::hard_link(env!("CARGO_BIN_EXE_dose"), repository.join("dose")).unwrap();
    symlink(FAKE, out("answers").join("answers")).unwrap();
    let without = ran(&mut check_from(&room, &repository));
    assert_eq!((without.status, without.said.as_str()), (1, ""));
    for words in
        ["the proved program crates/counts/out/counts is not there", "name it with --counts-program PATH"]
    {
        assert!(without.complained.contains(words), "{}", without.complained);
    }
    symlink(FAKE, out("counts").join("fake.sh")).unwrap();
    symlink(FAKE_COUNTS, out("counts").join("counts")).unwrap();
    let with = ran(&mut check_from(&room, &repository));
    assert_eq!((with.status, with.said), (0, ranges("expected.txt")), "{}", with.complained);
}
