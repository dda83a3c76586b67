//! The samples through the proved programs, against the papers. DOSE_ANSWERS, DOSE_COUNTS, DOSE_UNIT_LIST and
//! DOSE_RECORD_CALLS name the programs, which `cargo test -- --include-ignored` then asks.

mod common;
use common::{edition, hpk, months, quiet, ran, ranges, sample, Room, ENTRIES, SAMPLE};
use std::process::Command;

/// The front with these words and the programs that the variables name, each by its option.
fn said(words: &[&str], programs: &[(&str, &str)]) -> String {
    let mut command = Command::new(env!("CARGO_BIN_EXE_dose"));
    command.args(words);
    for (option, variable) in programs {
        let program =
            std::env::var_os(variable).unwrap_or_else(|| panic!("{variable} must name the proved program"));
        command.arg(option).arg(program);
    }
    let ran = ran(&mut command);
    assert_eq!((ran.status, ran.complained.as_str()), (0, ""));
    ran.said
}

const TABLES: &str = concat!(env!("CARGO_MANIFEST_DIR"), "/sample/proof-table");
const ANSWERS: (&str, &str) = ("--program", "DOSE_ANSWERS");
const COUNTS: (&str, &str) = ("--counts-program", "DOSE_COUNTS");
const UNIT_LIST: (&str, &str) = ("--program", "DOSE_UNIT_LIST");
const RECORD_CALLS: (&str, &str) = ("--program", "DOSE_RECORD_CALLS");
const RECORDS: (&str, &str) = ("--calls-program", "DOSE_RECORD_CALLS");

#[test]
#[ignore = "needs the proved program: set DOSE_ANSWERS"]
fn the_proof_table() {
    let entries = format!("{SAMPLE}/proof-table/entries.csv");
    assert_eq!(said(&["check", TABLES, &entries], &[ANSWERS]), sample("expected.txt"));
    assert_eq!(said(&["check", TABLES, &entries, "--csv"], &[ANSWERS]), sample("expected.csv"));
}

#[test]
#[ignore = "needs the proved programs: set DOSE_ANSWERS and DOSE_COUNTS"]
fn ranges_of_counts() {
    let entries = format!("{SAMPLE}/ranges/entries.csv");
    let programs = [ANSWERS, COUNTS];
    assert_eq!(said(&["check", TABLES, &entries], &programs), ranges("expected.txt"));
    assert_eq!(said(&["check", TABLES, &entries, "--csv"], &programs), ranges("expected.csv"));
}

#[test]
#[ignore = "needs the proved programs: set DOSE_ANSWERS and DOSE_COUNTS"]
fn months_against_weeks() {
    let tables = format!("{SAMPLE}/months");
    let entries = format!("{tables}/entries.csv");
    let programs = [ANSWERS, COUNTS];
    assert_eq!(said(&["check", &tables, &entries], &programs), months("expected.txt"));
    assert_eq!(said(&["check", &tables, &entries, "--csv"], &programs), months("expected.csv"));
}

#[test]
#[ignore = "needs the proved programs: set DOSE_ANSWERS and DOSE_COUNTS"]
fn quiet_on_a_missing_frequency() {
    let entries = format!("{SAMPLE}/quiet/entries.csv");
    let programs = [ANSWERS, COUNTS];
    assert_eq!(said(&["check", TABLES, &entries], &programs), quiet("expected.txt"));
    assert_eq!(said(&["check", TABLES, &entries, "--csv"], &programs), quiet("expected.csv"));
}

#[test]
#[ignore = "needs the proved programs: set DOSE_ANSWERS and DOSE_COUNTS"]
fn hosts_with_either_set_of_texts() {
    let entries = format!("{SAMPLE}/edition/entries.csv");
    let programs = [ANSWERS, COUNTS];
    assert_eq!(said(&["check", TABLES, &entries], &programs), edition("expected.txt"));
    assert_eq!(said(&["check", TABLES, &entries, "--csv"], &programs), edition("expected.csv"));
}

/// The other samples without their column edition: but for the signals of a missing frequency nothing differs.
#[test]
#[ignore = "needs the proved programs: set DOSE_ANSWERS and DOSE_COUNTS"]
fn the_samples_in_edition_1() {
    let cut = |line: &str| line.rsplit_once(',').unwrap().0.to_string() + "\n";
    let signals =
        [(",115,24,0,", ",117,8,0,"), (",116,25,0,", ",117,8,0,"), (",0,0,0,115\n", ",0,0,0,117\n")];
    type Sample = fn(&str) -> String;
    let samples: [(&str, Sample); 5] = [
        ("proof-table", sample),
        ("proof-table", ranges),
        ("proof-table", quiet),
        ("months", months),
        ("hpk", hpk),
    ];
    for (tables, file) in samples {
        let room = Room::new("the_samples_in_edition_1");
        room.write(ENTRIES, file(ENTRIES).lines().map(cut).collect::<String>());
        let (tables, entries) =
            (format!("{SAMPLE}/{tables}"), room.folder.join(ENTRIES).display().to_string());
        let said = said(&["check", &tables, &entries, "--csv", "--edition", "1"], &[ANSWERS, COUNTS]);
        let replace = |expected: String, (one, other): (&str, &str)| expected.replace(one, other);
        assert_eq!(said, signals.into_iter().fold(file("expected.csv"), replace));
    }
}

#[test]
#[ignore = "needs the proved program: set DOSE_UNIT_LIST"]
fn document_004s_rows() {
    let expected = std::fs::read_to_string(format!("{SAMPLE}/units-004/expected.txt")).unwrap();
    assert_eq!(said(&["units", &format!("{SAMPLE}/units-004/730.txt")], &[UNIT_LIST]), expected);
}

#[test]
#[ignore = "needs the proved programs: set DOSE_ANSWERS and DOSE_COUNTS"]
fn the_hpk_brings_its_prk() {
    let tables = format!("{SAMPLE}/hpk");
    let entries = format!("{tables}/entries.csv");
    let programs = [ANSWERS, COUNTS];
    assert_eq!(said(&["check", &tables, &entries], &programs), hpk("expected.txt"));
    assert_eq!(said(&["check", &tables, &entries, "--csv"], &programs), hpk("expected.csv"));
}

/// 004's rows as records; the HPK that 070.csv has besides, and twice, then has no row.
#[test]
#[ignore = "needs the proved programs: set DOSE_ANSWERS, DOSE_COUNTS and DOSE_RECORD_CALLS"]
fn the_hpk_brings_its_prk_by_records() {
    let room = Room::new("the_hpk_by_records");
    common::TABLES.iter().chain([&ENTRIES]).for_each(|file| room.write(file, hpk(file)));
    room.remove("070.csv");
    room.write("BST070T", std::fs::read(format!("{SAMPLE}/products-004/070.txt")).unwrap());
    let (tables, entries) =
        (room.folder.display().to_string(), room.folder.join(ENTRIES).display().to_string());
    let said = said(&["check", &tables, &entries, "--csv"], &[ANSWERS, COUNTS, RECORDS]);
    assert_eq!(said, hpk("expected.csv").replace("HPK 7000001,2,123,0,70,", "HPK 7000001,2,110,0,0,"));
}

#[test]
#[ignore = "needs the proved program: set DOSE_RECORD_CALLS"]
fn document_004s_products() {
    let expected = std::fs::read_to_string(format!("{SAMPLE}/products-004/expected.txt")).unwrap();
    assert_eq!(said(&["products", &format!("{SAMPLE}/products-004/070.txt")], &[RECORD_CALLS]), expected);
}
