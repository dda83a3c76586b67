//! The edition (document 02, P7) as it is written: by the cell, the option or the default. What can be read goes out to
//! the programs, also where it is no edition.

mod common;
use common::proof_table::*;
use common::{k1_ending, k1_with, ran, Room, ENTRIES};

/// As many as a range may have counts (P2).
const PLACES: u32 = 16;
const COMPARED: &str = "100 0 0 1500 33784 1 0 0 0\n";
const OUT_OF_RANGE: &str = "125 0 0 0 0 0 0 0 0\n";

#[test]
fn any_number_goes_out_as_it_is_written() {
    let room = Room::new("any_edition_goes_out");
    for (cell, number, says) in [
        ("1", 1, COMPARED),
        ("2", 2, COMPARED),
        ("\"1\"", 1, COMPARED),
        ("  2 ", 2, COMPARED),
        ("001", 1, COMPARED),
        ("0", 0, OUT_OF_RANGE),
        ("3", 3, OUT_OF_RANGE),
        ("4294967294", 4294967294, OUT_OF_RANGE),
    ] {
        let counts = [("one count", "2"), ("two counts", "1-2")];
        room.write(ENTRIES, k1_ending(&counts, "months,edition", &format!("on,{cell}")));
        room.fake_says(says);
        room.counts_says(&says.repeat(2));
        let ran = room.check(&[]);
        assert_eq!((ran.status, ran.complained.as_str()), (0, ""), "{cell}");
        let single = |count| k1_but(&[(COUNT, count), (EDITION, number)]);
        assert_eq!(room.heard().unwrap(), case(&[single(2)]), "{cell}");
        assert_eq!(room.counts_heard().unwrap(), case(&[[single(1), vec![1, 2, PLACES]].concat()]), "{cell}");
    }
}

#[test]
fn the_cell_then_the_option_then_2() {
    let room = Room::new("the_cell_then_the_option");
    let [none, one, two]: [&[&str]; 3] = [&[], &["--edition", "1"], &["--edition", "2"]];
    for (option, default) in [(none, 2), (one, 1), (two, 2)] {
        for (columns, cells, number) in [
            ("months", "on", default),
            ("months,quiet", "on,", default),
            ("months,edition", "on,", default),
            ("months,edition", "on,  ", default),
            ("months,edition", "on,\"\"", default),
            ("months,edition", "on,1", 1),
            ("months,edition", "on,2", 2),
        ] {
            let counts = [("one count", "2"), ("a range", "2-2")];
            room.write(ENTRIES, k1_ending(&counts, columns, cells));
            room.fake_says(COMPARED);
            room.counts_says(COMPARED);
            let ran = room.check(option);
            assert_eq!((ran.status, ran.complained.as_str()), (0, ""), "{option:?} {columns} {cells}");
            let entry = || k1_but(&[(EDITION, number)]);
            assert_eq!(room.heard().unwrap(), case(&[entry()]), "{option:?} {columns} {cells}");
            assert_eq!(room.counts_heard().unwrap(), case(&[[entry(), vec![2, 2, PLACES]].concat()]));
        }
    }
    // an edition that there is not is no blank
    room.write(ENTRIES, k1_ending(&[("K1", "2")], "months,edition", "on,0"));
    room.fake_says(OUT_OF_RANGE);
    assert_eq!(room.check(one).status, 0);
    assert_eq!(room.heard().unwrap(), case(&[k1_but(&[(EDITION, 0)])]));
}

#[test]
fn each_row_has_its_own() {
    let room = Room::new("each_row_has_its_own");
    let entries = k1_with(&[("A", "2"), ("B", "2"), ("C", "2")]);
    let (first, rest) = entries.split_once("\nB,").unwrap();
    let blank = rest.replacen(",on,2\n", ",on,\n", 1);
    room.write(ENTRIES, format!("{first}\nB,{blank}"));
    room.fake_says(&COMPARED.repeat(3));
    assert_eq!(room.check(&["--edition", "1"]).status, 0);
    assert_eq!(room.heard().unwrap(), case(&[2, 1, 2].map(|edition| k1_but(&[(EDITION, edition)]))));
}

#[test]
fn quiet_and_edition_may_each_be_absent() {
    let room = Room::new("quiet_and_edition_absent");
    room.fake_says(COMPARED);
    for (columns, cells, quiet, edition) in [
        ("months", "on", BLANK, 2),
        ("months,quiet", "on,on", ON, 2),
        ("months,edition", "on,1", BLANK, 1),
        ("months,quiet,edition", "on,on,1", ON, 1),
    ] {
        room.write(ENTRIES, k1_ending(&[("K1", "2")], columns, cells));
        assert_eq!(room.check(&[]).status, 0, "{columns}");
        let entry = k1_but(&[(QUIET, quiet), (EDITION, edition)]);
        assert_eq!(room.heard().unwrap(), case(&[entry]), "{columns}");
    }
    // all lines have the cells of the header
    room.write(ENTRIES, k1_ending(&[("K1", "2")], "months", "on,1"));
    room.refused(&["22 cells stand on this line and 21 in the header: nothing may stand after months"]);
    room.write(ENTRIES, k1_ending(&[("K1", "2")], "months,edition", "on"));
    room.refused(&["21 cells stand on this line and 22 in the header: it ends before edition"]);
    room.write(ENTRIES, k1_ending(&[("K1", "2")], "months,quiet,edition", "on,1"));
    room.refused(&["22 cells stand on this line and 23 in the header: it ends before edition"]);
}

#[test]
fn a_damaged_number() {
    let room = Room::new("a_damaged_edition");
    for cell in ["1.5", "-1", "+1", "one", "on", "1-2", "2x", "4294967296", "4294967295"] {
        room.write(ENTRIES, k1_ending(&[("K1", "2")], "months,edition", &format!("on,{cell}")));
        room.refused(&["entries.csv, line 2, edition: "]);
    }
    // a setting in the wrong column
    room.write(ENTRIES, k1_ending(&[("K1", "2")], "months,quiet,edition", "on,1,on"));
    room.refused(&["line 2, quiet: `1` is neither on, off nor blank", "line 2, edition: `on` is damaged"]);
}

#[test]
fn a_wrong_column() {
    let room = Room::new("a_wrong_column_by_edition");
    for (columns, words) in [
        ("months,editon", "editon is extra: column 22 may only be quiet or edition"),
        ("months,colour,edition", "colour is extra: column 22 may only be quiet"),
        ("months,edition,colour", "colour is extra: there must be no column 23"),
        ("months,quiet,colour", "colour is extra: column 23 may only be edition"),
        ("months,colour,quiet,edition", "colour is extra: column 22 must be quiet"),
        ("months,quiet,colour,edition", "colour is extra: column 23 must be edition"),
        ("months,quiet,edition,", "a column without a name is extra: there must be no column 24"),
        ("months,edition,edition", "edition is extra: it stands in column 22 and again in column 23"),
        ("edition,months", "columns are exchanged: column 21 must be months, but edition stands there"),
        ("months,edition,quiet", "columns are exchanged: column 22 must be quiet, but edition stands there"),
        ("months,edition,quiet", "columns are exchanged: column 23 must be edition, but quiet stands there"),
        ("quiet,edition", "months is missing: column 21 must be months, but quiet stands there"),
    ] {
        room.write(ENTRIES, k1_ending(&[("K1", "2")], columns, "on"));
        room.refused(&["entries.csv, line 1: ", words]);
    }
}

#[test]
fn a_wrong_option() {
    let room = Room::new("a_wrong_edition_option");
    let allowed =
        "--edition is 1 (for hosts that have only text 8) or 2 (for hosts that have texts 24 and 25)";
    for word in ["0", "3", "12", "01", "+1", "1.0", "1-2", "one", "", " 1", "--csv"] {
        let ran = room.check(&["--edition", word]);
        assert_eq!((ran.status, ran.said.as_str(), room.heard()), (2, "", None), "{word}");
        let words = format!("dose: {allowed}, and not `{word}`\n");
        assert!(ran.complained.starts_with(&words), "{}", ran.complained);
    }
    let without = room.check(&["--edition"]);
    assert_eq!((without.status, without.said.as_str(), room.heard()), (2, "", None));
    assert!(without.complained.contains("--edition needs a number: 1 or 2"), "{}", without.complained);
    for command in ["units", "products"] {
        let ran = ran(room.dose().args([command, "a", "--edition", "1"]));
        assert!(ran.complained.contains(&format!("{command} has no --edition")), "{}", ran.complained);
    }
}

#[test]
fn the_help_says_the_default() {
    let help = ran(Room::new("the_help_says_the_default").dose().arg("--help")).said;
    for words in ["[--edition 1|2]", "2, for hosts that have texts 24 and 25", "without --edition it is 2"] {
        assert!(help.contains(words), "`{words}` is not in:\n{help}");
    }
}
