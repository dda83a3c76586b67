//! `dose units`: the file goes to the program as it is, and its lines are checked and printed as they are.

mod common;
use common::{Room, SAMPLE};
use std::fs;

fn sample(file: &str) -> String {
    fs::read_to_string(format!("{SAMPLE}/units-004/{file}")).unwrap()
}

#[test]
fn document_004s_rows() {
    let room = Room::new("document_004s_rows");
    let records = sample("730.txt");
    assert_eq!(records.split("\r\n").map(str::len).collect::<Vec<_>>(), [vec![64; 36], vec![0]].concat());
    room.write("730.txt", &records);
    room.fake_says(&sample("expected.txt"));
    let ran = room.units("730.txt");
    assert_eq!((ran.status, ran.complained.as_str()), (0, ""));
    assert_eq!(ran.said, sample("expected.txt"));
    assert_eq!(room.heard().unwrap(), records.as_bytes());
}

#[test]
fn the_program_writes_a_line_for_each_record() {
    let room = Room::new("a_line_for_each_record");
    let unit = "1 216267 20.000 303\n";
    let sound =
        [("", ""), ("\r\n", "refused 201\n"), ("x", "refused 204\n"), ("a\nb\r\r\nc", &unit.repeat(2))];
    for (file, lines) in sound {
        room.write("file", file);
        room.fake_says(lines);
        let ran = room.units("file");
        assert_eq!((ran.status, ran.said.as_str()), (0, lines), "{file:?}: {}", ran.complained);
    }
    for (file, lines) in
        [("", unit), ("x", ""), ("a\r\nb\r\n", unit), ("a\r\n", "refused 201\nrefused 201\n")]
    {
        room.write("file", file);
        room.fake_says(lines);
        let ran = room.units("file");
        assert_eq!((ran.status, ran.said.as_str()), (1, ""), "{file:?}");
        assert!(ran.complained.contains("lines for"), "{}", ran.complained);
    }
}

#[test]
fn lines_that_are_no_unit() {
    let room = Room::new("lines_that_are_no_unit");
    room.write("file", "x");
    let bad = [
        "refused",
        "refused 200",
        "refused 205",
        "1 2 3 4",
        "1 2 3.00 4",
        "1 2 .000 4",
        "1 2 3.000",
        "1 2 3.000 4 5",
        "broken",
    ];
    for line in bad {
        room.fake_says(&format!("{line}\n"));
        let ran = room.units("file");
        assert_eq!((ran.status, ran.said.as_str()), (1, ""), "{line}");
        assert!(ran.complained.contains("is neither a unit nor a refusal"), "{}", ran.complained);
    }
}

#[test]
fn a_file_that_is_not_there() {
    let room = Room::new("a_file_that_is_not_there");
    let ran = room.units("absent");
    assert_eq!((ran.status, ran.said.as_str()), (2, ""));
    assert!(ran.complained.contains("absent: cannot be read"), "{}", ran.complained);
}
