//! `dose products`: each record of a file of 070 goes to the program as a call, and what it read is listed.

mod common;
use common::{Room, SAMPLE};
use std::fs;

fn sample(file: &str) -> String {
    fs::read_to_string(format!("{SAMPLE}/products-004/{file}")).unwrap()
}

/// A reading of file 70, as the program hears it.
fn call(text: &str) -> Vec<u8> {
    [&[70, 0, 0, 0, 0, 0, 0, 0][..], &(text.len() as u32).to_le_bytes(), text.as_bytes()].concat()
}

#[test]
fn document_004s_rows() {
    let room = Room::new("document_004s_products");
    let records = sample("070.txt");
    assert_eq!(records.split("\r\n").map(str::len).collect::<Vec<_>>(), [64, 64, 64, 64, 64, 0]);
    room.write("070.txt", &records);
    let line = |(mutation, line): (usize, &str)| format!("0 {} {line}\n", mutation % 4);
    room.calls_says(&sample("expected.txt").lines().enumerate().map(line).collect::<String>());
    let ran = room.products("070.txt");
    assert_eq!((ran.status, ran.complained.as_str()), (0, ""));
    assert_eq!(ran.said, sample("expected.txt"));
    let calls: Vec<u8> = records.split_terminator("\r\n").flat_map(call).collect();
    assert_eq!(room.calls_heard().unwrap(), calls);
}

#[test]
fn only_cr_lf_ends_a_record() {
    let room = Room::new("only_cr_lf_ends_a_record");
    for (file, texts) in [
        ("", &[][..]),
        ("\r\n", &[""]),
        ("x", &["x"]),
        ("x\r\n", &["x"]),
        ("a\nb\r\r\nc", &["a\nb\r", "c"]),
        ("\r\n\r\n", &["", ""]),
        ("a\r", &["a\r"]),
    ] {
        room.write("file", file);
        room.calls_says(&"201\n".repeat(texts.len()));
        let ran = room.products("file");
        assert_eq!(
            (ran.status, ran.said),
            (0, "refused 201\n".repeat(texts.len())),
            "{file:?}: {}",
            ran.complained
        );
        let calls: Vec<u8> = texts.iter().copied().flat_map(call).collect();
        assert_eq!(room.calls_heard().unwrap(), calls, "{file:?}");
    }
}

/// A call takes at most 4,096 bytes.
#[test]
fn a_record_that_is_too_long_for_a_call() {
    let room = Room::new("a_record_too_long_for_a_call");
    let (longest, longer) = ("x".repeat(4096), "x".repeat(4097));
    room.write("file", format!("{longest}\r\n{longer}\r\nx\r\n"));
    room.calls_says("202\n203\n");
    let ran = room.products("file");
    assert_eq!((ran.status, ran.said.as_str()), (0, "refused 202\nrefused 201\nrefused 203\n"));
    assert_eq!(room.calls_heard().unwrap(), [call(&longest), call("x")].concat());
}

#[test]
fn a_file_or_a_program_that_is_not_there() {
    let room = Room::new("a_products_file_that_is_not_there");
    let ran = room.products("absent");
    assert_eq!((ran.status, ran.said.as_str()), (2, ""));
    assert!(ran.complained.contains("absent: cannot be read"), "{}", ran.complained);
    room.write("file", "x");
    room.calls_says("broken\n");
    let ran = room.products("file");
    assert_eq!((ran.status, ran.said.as_str()), (1, ""));
    assert!(ran.complained.contains("is neither a record nor a refusal"), "{}", ran.complained);
}
