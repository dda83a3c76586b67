//! Table 70, by which an HPK brings its PRK and GPK (document 02, P5): where it stands, what is said of it, and what a
//! program may answer by it. Then the sample with HPKs.

mod common;
use common::proof_table::*;
use common::{hpk, program_line, ran, sample, Room, ENTRIES, FAKE, TABLES};

const LINKS: &str = "070.csv";
const RECORDS: &str = "BST070T";
const HEADER: &str = "HPKODE,PRKODE,HPANPR,GPKODE,PRANGP,HPANGP\n";
/// Document 004's row, and another of K1's product.
const HALDOL: [u32; 6] = [216267, 5541, 1, 16004, 1, 1];
const OF_K1: [u32; 6] = [4001, 8001, 1, 103136, 2, 2];
const RECORD: &str = "00700002162670000554100000100016004000001000001                 ";
const COMPARED: &str = "100 0 0 1500 33784 1 0 0 0";
const DIFFERS: &str = "133 0 0 0 0 0 0 0 0";
const SEVERAL: &str = "123 0 70 0 0 0 0 0 0";

/// K1 with these codes, as a line of the entries.
fn k1_line(gpk: &str, prk: &str, hpk: &str) -> String {
    let header = sample(ENTRIES).lines().next().unwrap().to_string();
    format!("{header}\nK1,{gpk},{prk},{hpk},240,,75000,,3,0,0,0,2,19,2000,2000,233,233,0,0,on,2\n")
}

fn csv(rows: &[[u32; 6]]) -> String {
    let line = |row: &[u32; 6]| row.map(|number| number.to_string()).join(",") + "\n";
    HEADER.to_string() + &rows.iter().map(line).collect::<String>()
}

/// A room whose table 70 has these rows, with K1 and these codes.
fn room_with(test: &str, rows: &[[u32; 6]], gpk: &str, prk: &str, hpk: &str) -> Room {
    let room = Room::new(test);
    room.write(LINKS, csv(rows));
    room.write(ENTRIES, k1_line(gpk, prk, hpk));
    room.fake_says(&format!("{COMPARED}\n"));
    room
}

#[test]
fn the_rows_go_out_behind_730() {
    let room = room_with("the_rows_go_out", &[HALDOL, OF_K1], "0", "", "4001");
    assert_eq!(room.check(&[]).status, 0);
    let entry = k1_but(&[(GPK, 0), (HPK, 4001)]);
    assert_eq!(room.heard().unwrap(), case_with_70(&[HALDOL, OF_K1], &[entry]));
    assert!(room.calls_heard().is_none());
}

#[test]
fn an_absent_table_is_empty_and_that_is_said_once() {
    let room = room_with("an_absent_table", &[], "103136", "", "");
    room.remove(LINKS);
    for more in [&[][..], &["--csv"]] {
        let ran = room.check(more);
        assert_eq!(ran.status, 0);
        assert_eq!(
            ran.complained.matches("has neither 070.csv nor BST070T").count(),
            1,
            "{}",
            ran.complained
        );
        assert_eq!(ran.complained.lines().count(), 1);
        assert_eq!(room.heard().unwrap(), case(&[k1_but(&[])]));
    }
    // A header alone is a table without rows, and nothing is said.
    room.write(LINKS, HEADER);
    let ran = room.check(&[]);
    assert_eq!((ran.status, ran.complained.as_str()), (0, ""));
}

#[test]
fn records_stand_for_the_file() {
    let room = room_with("records_stand_for_the_file", &[], "0", "", "216267");
    room.remove(LINKS);
    let other = RECORD.replace("00216267", "00004001");
    room.write(RECORDS, format!("{RECORD}\r\n{other}\r\n{RECORD}"));
    room.calls_says("0 0 216267 5541 1 16004 1 1\n0 1 4001 5541 1 16004 1 1\n0 3 4002 8001 1 103136 2 2\n");
    let ran = room.check(&[]);
    assert_eq!(ran.status, 0, "{}", ran.complained);
    // file 70, reading, 64 characters
    let call = |text: &str| [&[70, 0, 0, 0, 0, 0, 0, 0, 64, 0, 0, 0], text.as_bytes()].concat();
    assert_eq!(room.calls_heard().unwrap(), [call(RECORD), call(&other), call(RECORD)].concat());
    // What the program read, but for the one that is withdrawn.
    let rows = [HALDOL, [4002, 8001, 1, 103136, 2, 2]];
    assert_eq!(room.heard().unwrap(), case_with_70(&rows, &[k1_but(&[(GPK, 0), (HPK, 216267)])]));
    assert!(ran.complained.contains("left out 1 withdrawn records (mutation digit 1)"), "{}", ran.complained);
    assert!(ran.said.contains("HPK 216267 brought PRK 5541 and GPK 16004"), "{}", ran.said);
}

#[test]
fn records_that_are_refused() {
    let room = room_with("records_that_are_refused", &[], "103136", "", "");
    room.remove(LINKS);
    let long = "x".repeat(4097);
    room.write(RECORDS, format!("{RECORD}\r\nx\r\n{long}\r\n{RECORD}\r\n{RECORD}\r\n{RECORD}\r\n"));
    room.calls_says("0 0 216267 5541 1 16004 1 1\n201\n202\n203\n204\n");
    let ran = room.check(&[]);
    assert_eq!((ran.status, ran.said.as_str()), (2, ""));
    assert!(room.heard().is_none());
    for words in [
        "BST070T, line 2: the record is refused with 201: it has not 64 characters",
        "BST070T, line 3: the record is refused with 201",
        "BST070T, line 4: the record is refused with 202: a fixed part differs",
        "BST070T, line 5: the record is refused with 203: a digit is expected and absent",
        "BST070T, line 6: the record is refused with 204: the mutation digit is above 3",
        "nothing was checked",
    ] {
        assert!(ran.complained.contains(words), "`{words}` is not in:\n{}", ran.complained);
    }
}

#[test]
fn records_beside_the_file_or_without_a_program() {
    let room = room_with("records_beside_the_file", &[HALDOL], "103136", "", "");
    room.write(RECORDS, format!("{RECORD}\r\n"));
    room.refused(&["070.csv and BST070T both stand here: leave out one of them"]);
    assert!(room.calls_heard().is_none());
    room.remove(LINKS);
    for (lines, words) in [
        ("", "wrote 0 lines for 1 records"),
        ("201\n201\n", "wrote 2 lines for 1 records"),
        ("broken\n", "is neither a record nor a refusal"),
        ("200\n", "is neither a record nor a refusal"),
        ("205\n", "is neither a record nor a refusal"),
        ("0 0 216267 5541 1 16004 1\n", "is neither a record nor a refusal"),
        ("0 0 216267 5541 1 16004 1 1 1\n", "is neither a record nor a refusal"),
        ("1 0 216267 5541 1 16004 1 1\n", "is neither a record nor a refusal"),
        ("0 0 216267 5541 1 16004 1 +1\n", "is neither a record nor a refusal"),
    ] {
        room.calls_says(lines);
        let ran = room.check(&[]);
        assert_eq!((ran.status, ran.said.as_str()), (1, ""), "{lines}");
        assert!(ran.complained.contains(words), "{lines}: {}", ran.complained);
    }
    // A fault of a file is told before a program is started.
    room.write("640.csv", "");
    room.refused(&["640.csv, line 1: GPKODE is missing"]);
    assert!(room.calls_heard().is_none());
    room.write("640.csv", sample("640.csv"));
    let absent = room.folder.join("absent");
    let ran = ran(room.check_without_programs().args(["--program", FAKE]).arg("--calls-program").arg(absent));
    assert_eq!((ran.status, ran.said.as_str()), (1, ""));
    assert!(ran.complained.contains("absent cannot be found"), "{}", ran.complained);
}

/// What is said of K1 with these codes, where the program answers this line.
fn said(test: &str, rows: &[[u32; 6]], codes: [&str; 3], line: &str) -> String {
    let room = room_with(test, rows, codes[0], codes[1], codes[2]);
    room.fake_says(&format!("{line}\n"));
    let ran = room.check(&[]);
    assert_eq!((ran.status, ran.complained.as_str()), (0, ""), "{codes:?} {line}");
    let words = ran.said.strip_prefix("K1: ").unwrap();
    words.split("; text ").next().unwrap().to_string()
}

#[test]
fn what_the_hpk_brought() {
    let said = |rows: &[[u32; 6]], codes, line| said("what_the_hpk_brought", rows, codes, line);
    let compared = "100 compared, neither high nor low";
    for (codes, brought) in [
        (["0", "", "4001"], "; HPK 4001 brought PRK 8001 and GPK 103136"),
        (["103136", "", "4001"], "; HPK 4001 brought PRK 8001"),
        (["0", "8001", "4001"], "; HPK 4001 brought GPK 103136"),
        (["103136", "8001", "4001"], ""),
        (["103136", "", ""], ""),
        (["103136", "", "4002"], ""),
        (["103136", "", "8001"], ""),
    ] {
        assert_eq!(said(&[HALDOL, OF_K1], codes, COMPARED), format!("{compared}{brought}"), "{codes:?}");
    }
    // Whatever the answer, once the HPK was looked for.
    let both = ["0", "", "4001"];
    let brought = "; HPK 4001 brought PRK 8001 and GPK 103136";
    assert_eq!(said(&[OF_K1], both, "101 12 0 0 0 0 0 0 0"), format!("101 age missing{brought}"));
    assert_eq!(
        said(&[OF_K1], both, "126 0 730 0 0 0 0 0 0"),
        format!("126 unit row absent (table 730){brought}")
    );
    let several = format!("123 several rows where one is needed (table 640){brought}");
    assert_eq!(said(&[OF_K1], both, "123 0 640 0 0 0 0 0 0"), several);
    for (line, words) in [
        ("125 0 0 0 0 0 0 0 0", "125 entry out of range"),
        ("121 0 70 0 0 0 0 0 0", "121 table not whole rows, or too long (table 70)"),
        ("122 0 640 0 0 0 0 0 0", "122 field out of range (table 640)"),
    ] {
        assert_eq!(said(&[OF_K1], both, line), words);
    }
}

#[test]
fn what_differs_and_what_cannot_be_told() {
    let said = |rows: &[[u32; 6]], codes, line| said("what_differs", rows, codes, line);
    let other = "133 PRK or GPK is not that of the HPK; HPK 4001 was given with";
    for (codes, words) in [
        (["103136", "8002", "4001"], "PRK 8002, and 070 has PRK 8001 for it"),
        (["0", "8002", "4001"], "PRK 8002, and 070 has PRK 8001 for it"),
        (["103137", "8001", "4001"], "GPK 103137, and 070 has GPK 103136 for it"),
        (["103137", "", "4001"], "GPK 103137, and 070 has GPK 103136 for it"),
        (["1", "2", "4001"], "PRK 2 and GPK 1, and 070 has PRK 8001 and GPK 103136 for it"),
    ] {
        assert_eq!(said(&[HALDOL, OF_K1], codes, DIFFERS), format!("{other} {words}"));
    }
    let several =
        "123 several rows where one is needed (table 70); 070 has 3 rows for HPK 4001, so that its PRK and \
                   GPK cannot be told";
    assert_eq!(said(&[OF_K1, OF_K1, HALDOL, OF_K1], ["103136", "8002", "4001"], SEVERAL), several);
    let no_row = "070 has no row for HPK 4002 to bring it";
    let [prk, gpk] = ["104 16 0 0 0 0 0 0 0", "110 0 0 0 0 0 0 0 0"];
    assert_eq!(said(&[OF_K1], ["103136", "", "4002"], prk), format!("104 PRK missing; {no_row}"));
    assert_eq!(said(&[OF_K1], ["0", "8001", "4002"], gpk), format!("110 no GPK; {no_row}"));
    assert_eq!(said(&[OF_K1], ["103136", "", ""], prk), "104 PRK missing");
    assert_eq!(said(&[OF_K1], ["0", "8001", ""], gpk), "110 no GPK");
}

#[test]
fn answers_that_table_70_contradicts() {
    let fails = |rows: &[[u32; 6]], codes: [&str; 3], line: &str, words: &str| {
        let room = room_with("answers_that_table_70_contradicts", rows, codes[0], codes[1], codes[2]);
        room.fake_says(&format!("{line}\n"));
        let ran = room.check(&[]);
        assert_eq!((ran.status, ran.said.as_str()), (1, ""), "{codes:?} {line}");
        assert!(ran.complained.contains(words), "`{words}` is not in: {}", ran.complained);
    };
    let [blank, same, brought, no_row] =
        [["103136", "", ""], ["103136", "8001", "4001"], ["0", "", "4001"], ["103136", "", "4002"]];
    for codes in [blank, same, brought, no_row] {
        fails(&[OF_K1], codes, DIFFERS, "do not differ from a row of its HPK in 070");
        fails(&[OF_K1], codes, SEVERAL, "070 has not several rows for the entry's HPK");
    }
    let differs = ["103136", "8002", "4001"];
    for line in [COMPARED, SEVERAL, "104 16 0 0 0 0 0 0 0", "126 0 730 0 0 0 0 0 0"] {
        fails(&[OF_K1], differs, line, "is not that of its HPK, which is 133");
    }
    for line in [COMPARED, DIFFERS, "123 0 641 0 0 0 0 0 0"] {
        fails(&[OF_K1, OF_K1], same, line, "070 has several rows for the entry's HPK, which is 123");
    }
    for line in ["104 16 0 0 0 0 0 0 0", "110 0 0 0 0 0 0 0 0"] {
        fails(&[OF_K1], brought, line, "it asks for what 070 has for the entry's HPK");
    }
    for place in 1..9 {
        let mut numbers = DIFFERS.split(' ').collect::<Vec<_>>();
        numbers[place] = "1";
        let words =
            if place == 8 { "no answer with a suppressed signal" } else { "all other numbers of 133 are 0" };
        fails(&[OF_K1], differs, &numbers.join(" "), words);
    }
}

#[test]
fn the_columns_of_what_was_brought() {
    let room = room_with("the_columns_of_what_was_brought", &[OF_K1], "0", "", "4001");
    let header = "name,answer,text,table,basis,category,rule,high,low,suppressed";
    let numbers = "K1,100,0,0,1500,33784,1,0,0,0";
    let said = |room: &Room| room.check(&["--csv"]).said;
    assert_eq!(said(&room), format!("{header},PRK brought,GPK brought\n{numbers},8001,103136\n"));
    room.write(ENTRIES, k1_line("103136", "", "4002"));
    assert_eq!(said(&room), format!("{header},PRK brought,GPK brought\n{numbers},,\n"));
    // No entry gives an HPK.
    room.write(ENTRIES, k1_line("103136", "", ""));
    assert_eq!(said(&room), format!("{header}\n{numbers}\n"));
}

/// A room with the sample, where the programs say what expected.csv has from the papers.
fn room(test: &str) -> Room {
    let room = Room::new(test);
    TABLES.iter().chain([&ENTRIES]).for_each(|file| room.write(file, hpk(file)));
    let expected = hpk("expected.csv");
    let numbers = |line: &str| program_line(line.rsplitn(3, ',').last().unwrap());
    let (ranged, plain): (Vec<&str>, Vec<&str>) =
        expected.lines().skip(1).partition(|line| line.starts_with("range "));
    room.fake_says(&plain.into_iter().map(numbers).collect::<String>());
    room.counts_says(&ranged.into_iter().map(numbers).collect::<String>());
    room
}

#[test]
fn each_program_hears_its_entries() {
    let room = room("hpk_each_program_hears");
    assert_eq!(room.check(&[]).status, 0);
    let number = |heard: &[u8], place: usize| u32::from_le_bytes(heard[4 * place..][..4].try_into().unwrap());
    let heard = [room.heard().unwrap(), room.counts_heard().unwrap()];
    for (heard, entries) in heard.iter().zip([18, 3]) {
        let lengths: Vec<u32> = (0..8).map(|place| number(heard, place)).collect();
        assert_eq!(lengths, [4 * 12, 6 * 20, 6 * 24, 6 * 40, 6 * 16, 3 * 20, 7 * 24, entries]);
        let links = 8 + lengths[..6].iter().sum::<u32>() as usize / 4;
        assert_eq!((links..links + 6).map(|place| number(heard, place)).collect::<Vec<_>>(), {
            [1709925, 76686, 1, 122858, 1, 1]
        });
    }
    // The first entry of each: GPK 0, PRK blank, and the HPK.
    let [plain, ranged] = heard;
    let first = (plain.len() - 18 * 88) / 4;
    assert_eq!([0, 1, 2].map(|place| number(&plain, first + place)), [0, BLANK, 216267]);
    let first = (ranged.len() - 3 * 100) / 4;
    assert_eq!([0, 1, 2].map(|place| number(&ranged, first + place)), [0, BLANK, 1709925]);
    assert_eq!([22, 23, 24].map(|place| number(&ranged, first + place)), [1, 3, 16]);
}

#[test]
fn a_person_reads_words() {
    let ran = room("hpk_a_person_reads").check(&[]);
    assert_eq!((ran.status, ran.complained.as_str()), (0, ""));
    assert_eq!(ran.said, hpk("expected.txt"));
}

#[test]
fn a_machine_reads_numbers() {
    let ran = room("hpk_a_machine_reads").check(&["--csv"]);
    assert_eq!((ran.status, ran.complained.as_str()), (0, ""));
    assert_eq!(ran.said, hpk("expected.csv"));
}
