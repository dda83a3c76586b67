//! What the papers print: K1 to K15, 004's rows, and document 01's record.

use cases::generate::case::{Case, Numbers};
use cases::generate::proof_table::{changed, k1, k_case, tables, K};
use second::check::entry::*;
use second::check::{check, Entry, Lent, Table};
use second::record::{calls::calls, list::unit_list, read::read, write::write, Unit};
use second::stream::{answers::ANSWERS, run};

fn lines(case: &Case) -> Vec<String> {
    let mut out = vec![];
    run(&ANSWERS, &case.bytes()[..], &mut out).expect("a slice is read and a vector written");
    String::from_utf8(out).expect("digits").lines().map(str::to_string).collect()
}

fn line(case: &Case, entry: Numbers) -> String {
    let mut case = case.clone();
    case.entries = vec![entry];
    lines(&case).remove(0)
}

/// By P7 their entries say edition 2.
#[test]
fn k1_to_k15_with_all_nine_numbers() {
    assert!(k_case().entries.iter().all(|entry| entry[EDITION] == 2));
    let answers = lines(&k_case());
    assert_eq!(answers.len(), K.len());
    for ((name, _, expected), answer) in K.iter().zip(answers) {
        assert_eq!(answer, expected.map(|n| n.to_string()).join(" "), "{name}");
    }
}

const DR: u32 = 303;
const ML: u32 = 233;
const ST: u32 = 245;
const MG: u32 = 229;
/// The papers print no code for IE and UG: stand-ins.
const IE: u32 = 900_001;
const UG: u32 = 900_002;
const HPK_KIND: u32 = 1;
const PRK_KIND: u32 = 2;
const GPK_KIND: u32 = 3;

/// 004, file 730 as printed: kind, code, amount in thousandths, unit.
const ROWS_004: [(u32, u32, u64, u32); 36] = [
    (HPK_KIND, 1_709_925, 1_000, ST),
    (HPK_KIND, 1_709_925, 400_000, MG),
    (PRK_KIND, 76_686, 1_000, ST),
    (PRK_KIND, 76_686, 400_000, MG),
    (GPK_KIND, 122_858, 1_000, ST),
    (GPK_KIND, 122_858, 400_000, MG),
    (HPK_KIND, 216_267, 1_000, ML),
    (HPK_KIND, 216_267, 2_000, MG),
    (HPK_KIND, 216_267, 20_000, DR),
    (PRK_KIND, 5_541, 1_000, ML),
    (PRK_KIND, 5_541, 2_000, MG),
    (GPK_KIND, 16_004, 1_000, ML),
    (GPK_KIND, 16_004, 2_000, MG),
    (HPK_KIND, 709_050, 1_000, ST),
    (HPK_KIND, 709_050, 3_000, ML),
    (HPK_KIND, 709_050, 300_000, IE),
    (PRK_KIND, 65_919, 1_000, ST),
    (PRK_KIND, 65_919, 3_000, ML),
    (PRK_KIND, 65_919, 300_000, IE),
    (GPK_KIND, 111_368, 1_000, ML),
    (GPK_KIND, 111_368, 100_000, IE),
    (HPK_KIND, 1_927_043, 1_000, ST),
    (PRK_KIND, 79_308, 1_000, ST),
    (GPK_KIND, 124_575, 1_000, ST),
    (HPK_KIND, 551_805, 1_000, ST),
    (HPK_KIND, 551_805, 400_000, IE),
    (HPK_KIND, 551_805, 10_000, UG),
    (HPK_KIND, 551_805, 10, MG),
    (PRK_KIND, 21_806, 1_000, ST),
    (PRK_KIND, 21_806, 400_000, IE),
    (PRK_KIND, 21_806, 10_000, UG),
    (PRK_KIND, 21_806, 10, MG),
    (GPK_KIND, 53_015, 1_000, ST),
    (GPK_KIND, 53_015, 400_000, ST),
    (GPK_KIND, 53_015, 10_000, UG),
    (GPK_KIND, 53_015, 10, MG),
];

fn with_004() -> Case {
    let mut case = tables();
    for (kind, code, amount, unit) in ROWS_004 {
        case.push(Table::T730, &[kind as u64, code as u64, amount, unit as u64]);
    }
    case
}

/// K1 with its dose converted by 004's rows.
fn converted(kind: u32, code: u32, entered: u32, base: u32, lowest: u32, highest: u32) -> Numbers {
    changed(&[
        (SRTCDE, kind),
        (CODE, code),
        (ENTERED_UNIT, entered),
        (BASE_UNIT, base),
        (LOWEST, lowest),
        (HIGHEST, highest),
    ])
}

#[test]
fn thirty_drops_are_exactly_one_and_a_half_millilitre() {
    let mut case = with_004();
    // Weight 60,000 is rule 2: norm maximum 1,500 thousandths, which 30 drops equal.
    case.rows(Table::T649).row(1)[1] = 1_500;
    let drops = |lowest, highest| {
        let mut entry = converted(HPK_KIND, 216_267, DR, ML, lowest, highest);
        entry[WEIGHT] = 60_000;
        line(&case, entry)
    };
    assert_eq!(drops(30_000, 30_000), "100 0 0 1500 33784 2 0 0 0");
    assert_eq!(drops(30_000, 30_001), "100 1 0 1500 33784 2 1 0 0");
    assert_eq!(drops(29_999, 30_000), "100 2 0 1500 33784 2 0 1 0");
}

#[test]
fn gpk_53015_has_st_twice() {
    let case = with_004();
    let as_entered = converted(GPK_KIND, 53_015, ST, MG, 2_000, 2_000);
    let as_base = converted(GPK_KIND, 53_015, MG, ST, 2_000, 2_000);
    assert_eq!(line(&case, as_entered), "123 0 730 0 0 0 0 0 0");
    assert_eq!(line(&case, as_base), "123 0 730 0 0 0 0 0 0");
    let other_units = converted(GPK_KIND, 53_015, UG, MG, 2_000, 2_000);
    assert!(line(&case, other_units).starts_with("100 "));
}

#[test]
fn a_third_of_a_millilitre_is_not_rounded() {
    let mut case = with_004();
    // One ST is 3 ML: one ML is a third of an ST. 1 ML against 333 and 334 thousandths of an ST.
    let mut third = converted(HPK_KIND, 709_050, ML, ST, 1_000, 1_000);
    third[WEIGHT] = 60_000;
    case.rows(Table::T649).row(1)[2] = 333;
    assert_eq!(line(&case, third), "100 1 0 1500 33784 2 1 0 0");
    case.rows(Table::T649).row(1)[2] = 334;
    assert_eq!(line(&case, third), "100 0 0 1500 33784 2 0 0 0");
    case.rows(Table::T649).row(1)[1] = 334;
    assert_eq!(line(&case, third), "100 2 0 1500 33784 2 0 1 0");
}

#[test]
fn units_of_004_convert_where_both_rows_stand_once() {
    let case = with_004();
    // 400 MG of ibuprofen is 1 ST: 800 MG equal K1's norm maximum of 2,000 ST thousandths.
    assert_eq!(line(&case, converted(HPK_KIND, 1_709_925, MG, ST, 800_000, 800_000)), "100 0 0 1500 33784 1 0 0 0");
    assert_eq!(line(&case, converted(HPK_KIND, 1_709_925, MG, ST, 800_001, 800_001)), "100 1 0 1500 33784 1 1 0 0");
    // The PRK of Haldol has no DR row, and rows of another SRTCDE do not serve.
    assert_eq!(line(&case, converted(PRK_KIND, 5_541, DR, ML, 1, 1)), "126 0 730 0 0 0 0 0 0");
    assert_eq!(line(&case, converted(HPK_KIND, 5_541, MG, ML, 1, 1)), "126 0 730 0 0 0 0 0 0");
}

const EXAMPLE: &[u8; 64] = b"073001850000001002162670000000200000002000303                   ";

#[test]
fn the_printed_record() {
    let unit = Unit { mutation: 0, srtcde: 1, code: 216_267, cdhoev: 20_000, cdeenh: DR };
    assert_eq!(read(EXAMPLE), Ok(unit));
    assert_eq!(unit_list(&[&EXAMPLE[..], b"\r\n"].concat()), b"1 216267 20.000 303\n");
    let mut buffer = [b'x'; 70];
    assert_eq!(write(&unit, &mut buffer, 3), Ok(()));
    assert_eq!(&buffer[3..67], EXAMPLE);
    assert_eq!((&buffer[..3], &buffer[67..]), (&b"xxx"[..], &b"xxx"[..]));
}

#[test]
fn every_printed_row_is_written_and_read_back() {
    let mut buffer = vec![0; 64 * ROWS_004.len()];
    let unit = |(srtcde, code, cdhoev, cdeenh)| Unit { mutation: 3, srtcde, code, cdhoev, cdeenh };
    for (place, row) in ROWS_004.into_iter().enumerate() {
        assert_eq!(write(&unit(row), &mut buffer, 64 * place), Ok(()));
    }
    for (record, row) in buffer.chunks(64).zip(ROWS_004) {
        assert_eq!(read(record), Ok(unit(row)));
    }
    let last = &buffer[64 * 35..];
    assert_eq!(unit_list(last), b"3 53015 0.010 229\n");
}

fn spoilt(place: usize, character: u8) -> Result<Unit, u32> {
    let mut record = *EXAMPLE;
    record[place] = character;
    read(&record)
}

#[test]
fn reading_refuses_in_order() {
    assert_eq!(read(&EXAMPLE[..63]), Err(201));
    assert_eq!(read(b""), Err(201));
    for fixed in [0, 3, 5, 8, 35, 38, 45, 63] {
        assert_eq!(spoilt(fixed, b'9'), Err(202), "place {fixed}");
    }
    for digit in [4, 9, 14, 15, 22, 23, 34, 39, 44] {
        for character in [b' ', b'/', b':', b'x', 0xb2] {
            assert_eq!(spoilt(digit, character), Err(203), "place {digit}");
        }
    }
    assert_eq!(spoilt(4, b'4'), Err(204));
    assert!(spoilt(4, b'3').is_ok());
    let mut both = *EXAMPLE;
    (both[63], both[9], both[4]) = (b'x', b'x', b'9');
    assert_eq!(read(&both), Err(202));
    both[63] = b' ';
    assert_eq!(read(&both), Err(203));
    both[9] = b'0';
    assert_eq!(read(&both), Err(204));
}

#[test]
fn writing_refuses_and_writes_nothing() {
    let good = Unit { mutation: 3, srtcde: 999_999, code: 99_999_999, cdhoev: 999_999_999_999, cdeenh: 999_999 };
    let refused = |unit: Unit, length: usize, place: usize| {
        let mut buffer = vec![b'x'; length];
        let result = write(&unit, &mut buffer, place);
        assert!(buffer.iter().all(|c| *c == b'x'));
        result
    };
    for wide in [
        Unit { mutation: 4, ..good },
        Unit { srtcde: 1_000_000, ..good },
        Unit { code: 100_000_000, ..good },
        Unit { cdhoev: 1_000_000_000_000, ..good },
        Unit { cdeenh: 1_000_000, ..good },
    ] {
        assert_eq!(refused(wide, 64, 0), Err(205));
        assert_eq!(refused(wide, 0, 0), Err(205));
    }
    assert_eq!(refused(good, 63, 0), Err(206));
    assert_eq!(refused(good, 64, 1), Err(206));
    assert_eq!(refused(good, 64, 64), Err(206));
    assert_eq!(refused(good, 64, usize::MAX), Err(206));
    assert_eq!(refused(good, 0, 0), Err(206));
    let mut buffer = [b'x'; 64];
    assert_eq!(write(&good, &mut buffer, 0), Ok(()));
    assert_eq!(&buffer, b"073031850999999999999999999999999990002999999                   ");
    assert_eq!(read(&buffer), Ok(good));
}

/// Numbers of 32 bits, or of 64 where `true` stands beside them.
fn numbers(all: &[(u64, bool)]) -> Vec<u8> {
    all.iter().flat_map(|(number, long)| number.to_le_bytes()[..if *long { 8 } else { 4 }].to_vec()).collect()
}

#[test]
fn a_call_has_one_line() {
    let list = |stream: &[u8]| String::from_utf8(calls(stream)).expect("text");
    let read = |text: &[u8]| [&numbers(&[(730, false), (0, false), (text.len() as u64, false)]), text].concat();
    let write = |buffer: &[u8], place: u64, mutation: u64, cdhoev: u64| {
        let front = [(730, false), (1, false), (buffer.len() as u64, false), (place, true), (mutation, false)];
        let unit = [(1, false), (216_267, false), (cdhoev, true), (303, false)];
        [numbers(&front), numbers(&unit), buffer.to_vec()].concat()
    };
    assert_eq!(list(b""), "");
    assert_eq!(list(&read(EXAMPLE)), "0 0 1 216267 20000 303\n");
    assert_eq!(list(&read(b"")), "201\n");
    assert_eq!(list(&read(&[b'0'; 64])), "202\n");
    let record = "303733303031383530303030303031303032313632363730303030303030323030303030303032303030333033";
    let spaces = "20".repeat(19);
    assert_eq!(list(&write(&[0xab; 66], 1, 0, 20_000)), format!("0 ab{record}{spaces}ab\n"));
    assert_eq!(list(&write(&[10, 255], 0, 4, 20_000)), "205 0aff\n");
    assert_eq!(list(&write(&[10, 255], 0, 0, 1 << 40)), "205 0aff\n");
    assert_eq!(list(&write(&[10, 255], u64::MAX, 0, 20_000)), "206 0aff\n");
    assert_eq!(list(&write(b"", 0, 0, 20_000)), "206 \n");
    let two = [read(EXAMPLE), write(b"", 0, 4, 0)].concat();
    assert_eq!(list(&two), "0 0 1 216267 20000 303\n205 \n");
    assert_eq!(list(&two[..two.len() - 1]), "0 0 1 216267 20000 303\nbroken\n");
}

#[test]
fn the_unit_list_cuts_at_cr_lf_only() {
    let list = |input: &[u8]| String::from_utf8(unit_list(input)).expect("text");
    assert_eq!(list(b""), "");
    assert_eq!(list(b"\r\n"), "refused 201\n");
    assert_eq!(list(b"\r\n\r\n"), "refused 201\nrefused 201\n");
    assert_eq!(list(EXAMPLE), "1 216267 20.000 303\n");
    assert_eq!(list(b"\n"), "refused 201\n");
    assert_eq!(list(b"\r"), "refused 201\n");
    let after = |end: &[u8]| list(&[&EXAMPLE[..], end, &EXAMPLE[..]].concat());
    assert_eq!(after(b"\r\n"), "1 216267 20.000 303\n1 216267 20.000 303\n");
    assert_eq!(after(b"\r\r\n"), "refused 201\n1 216267 20.000 303\n");
    assert_eq!(after(b"\n"), "refused 201\n");
    assert_eq!(after(b"\r"), "refused 201\n");
}

#[test]
fn a_case_is_whole_or_broken() {
    let stream = |bytes: &[u8]| {
        let mut out = vec![];
        run(&ANSWERS, bytes, &mut out).expect("a slice is read and a vector written");
        String::from_utf8(out).expect("text")
    };
    let mut case = tables();
    case.entries = vec![k1()];
    let bytes = case.bytes();
    let answer = "100 0 0 1500 33784 1 0 0 0\n";
    assert_eq!(stream(b""), "");
    assert_eq!(stream(&bytes), answer);
    assert_eq!(stream(&[0; 32]), "");
    for end in [1, 31, 32, 33, bytes.len() - 1] {
        assert_eq!(stream(&bytes[..end]), "broken\n", "cut at {end}");
        assert_eq!(stream(&[&bytes, &bytes[..end]].concat()), format!("{answer}broken\n"), "cut at {end}");
    }
    let room = second::stream::CASE_MOST as usize - bytes.len();
    case.rows(Table::T730).tail = vec![7; room];
    assert_eq!(stream(&case.bytes()), "121 0 730 0 0 0 0 0 0\n");
    case.rows(Table::T730).tail.push(7);
    assert_eq!(stream(&case.bytes()), "broken\n");
}

#[test]
fn an_entry_is_parsed_once_and_checked_alike() {
    let tables = k_case();
    let bytes = tables.bytes();
    let header = second::stream::Header::new(bytes.first_chunk().expect("a header"));
    let (parts, _) = second::stream::parts(&header, &bytes[32..]);
    let lent = Lent::new(parts);
    for (name, changes, expected) in K {
        assert_eq!(check(&lent, &Entry::new(changed(changes))).numbers, expected, "{name}");
    }
}
