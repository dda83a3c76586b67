//! File 070 by document 004 and document 02, P5: its five printed rows, read and written, and each refusal.

use second::record::calls::calls;
use second::record::f070::{read::read, write::write, Link};

/// 004, file 070 as printed, and the record of each row by the table of positions, part by part.
const ROWS_004: [([u32; 6], &[u8; 64]); 5] = [
    ([1_709_925, 76_686, 1, 122_858, 1, 1], b"00700017099250007668600000100122858000001000001                 "),
    ([216_267, 5_541, 1, 16_004, 1, 1], b"00700002162670000554100000100016004000001000001                 "),
    ([709_050, 65_919, 1, 111_368, 3, 3], b"00700007090500006591900000100111368000003000003                 "),
    ([1_927_043, 79_803, 1, 124_575, 1, 1], b"00700019270430007980300000100124575000001000001                 "),
    ([551_805, 21_806, 1, 53_015, 1, 1], b"00700005518050002180600000100053015000001000001                 "),
];

const EXAMPLE: &[u8; 64] = ROWS_004[1].1;

/// Where each part of a record begins, by 004's positions less one: the mutation digit, HPK, PRK, count of PRK in HPK,
/// GPK, GPK in PRK, GPK in HPK, the spaces.
const BEGINS: [usize; 8] = [4, 5, 13, 21, 27, 35, 41, 47];

#[test]
fn every_printed_row_is_read_and_written() {
    for (mutation, (numbers, record)) in [0, 1, 2, 3, 0].into_iter().zip(ROWS_004) {
        let mut record = *record;
        record[4] = b'0' + mutation as u8;
        let link = Link { mutation, numbers };
        assert_eq!(read(&record), Ok(link));
        let mut buffer = [b'x'; 70];
        assert_eq!(write(&link, &mut buffer, 3), Ok(()));
        assert_eq!((&buffer[..3], &buffer[3..67], &buffer[67..]), (&b"xxx"[..], &record[..], &b"xxx"[..]));
    }
}

#[test]
fn each_number_stands_where_004_has_it() {
    let numbers = [12_345_678, 23_456_789, 345_678, 45_678_901, 567_890, 678_901];
    let record = *b"00703123456782345678934567845678901567890678901                 ";
    assert_eq!(read(&record), Ok(Link { mutation: 3, numbers }));
    for (part, number) in numbers.into_iter().enumerate() {
        let (from, to) = (BEGINS[part + 1], BEGINS[part + 2]);
        assert_eq!(std::str::from_utf8(&record[from..to]), Ok(number.to_string().as_str()));
    }
    let mut buffer = [0; 64];
    assert_eq!(write(&Link { mutation: 3, numbers }, &mut buffer, 0), Ok(()));
    assert_eq!(buffer, record);
}

fn spoilt(place: usize, character: u8) -> Result<Link, u32> {
    let mut record = *EXAMPLE;
    record[place] = character;
    read(&record)
}

#[test]
fn reading_refuses_in_order() {
    assert_eq!(read(&EXAMPLE[..63]), Err(201));
    assert_eq!(read(&[&EXAMPLE[..], b" "].concat()), Err(201));
    assert_eq!(read(b""), Err(201));
    // 0070, and spaces from 48 on, those that 004 leaves undescribed too
    for fixed in [0, 1, 2, 3, 47, 52, 56, 57, 63] {
        for character in [b'9', b'0' + 1, b'\t', b'x'] {
            assert_eq!(spoilt(fixed, character), Err(202), "place {fixed}");
        }
    }
    assert_eq!(spoilt(47, b'0'), Err(202));
    for digit in 4..47 {
        for character in [b' ', b'/', b':', b'x', 0xb2] {
            assert_eq!(spoilt(digit, character), Err(203), "place {digit}");
        }
    }
    for mutation in 4..=9 {
        assert_eq!(spoilt(4, b'0' + mutation), Err(204));
    }
    let mut all = *EXAMPLE;
    (all[63], all[5], all[4]) = (b'x', b'x', b'9');
    assert_eq!(read(&all), Err(202));
    all[63] = b' ';
    assert_eq!(read(&all), Err(203));
    all[5] = b'0';
    assert_eq!(read(&all), Err(204));
    // A record of the other file.
    assert_eq!(read(b"073001850000001002162670000000200000002000303                   "), Err(202));
}

#[test]
fn writing_refuses_and_writes_nothing() {
    let numbers = [99_999_999, 99_999_999, 999_999, 99_999_999, 999_999, 999_999];
    let greatest = Link { mutation: 3, numbers };
    let refused = |link: Link, length: usize, place: usize| {
        let mut buffer = vec![b'x'; length];
        let result = write(&link, &mut buffer, place);
        assert!(buffer.iter().all(|c| *c == b'x'));
        result
    };
    let mut wide = vec![Link { mutation: 4, ..greatest }];
    for part in 0..6 {
        let mut link = greatest;
        link.numbers[part] += 1;
        wide.push(link);
    }
    for link in wide {
        assert_eq!(refused(link, 64, 0), Err(205));
        assert_eq!(refused(link, 0, 0), Err(205));
    }
    for (length, place) in [(63, 0), (64, 1), (64, 64), (64, 65), (64, usize::MAX), (0, 0)] {
        assert_eq!(refused(greatest, length, place), Err(206));
    }
    let mut buffer = [b'x'; 64];
    assert_eq!(write(&greatest, &mut buffer, 0), Ok(()));
    assert_eq!(&buffer, b"00703999999999999999999999999999999999999999999                 ");
    assert_eq!(read(&buffer), Ok(greatest));
}

#[test]
fn a_call_has_one_line() {
    let list = |stream: &[u8]| String::from_utf8(calls(stream)).expect("text");
    let numbers = |all: &[u32]| all.iter().flat_map(|number| number.to_le_bytes()).collect::<Vec<u8>>();
    let read = |text: &[u8]| [&numbers(&[70, 0, text.len() as u32]), text].concat();
    // The place has 64 bits, all others 32.
    let write = |buffer: &[u8], place: u64, mutation: u32, numbers_of: [u32; 6]| {
        let front = [numbers(&[70, 1, buffer.len() as u32]), place.to_le_bytes().to_vec(), numbers(&[mutation])];
        [front.concat(), numbers(&numbers_of), buffer.to_vec()].concat()
    };
    let row = ROWS_004[2].0;
    assert_eq!(list(&read(ROWS_004[2].1)), "0 0 709050 65919 1 111368 3 3\n");
    assert_eq!(list(&read(b"")), "201\n");
    assert_eq!(list(&read(&[b'0'; 64])), "202\n");
    let record: String = ROWS_004[2].1.iter().map(|c| format!("{c:02x}")).collect();
    assert_eq!(list(&write(&[0xab; 66], 1, 0, row)), format!("0 ab{record}ab\n"));
    assert_eq!(list(&write(&[10, 255], 0, 4, row)), "205 0aff\n");
    assert_eq!(list(&write(&[10, 255], 0, 0, [1 << 31; 6])), "205 0aff\n");
    assert_eq!(list(&write(&[10, 255], u64::MAX, 0, row)), "206 0aff\n");
    assert_eq!(list(&write(b"", 0, 0, row)), "206 \n");
    let two = [read(EXAMPLE), write(b"", 0, 4, row)].concat();
    assert_eq!(list(&two), "0 0 216267 5541 1 16004 1 1\n205 \n");
    assert_eq!(list(&two[..two.len() - 1]), "0 0 216267 5541 1 16004 1 1\nbroken\n");
    // The other file's record is refused.
    assert_eq!(list(&read(b"073001850000001002162670000000200000002000303                   ")), "202\n");
}
