//! A range of counts as it is written: a damaged one is refused with file, line and field, and what can be read goes
//! to the program, also where it must be refused there.

mod common;
use common::{k1_with, Room, ENTRIES};

const PLACES: u32 = 16;

#[test]
fn damaged_ranges() {
    let room = Room::new("damaged_ranges");
    let kinds = [
        "1-",
        "-3",
        "-",
        "--",
        "1--3",
        "1-3-5",
        "1-3-",
        "-1-3",
        "a-3",
        "1-b",
        "1-3x",
        "1 - 3",
        "1- 3",
        "1 -3",
        "+1-3",
        "1-+3",
        "1.0-3",
        "1-1.5",
        "1-1e1",
        "0x1-3",
        "1..3",
        "1/3",
        "1:3",
        "1 to 3",
        "1–3",
        "1—3",
        "1−3",
        "1-Mar",
        "٣-٤",
        "1x-3",
        "2026-01-03",
    ];
    for kind in kinds {
        room.write(ENTRIES, k1_with(&[("K1", "2"), ("K1", "1-3"), ("K1", kind)]));
        let why = "is damaged: a whole number, in digits alone, or a range of two, as 1-3, must stand here";
        room.refused(&[&format!("{ENTRIES}, line 4, count: `{kind}` {why}")]);
    }
    room.write(ENTRIES, k1_with(&[("K1", "\"1-3,5\"")]));
    room.refused(&[&format!("{ENTRIES}, line 2, count: `1-3,5` is damaged")]);
}

#[test]
fn counts_that_do_not_fit() {
    let room = Room::new("counts_that_do_not_fit");
    let too_wide = ["4294967296-1", "1-4294967296", "4294967296-4294967296"];
    let blank = ["4294967295-1", "1-4294967295"];
    for (ranges, why) in [
        (&too_wide[..], "4294967296 does not fit 32 bits"),
        (&blank[..], "4294967295 cannot be given: this number stands for a blank"),
        (&["1-99999999999999999999999"][..], "99999999999999999999999 does not fit 32 bits"),
    ] {
        for range in ranges {
            room.write(ENTRIES, k1_with(&[("K1", range)]));
            room.refused(&[&format!("{ENTRIES}, line 2, count: {why}")]);
        }
    }
}

/// The count, first, last and places that `counts` hears of one entry with this count.
fn heard_of(room: &Room, count: &str, says: &str) -> [u32; 4] {
    room.write(ENTRIES, k1_with(&[("K1", count)]));
    room.counts_says(says);
    let ran = room.check(&[]);
    assert_eq!((ran.status, ran.complained.as_str()), (0, ""), "{count}");
    assert!(room.heard().is_none(), "{count}: a range went to the program of single counts");
    let heard = room.counts_heard().unwrap();
    let entry = &heard[heard.len() - 25 * 4..];
    [11, 22, 23, 24].map(|place| u32::from_le_bytes(entry[4 * place..4 * place + 4].try_into().unwrap()))
}

#[test]
fn what_can_be_read_goes_to_the_program() {
    let room = Room::new("ranges_that_can_be_read");
    let out_of_range = "125 0 0 0 0 0 0 0 0\n";
    let top = u32::MAX - 1;
    let ranges = [
        ("1-3".to_string(), 1, 3, 3),
        ("2-2".to_string(), 2, 2, 1),
        ("\"1-3\"".to_string(), 1, 3, 3),
        (" \t1-3  ".to_string(), 1, 3, 3),
        ("01-0003".to_string(), 1, 3, 3),
        ("0-0".to_string(), 0, 0, 1),
        ("0-15".to_string(), 0, 15, 16),
        ("998-1000".to_string(), 998, 1000, 3),
        (format!("{}-{top}", top - 15), top - 15, top, 16),
    ];
    for (cell, first, last, counts) in ranges {
        assert_eq!(
            heard_of(&room, &cell, &out_of_range.repeat(counts)),
            [first, first, last, PLACES],
            "{cell}"
        );
    }
    for (first, last) in
        [(3, 1), (1, 17), (1, 0), (0, 16), (top, 0), (0, top), (top - 16, top), (top, top - 1)]
    {
        let cell = format!("{first}-{last}");
        assert_eq!(heard_of(&room, &cell, "131\n"), [first, first, last, PLACES], "{cell}");
    }
}
