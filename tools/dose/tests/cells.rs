//! Damaged, too wide and blank cells are refused with file, line and field.

mod common;
use common::{sample, Room, ENTRIES, TABLES};

const BLANK: [u8; 4] = [255; 4];
/// Places in a line of the entries.
const COUNT: usize = 12;
const MONTHS: usize = 20;
/// A whole row of 730 and of 070, which are empty in the sample.
const UNIT_ROW: &str = "SRTCDE,CODE,CDHOEV,CDEENH\n1,216267,20000,303\n";
const LINK_ROW: &str = "HPKODE,PRKODE,HPANPR,GPKODE,PRANGP,HPANGP\n216267,5541,1,16004,1,1\n";

fn whole(file: &str) -> String {
    match file {
        "730.csv" => UNIT_ROW.to_string(),
        "070.csv" => LINK_ROW.to_string(),
        _ => sample(file),
    }
}

/// The file with another cell in its first row, and the field of that cell.
fn with_cell(file: &str, place: usize, cell: &str) -> (String, String) {
    let whole = whole(file);
    let mut lines: Vec<String> = whole.lines().map(String::from).collect();
    let field = lines[0].split(',').nth(place).unwrap().to_string();
    let mut cells: Vec<&str> = lines[1].split(',').collect();
    cells[place] = cell;
    lines[1] = cells.join(",");
    (lines.join("\n") + "\n", field)
}

fn width(file: &str) -> usize {
    sample(file).lines().next().unwrap().split(',').count()
}

fn cell_refused(room: &Room, file: &str, place: usize, cell: &str, why: &str) {
    let (content, field) = with_cell(file, place, cell);
    room.write(file, content);
    room.refused(&[&format!("{file}, line 2, {field}: "), why]);
    room.write(file, whole(file));
}

/// The stream that the fake program hears with this cell.
fn heard_with(room: &Room, file: &str, place: usize, cell: &str) -> Vec<u8> {
    room.write(file, with_cell(file, place, cell).0);
    let ran = room.check(&[]);
    assert_eq!((ran.status, ran.complained.as_str()), (0, ""), "{file} {place} {cell}");
    room.write(file, whole(file));
    room.heard().unwrap()
}

#[test]
fn damaged_numbers_in_every_field() {
    let room = Room::new("damaged_numbers");
    for file in TABLES.into_iter().chain([ENTRIES]) {
        for place in usize::from(file == ENTRIES)..width(file) {
            let is_months = file == ENTRIES && place == MONTHS;
            let why = if is_months { "is neither on, off nor blank" } else { "`12x` is damaged" };
            cell_refused(&room, file, place, "12x", why);
        }
    }
}

#[test]
fn all_kinds_of_damage() {
    let room = Room::new("all_kinds_of_damage");
    let kinds =
        ["1.5", "-1", "+1", "1 000", "1.000", "\"1,000\"", "1_000", "1'000", "1e3", "0x10", "\"\"\"1\"", "٣"];
    for cell in kinds {
        cell_refused(&room, "640.csv", 0, cell, "is damaged");
    }
    cell_refused(&room, "640.csv", 0, "1\r", "`1\\r` is damaged");
    cell_refused(&room, ENTRIES, MONTHS, "1", "`1` is neither on, off nor blank");
}

#[test]
fn a_range_stands_in_count_alone() {
    let room = Room::new("a_range_stands_in_count_alone");
    for file in TABLES.into_iter().chain([ENTRIES]) {
        for place in usize::from(file == ENTRIES)..width(file) {
            let why = match (file, place) {
                (ENTRIES, COUNT) => continue,
                (ENTRIES, MONTHS) => "`1-3` is neither on, off nor blank",
                _ => "`1-3` is damaged: a whole number, in digits alone, must stand here",
            };
            cell_refused(&room, file, place, "1-3", why);
        }
    }
}

#[test]
fn numbers_that_do_not_fit() {
    let room = Room::new("numbers_that_do_not_fit");
    for file in TABLES.into_iter().chain([ENTRIES]) {
        for place in usize::from(file == ENTRIES)..width(file) {
            if file == ENTRIES && place == MONTHS {
                continue;
            }
            if file == "730.csv" && place == 2 {
                cell_refused(&room, file, place, "18446744073709551616", "does not fit 64 bits");
                continue;
            }
            cell_refused(&room, file, place, "4294967296", "4294967296 does not fit 32 bits");
            cell_refused(&room, file, place, "4294967295", "this number stands for a blank");
            cell_refused(&room, file, place, "99999999999999999999999", "does not fit 32 bits");
        }
    }
}

#[test]
fn what_fits_goes_to_the_check() {
    let room = Room::new("what_fits");
    room.write("730.csv", UNIT_ROW);
    let heard = heard_with(&room, ENTRIES, 4, "1801");
    assert_eq!(entry_number(&heard, 3), 1801u32.to_le_bytes());
    let heard = heard_with(&room, ENTRIES, 4, "4294967294");
    assert_eq!(entry_number(&heard, 3), 4294967294u32.to_le_bytes());
    let heard = heard_with(&room, ENTRIES, 1, "00103136");
    assert_eq!(entry_number(&heard, 0), 103136u32.to_le_bytes());
    let heard = heard_with(&room, "730.csv", 2, "18446744073709551615");
    let (before, after) = (&UNITS_BEFORE, &UNITS_AFTER);
    let row = [before.as_slice(), &[255; 8], after.as_slice()].concat();
    assert!(heard.windows(row.len()).any(|part| part == row));
}

const UNITS_BEFORE: [u8; 8] = [1, 0, 0, 0, 0xCB, 0x4C, 0x03, 0]; // 1, 216267
const UNITS_AFTER: [u8; 4] = [0x2F, 0x01, 0, 0]; // 303

/// A number of the first of the sample's 22 entries, which end the stream.
fn entry_number(heard: &[u8], place: usize) -> [u8; 4] {
    let start = heard.len() - 22 * 22 * 4 + place * 4;
    heard[start..start + 4].try_into().unwrap()
}

#[test]
fn a_blank_cell() {
    let room = Room::new("a_blank_cell");
    room.write("730.csv", UNIT_ROW);
    for file in TABLES {
        for place in 0..width(file) {
            cell_refused(&room, file, place, "", "the cell is blank");
        }
    }
    let may_be_blank = ["PRK", "HPK", "age", "sex", "weight", "surface", "months"];
    let header = sample(ENTRIES);
    for (place, field) in header.lines().next().unwrap().split(',').enumerate() {
        if may_be_blank.contains(&field) {
            for cell in ["", "  ", "\"\""] {
                assert_eq!(
                    entry_number(&heard_with(&room, ENTRIES, place, cell), place - 1),
                    BLANK,
                    "{field}"
                );
            }
        } else if field != "edition" {
            // an edition has a default (tests/edition_cells.rs)
            cell_refused(&room, ENTRIES, place, "", "the cell is blank");
        }
    }
}

#[test]
fn lines_that_are_not_rows() {
    let room = Room::new("lines_that_are_not_rows");
    room.write("640.csv", "GPKODE,GPDGST,GPRISC\n103136,3\n");
    room.refused(&["640.csv, line 2: 2 cells stand on this line and 3 in the header: it ends before GPRISC"]);
    room.write("640.csv", "GPKODE,GPDGST,GPRISC\n103136,3,0,\n");
    room.refused(&[
        "640.csv, line 2: 4 cells stand on this line and 3 in the header: nothing may stand after GPRISC",
    ]);
    room.write("640.csv", "GPKODE,GPDGST,GPRISC\n103,136,3,0\n");
    room.refused(&["640.csv, line 2: 4 cells stand on this line"]);
    room.write("640.csv", "GPKODE,GPDGST,GPRISC\n\n103136,3,0\n");
    room.refused(&["640.csv, line 2: the line is empty"]);
    room.write("640.csv", "GPKODE,GPDGST,GPRISC\n103136,\"3,0\n");
    room.refused(&["640.csv, line 2, GPDGST: a quote is opened and not closed on this line"]);
    room.write("640.csv", "GPKODE,GPDGST,GPRISC\n103136,\"3\"4,0\n");
    room.refused(&["640.csv, line 2, GPDGST: text stands after the closing quote"]);
    room.write("640.csv", b"GPKODE,GPDGST,GPRISC\n103136,3,\xE9\n");
    room.refused(&["640.csv, line 2: is not UTF-8 text"]);
}

#[test]
fn many_faults_are_counted() {
    let room = Room::new("many_faults");
    room.write("640.csv", "GPKODE,GPDGST,GPRISC\n".to_string() + &"x,3,0\n".repeat(25));
    room.refused(&["640.csv, line 21, GPKODE", "and 5 faults more"]);
}
