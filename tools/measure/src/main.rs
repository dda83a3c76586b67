//! What tools/measure-check, tools/measure-counts, tools/measure-quiet and tools/measure-before-after measure with.

mod counts;
mod large;
mod processor;
mod quiet;

use cases::generate::case::Case;
use second::stream::{Header, HEADER};
use std::hint::black_box;
use std::io::{self, Read, Write};
use std::process::ExitCode;
use std::time::Instant;

const HELP: &str = "measure case sorted|spread ENTRIES   the large case on standard output
measure case sorted|spread ENTRIES FIELDS TABLES
                                     the same for a version whose entries have so many fields, with 21 quiet on,
                                     with 22 edition 2 behind it, and which has so many tables: 20 fields before
                                     P4, 21 before P7, six tables before P5
measure refused sorted|spread ENTRIES FIELDS TABLES
                                     the same with entries that are all out of range (125)
measure hpk sorted|spread ENTRIES    the same with quiet on, PRK and GPK filled by an HPK of a table 70 of 20,000 rows
measure range sorted|spread          the large tables and one entry with the counts 1 to 16, for counts
measure each sorted|spread           the same counts as the entries of one case, for answers
measure single sorted|spread COUNT   one of them as the only entry of a case
measure quiet sorted|spread ENTRIES on|off
                                     a category of 512 rows per day on a full table 649, and entries that it misses
measure read TIMES                   nanoseconds of one reading of the tables of the case on standard input
measure processor INPUT OUTPUT PROGRAM
                                     microseconds of the processor for a run of the program";

fn main() -> ExitCode {
    let words: Vec<String> = std::env::args().skip(1).collect();
    let words: Vec<&str> = words.iter().map(String::as_str).collect();
    let number = |word: &str| word.parse().unwrap_or(1);
    match words[..] {
        ["case", order, entries] => put(&large(order, number(entries)).bytes()),
        ["case", order, entries, fields, tables] => put(&for_version(large(order, number(entries)), fields, tables)),
        ["refused", order, entries, fields, tables] => {
            put(&for_version(large::refused(large(order, number(entries))), fields, tables))
        }
        ["hpk", order, entries] => put(&quiet::on(large::by_hpk(order, number(entries))).bytes()),
        ["quiet", order, entries, setting] => put(&quiet::category(order, number(entries), setting).bytes()),
        ["range", order] => put(&counts::range(large(order, SOME)).bytes()),
        ["each", order] => put(&counts::each(large(order, SOME)).bytes()),
        ["single", order, count] => put(&counts::single(large(order, SOME), number(count)).bytes()),
        ["read", times] => put(format!("{}\n", read(number(times))).as_bytes()),
        ["processor", input, output, program] => match processor::microseconds(input, output, program) {
            Ok(took) => put(format!("{took}\n").as_bytes()),
            Err(error) => {
                eprintln!("measure: {error}");
                ExitCode::FAILURE
            }
        },
        _ => {
            eprintln!("{HELP}");
            ExitCode::FAILURE
        }
    }
}

/// As many entries as it takes to come to one whose rows stand in the middle of the tables.
const SOME: u32 = 1_000;

fn large(order: &str, entries: u32) -> Case {
    match order {
        "sorted" => large::sorted(entries),
        "spread" => large::spread(entries),
        _ => panic!("{order}: sorted or spread"),
    }
}

fn for_version(case: Case, fields: &str, tables: &str) -> Vec<u8> {
    match (fields, tables) {
        ("20" | "21" | "22", "6" | "7") => {
            let number = |word: &str| word.parse().expect("a number");
            large::bytes_for(&quiet::on(case), number(fields), number(tables))
        }
        _ => panic!("{fields} fields and {tables} tables: 20 to 22, 6 or 7"),
    }
}

fn put(bytes: &[u8]) -> ExitCode {
    match io::stdout().write_all(bytes) {
        Ok(()) => ExitCode::SUCCESS,
        Err(_) => ExitCode::FAILURE,
    }
}

/// The tables' bytes, read once as words and added up: no check can do with less than that.
fn read(times: u32) -> u128 {
    let mut bytes = Vec::new();
    io::stdin().read_to_end(&mut bytes).expect("standard input");
    let header = Header::new(bytes.first_chunk().expect("a case"));
    let tables = &bytes[HEADER..HEADER + header.tables.iter().sum::<u64>() as usize];
    let word = |bytes: &[u8]| u32::from_le_bytes(bytes.try_into().expect("four bytes"));
    let from = Instant::now();
    for _ in 0..times {
        black_box(black_box(tables).chunks_exact(4).fold(0u32, |sum, bytes| sum.wrapping_add(word(bytes))));
    }
    from.elapsed().as_nanos() / u128::from(times)
}
