//! Whole and damaged streams of cases, and unit files: where a stream may end, and how long a case may be.

use super::{edges_calls, edges_counts, program};
use crate::generate::case::Case;
use crate::generate::proof_table::{k1, tables};
use second::check::Table;
use second::stream::{CASE_MOST, ENTRY, HEADER};

const ANSWER: &str = "100 0 0 1500 33784 1 0 0 0\n";
pub const BROKEN: &str = "broken\n";

/// A name, a stream, and the output it must give.
pub type Edge = (String, Vec<u8>, String);

/// Streams of cases.
pub fn streams() -> Vec<Edge> {
    let mut case = tables();
    case.entries = vec![k1()];
    let whole = case.bytes();
    let mut all = vec![
        ("empty".to_string(), vec![], String::new()),
        ("no rows and no entries".to_string(), vec![0; HEADER], String::new()),
        ("two cases".to_string(), [&whole[..], &whole].concat(), ANSWER.repeat(2)),
    ];
    for end in cuts(whole.len()) {
        all.push((format!("cut after {end} bytes"), whole[..end].to_vec(), BROKEN.to_string()));
        let behind = [&whole[..], &whole[..end]].concat();
        all.push((format!("cut {end} bytes into the second case"), behind, ANSWER.to_string() + BROKEN));
    }
    all.extend(sizes(&case, &whole));
    all
}

/// In the front, before and behind it; before the entry; and inside, before and behind each of its last two numbers.
fn cuts(whole: usize) -> impl Iterator<Item = usize> {
    let back = [ENTRY, 9, 8, 7, 5, 4, 3, 1];
    [1, HEADER - 1, HEADER, HEADER + 1].into_iter().chain(back.map(|left| whole - left))
}

/// The 4 MiB count the header, all tables and the entries.
fn sizes(case: &Case, whole: &[u8]) -> Vec<Edge> {
    let mut all: Vec<Edge> = vec![];
    let room = CASE_MOST as usize - whole.len();
    for table in [Table::T730, Table::T70] {
        let (mut case, number) = (case.clone(), table.number());
        case.rows(table).tail = vec![7; room];
        all.push((
            format!("a case of 4 MiB, most of it {number}"),
            [&case.bytes()[..], whole].concat(),
            format!("121 0 {number} 0 0 0 0 0 0\n{ANSWER}"),
        ));
        case.rows(table).tail.push(7);
        all.push((
            format!("a case of 4 MiB and one byte, most of it {number}"),
            [whole, &case.bytes()].concat(),
            ANSWER.to_string() + BROKEN,
        ));
    }
    for place in 0..HEADER / 4 {
        let mut header = vec![0; HEADER];
        header[4 * place..4 * place + 4].fill(255);
        all.push((format!("greatest number at place {place} of the header"), header, BROKEN.to_string()));
    }
    // 48,806,447 entries of 88 bytes are 2^32 + 40 bytes: short where the size is reckoned in 32 bits.
    let mut header = [0; HEADER];
    header[HEADER - 4..].copy_from_slice(&48_806_447u32.to_le_bytes());
    all.push(("entries of more than 4 GiB".to_string(), [&header[..], &[0; 40]].concat(), BROKEN.to_string()));
    all
}

const RECORD: &[u8; 64] = b"073001850000001002162670000000200000002000303                   ";
const UNIT_LINE: &str = "1 216267 20.000 303\n";
const REFUSED: &str = "refused 201\n";

/// Unit files: CR LF ends a record, the last one may lack it, and nothing else ends one.
pub fn unit_files() -> Vec<Edge> {
    let mut all: Vec<Edge> = vec![];
    let mut add = |name: &str, file: &[&[u8]], lines: &[&str]| {
        all.push((name.to_string(), file.concat(), lines.concat()));
    };
    add("empty", &[], &[]);
    add("a record without CR LF", &[RECORD], &[UNIT_LINE]);
    add("a record", &[RECORD, b"\r\n"], &[UNIT_LINE]);
    add("two records, the last without CR LF", &[RECORD, b"\r\n", RECORD], &[UNIT_LINE, UNIT_LINE]);
    add("two records", &[RECORD, b"\r\n", RECORD, b"\r\n"], &[UNIT_LINE, UNIT_LINE]);
    add("CR LF", &[b"\r\n"], &[REFUSED]);
    add("CR LF twice", &[b"\r\n\r\n"], &[REFUSED, REFUSED]);
    add("a record and CR LF twice", &[RECORD, b"\r\n\r\n"], &[UNIT_LINE, REFUSED]);
    add("CR LF and a record", &[b"\r\n", RECORD], &[REFUSED, UNIT_LINE]);
    for (name, end) in [("CR", &b"\r"[..]), ("LF", b"\n"), ("LF CR", b"\n\r"), ("CR CR", b"\r\r")] {
        add(name, &[end], &[REFUSED]);
        add(&format!("a record and {name}"), &[RECORD, end], &[REFUSED]);
        add(&format!("{name} between records"), &[RECORD, end, RECORD], &[REFUSED]);
        add(&format!("{name} before CR LF"), &[RECORD, end, b"\r\n", RECORD], &[REFUSED, UNIT_LINE]);
        add(&format!("{name} before the last record"), &[RECORD, b"\r\n", end, RECORD], &[UNIT_LINE, REFUSED]);
        add(&format!("{name} as the last record"), &[RECORD, b"\r\n", end], &[UNIT_LINE, REFUSED]);
    }
    for end in [1, 32, 63] {
        add(&format!("cut after {end} characters"), &[RECORD, b"\r\n", &RECORD[..end]], &[UNIT_LINE, REFUSED]);
    }
    add("a record of 10,000 characters", &[&[b' '; 10_000], b"\r\n", RECORD], &[REFUSED, UNIT_LINE]);
    all
}

/// The whole and damaged inputs of a command of the second program.
pub fn inputs(of: &str) -> Option<Vec<Edge>> {
    match of {
        "answers" => Some(streams()),
        "counts" => Some(edges_counts::streams()),
        "units" => Some(unit_files()),
        "calls" => Some(edges_calls::streams()),
        _ => None,
    }
}

/// The number of streams, or the first that differs.
pub fn run(of: &str, streams: &[Edge]) -> Result<usize, String> {
    for (name, stream, expected) in streams {
        let out = program::output(of, stream)?;
        let text = String::from_utf8_lossy(&out.bytes);
        if text != *expected {
            return Err(format!("{of}: {name}: gave {text:?}, expected {expected:?}"));
        }
        out.ended.map_err(|ended| format!("{ended}: {name}"))?;
    }
    Ok(streams.len())
}
