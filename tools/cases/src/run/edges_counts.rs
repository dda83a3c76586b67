//! Whole and damaged streams of cases of ranges.

use super::edges::{Edge, BROKEN};
use crate::generate::counts::{CountCase, Range};
use crate::generate::proof_table::{k1, tables};
use second::check::Table;
use second::stream::counts::ENTRY_AND_RANGE;
use second::stream::{CASE_MOST, HEADER};

/// K1 for 1, 2 and 3.
const ANSWERS: &str = "115 24 0 1500 33784 0 0 0 0\n100 0 0 1500 33784 1 0 0 0\n115 24 0 1500 33784 0 0 0 0\n";
/// Numbers that are few, or at most 64, in 8 or 16 bits, and the greatest.
const FAR: [u32; 7] = [66, 128, 256, 256 + 3, 65_536, 65_536 + 3, u32::MAX];

fn with(ranges: &[[u32; 3]]) -> CountCase {
    let mut case = tables();
    case.entries = vec![k1(); ranges.len()];
    CountCase { case, ranges: ranges.iter().map(|[first, last, places]| range(*first, *last, *places)).collect() }
}

fn range(first: u32, last: u32, places: u32) -> Range {
    Range { first, last, places }
}

fn edge(name: &str, stream: &[&[u8]], lines: &[&str]) -> Edge {
    (name.to_string(), stream.concat(), lines.concat())
}

pub fn streams() -> Vec<Edge> {
    let whole = with(&[[1, 3, 3]]).bytes();
    let mut all = vec![
        edge("empty", &[], &[]),
        edge("no rows and no entries", &[&[0; HEADER]], &[]),
        edge("no entries", &[&with(&[]).bytes(), &whole], &[ANSWERS]),
        edge("two cases", &[&whole, &whole], &[ANSWERS, ANSWERS]),
        edge(
            "refusals between",
            &[&with(&[[1, 3, 3], [3, 1, 3], [1, 3, 2], [1, 3, 3]]).bytes()],
            &[ANSWERS, "131\n", "132\n", ANSWERS],
        ),
        edge(
            "a list of one entry is not the next one's",
            &[&with(&[[1, 3, 64], [1, 3, 0]]).bytes()],
            &[ANSWERS, "132\n"],
        ),
    ];
    all.extend(cuts(&whole));
    all.extend(places(&whole));
    all.extend(sizes(&whole));
    all
}

/// Cut in the front, before, inside and behind the entry's 22 numbers; inside and behind each of the last two of them and
/// of the three that follow.
fn cuts(whole: &[u8]) -> Vec<Edge> {
    let front = [1, HEADER - 1, HEADER, HEADER + 1];
    let back = [ENTRY_AND_RANGE, ENTRY_AND_RANGE - 1, 21, 20, 19, 17, 16, 15, 13, 12, 11, 9, 8, 7, 5, 4, 3, 1];
    let ends = front.into_iter().chain(back.map(|left| whole.len() - left));
    let of = |end: usize| {
        [
            edge(&format!("cut after {end} bytes"), &[&whole[..end]], &[BROKEN]),
            edge(&format!("cut {end} bytes into the second case"), &[whole, &whole[..end]], &[ANSWERS, BROKEN]),
        ]
    };
    ends.flat_map(of).collect()
}

/// 64 places pass, 65 break the case wherever they stand, and it has no line of its own.
fn places(whole: &[u8]) -> Vec<Edge> {
    let (good, long) = ([1, 3, 3], [1, 3, 65]);
    let mut all = vec![edge("64 places", &[&with(&[[1, 3, 64], [1, 3, 63]]).bytes(), whole], &[ANSWERS; 3])];
    let mut broken = |name: &str, ranges: &[[u32; 3]]| {
        all.push(edge(name, &[whole, &with(ranges).bytes(), whole], &[ANSWERS, BROKEN]));
    };
    broken("65 places", &[long]);
    broken("65 places for no range", &[[3, 1, 65]]);
    broken("65 places for 17 counts", &[[1, 17, 65]]);
    broken("65 places first", &[long, good, good]);
    broken("65 places second", &[good, long, good]);
    broken("65 places last", &[good, good, long]);
    broken("65 places first, refusals behind", &[long, [3, 1, 0], [1, 3, 0]]);
    broken("65 places last, behind refusals", &[[3, 1, 0], [1, 3, 0], long]);
    for number in FAR {
        broken(&format!("{number} places"), &[[1, 3, number]]);
        broken(&format!("{number} places last"), &[good, [1, 3, number]]);
    }
    all
}

/// The 4 MiB count the header, the tables, the entries and the numbers behind them.
fn sizes(whole: &[u8]) -> Vec<Edge> {
    let mut case = with(&[[1, 3, 3], [3, 1, 3]]);
    let room = CASE_MOST as usize - case.bytes().len();
    let mut all = vec![];
    for table in [Table::T730, Table::T70] {
        let number = table.number();
        case.case.rows(table).tail = vec![7; room];
        let misshapen = format!("121 0 {number} 0 0 0 0 0 0\n").repeat(3) + "131\n";
        let name = format!("a case of 4 MiB, most of it {number}");
        all.push(edge(&name, &[&case.bytes(), whole], &[&misshapen, ANSWERS]));
        case.case.rows(table).tail.push(7);
        all.push(edge(&format!("{name}, and one byte"), &[whole, &case.bytes()], &[ANSWERS, BROKEN]));
        case.case.rows(table).tail.clear();
    }
    let most = (CASE_MOST as usize - HEADER) / ENTRY_AND_RANGE;
    let entries = |count: usize| {
        let mut case = with(&vec![[3, 1, 0]; count]);
        case.case.tables.iter_mut().for_each(|rows| rows.cells.clear());
        case.bytes()
    };
    all.push(edge(&format!("{most} entries"), &[&entries(most), whole], &[&"131\n".repeat(most), ANSWERS]));
    all.push(edge(&format!("{} entries", most + 1), &[whole, &entries(most + 1)], &[ANSWERS, BROKEN]));
    for place in 0..HEADER / 4 {
        let mut header = vec![0; HEADER];
        header[4 * place..4 * place + 4].fill(255);
        all.push(edge(&format!("greatest number at place {place} of the header"), &[&header], &[BROKEN]));
    }
    // 42,949,673 entries of 100 bytes are 2^32 + 4 bytes: short where the size is reckoned in 32 bits.
    let mut header = [0; HEADER];
    header[HEADER - 4..].copy_from_slice(&42_949_673u32.to_le_bytes());
    all.push(edge("entries of more than 4 GiB", &[&header, &[0; 4]], &[BROKEN]));
    all
}
