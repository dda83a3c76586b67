//! Document 02, P2, by hand: ranges over the proof table, and the list they are written into. And each place is what the
//! single check gives for that count.

use cases::generate::case::Case;
use cases::generate::counts::{at_count, count_case, CountCase};
use cases::generate::proof_ranges::{k_1_to_3, lines_over_bad_tables, over_bad_tables, ranges, K_1_TO_3, RANGES};
use cases::generate::proof_table::{k1, k_case, K};
use second::check::counts::check_counts;
use second::check::entry::COUNT;
use second::check::{Entry, Lent};
use second::stream::{answers::ANSWERS, counts::COUNTS, parts, run, Header, Program, HEADER};

fn lines(program: &Program, stream: &[u8]) -> Vec<String> {
    let mut out = vec![];
    run(program, stream, &mut out).expect("a slice is read and a vector written");
    String::from_utf8(out).expect("text").lines().map(str::to_string).collect()
}

#[test]
fn k1_to_k15_for_1_2_and_3() {
    let lines = lines(&COUNTS, &k_1_to_3().bytes());
    assert_eq!(lines.len(), 3 * K.len());
    for ((k, expected), answers) in K.iter().zip(K_1_TO_3).zip(lines.chunks(3)) {
        assert_eq!(answers, expected, "{}", k.0);
        // What document 01 has for its own count.
        let own = k.1.iter().find(|(place, _)| *place == COUNT).map_or(2, |(_, count)| *count);
        assert_eq!(answers[own as usize - 1], k.2.map(|number| number.to_string()).join(" "), "{}", k.0);
    }
}

#[test]
fn ranges_of_the_proof_table() {
    let mut lines = lines(&COUNTS, &ranges().bytes()).into_iter();
    for (name, _, _, expected) in RANGES {
        let answers: Vec<String> = lines.by_ref().take(expected.len()).collect();
        assert_eq!(answers, *expected, "{name}");
    }
    assert_eq!(lines.next(), None);
}

#[test]
fn refusals_of_the_range_stand_before_those_of_the_tables() {
    for number in [121, 122] {
        assert_eq!(lines(&COUNTS, &over_bad_tables(number).bytes()), lines_over_bad_tables(number));
    }
}

/// A list of `length` numbers, all 7, after the range was checked with it; and what was returned.
fn written(first: u32, last: u32, length: usize) -> (Result<usize, u32>, Vec<u32>) {
    let bytes = k_case().bytes();
    let header = Header::new(bytes.first_chunk().expect("a header"));
    let lent = Lent::new(parts(&header, &bytes[HEADER..]).0);
    let mut list = vec![7; length];
    let result = check_counts(&lent, &Entry::new(k1()), first, last, &mut list);
    (result, list)
}

#[test]
fn what_is_behind_the_last_answer_stays() {
    let answers = [[115, 24, 0, 1500, 33_784, 0, 0, 0, 0], [100, 0, 0, 1500, 33_784, 1, 0, 0, 0]].concat();
    for length in [18, 19, 26, 27, 28, 512] {
        let (result, list) = written(1, 2, length);
        assert_eq!((result, &list[..18]), (Ok(2), &answers[..]));
        assert!(list[18..].iter().all(|number| *number == 7), "{length}");
    }
}

#[test]
fn a_refusal_writes_nothing() {
    for (first, last, length, refusal) in [
        (2, 1, 64, 131),
        (1, 17, 512, 131),
        (0, u32::MAX, 512, 131),
        (1, 2, 17, 132),
        (1, 2, 16, 132),
        (1, 2, 9, 132),
        (1, 1, 8, 132),
    ] {
        assert_eq!(written(first, last, length), (Err(refusal), vec![7; length]), "{first} to {last}");
    }
}

/// The entries with each count of their ranges, of those that are not refused.
fn one_by_one(case: &CountCase) -> Case {
    let mut single = Case { tables: case.case.tables.clone(), entries: vec![] };
    for (entry, range) in case.case.entries.iter().zip(&case.ranges) {
        let answered = (1..=16).contains(&range.counts()) && range.counts() <= range.places as u64;
        for count in (range.first..=range.last).take_while(|_| answered) {
            single.entries.push(at_count(*entry, count));
        }
    }
    single
}

#[test]
fn each_place_is_the_single_check_for_its_count() {
    let mut answers = 0;
    for number in 0..3_000 {
        let case = count_case(6, number);
        let mut ranges = lines(&COUNTS, &case.bytes());
        let refused = |line: &String| line == "131" || line == "132";
        ranges.retain(|line| !refused(line));
        assert!(ranges == lines(&ANSWERS, &one_by_one(&case).bytes()), "case {number}");
        answers += ranges.len();
    }
    assert!(answers > 40_000, "{answers}");
}
