//! Document 02, P1, by hand: for each value on a bound or beside it, the row that fits.

use cases::generate::joints::{each, Bounded, KEY};
use cases::run::answers_of;
use second::check::entry::{BLANK, COUNT};

/// For each count, values and the row that fits: rows 1 to 3 meet, row 4 has equal bounds, row 5 goes from 999,999 to
/// 999,999, rows 6 and 7 overlap, and between rows 8 and 9 is a hole.
const AGE: [&str; 5] = [
    // Rows 1 to 3: up to 6 years, up to 20 years, and older.
    "0:1 1:1 71:1 72:2 73:2 239:2 240:3 241:3 998:3 999:3 1000:3",
    "71:none 72:4 73:none blank:asked",
    "998:none 999:none 1000:5 blank:asked",
    "0:6 1:6 71:6 72:several 73:several 239:several 240:7 241:7 998:7 999:7 1000:7",
    "0:8 1:8 71:8 72:none 73:none 239:none 240:9 241:9 998:9 999:9 1000:none",
];
const WEIGHT: [&str; 5] = [
    // Rows 1 to 3: up to 3 kg, up to 80 kg, and more.
    "1:1 2999:1 3000:2 3001:2 79999:2 80000:3 80001:3 999998:3 999999:3",
    "2999:none 3000:4 3001:none blank:asked",
    "999998:none 999999:5 blank:asked",
    "1:6 2999:6 3000:several 3001:several 79999:several 80000:7 80001:7 999998:7 999999:7",
    "1:8 2999:8 3000:none 3001:none 79999:none 80000:9 80001:9 999997:9 999998:none 999999:none",
];
const SURFACE: [&str; 5] = [
    // Rows 1 to 3: up to 0.5 m2, up to 9.998 m2, and more.
    "1:1 499:1 500:2 501:2 9997:2 9998:3 9999:3",
    "499:none 500:4 501:none blank:asked",
    "9999:none blank:asked",
    "1:6 499:6 500:several 501:several 9997:several 9998:7 9999:7",
    "1:8 499:8 500:none 501:none 9997:none 9998:9 9999:9",
];

/// The nine numbers; K stands for the basis and the category. Rows of other counts are there for every age, so that an
/// age without a row lacks the count.
fn numbers(of: Bounded, gets: &str) -> String {
    let numbers = match (gets, of) {
        ("none", Bounded::Age) => "115 24 0 K K 0 0 0 0",
        ("none", Bounded::Weight) => "118 14 0 K K 0 0 0 0",
        ("none", Bounded::Surface) => "119 15 0 K K 0 0 0 0",
        ("several", _) => "123 0 643 K K 0 0 0 0",
        ("asked", Bounded::Age) => "101 12 0 0 0 0 0 0 0",
        ("asked", Bounded::Weight) => "105 10 0 K K 0 0 0 0",
        ("asked", Bounded::Surface) => "106 11 0 K K 0 0 0 0",
        (row, _) => &format!("100 0 0 K K {} 0 0 0", KEY + row.parse::<u64>().expect("a row")),
    };
    numbers.replace('K', &KEY.to_string())
}

#[test]
fn a_row_fits_from_its_low_bound_to_below_its_high_bound() {
    for (of, lists) in Bounded::ALL.into_iter().zip([AGE, WEIGHT, SURFACE]) {
        let case = each(of);
        let answers = answers_of(&case);
        let mut given = case.entries.iter().zip(answers);
        for (count, list) in (1..).zip(lists) {
            for (value, gets) in list.split(' ').map(|pair| pair.split_once(':').expect("a value and what it gets")) {
                let (entry, answer) = given.next().expect("an entry for each value");
                let value = value.parse().unwrap_or(BLANK);
                assert_eq!((entry[COUNT], entry[of.place()]), (count, value), "{of:?}");
                let line = answer.numbers.map(|number| number.to_string()).join(" ");
                assert_eq!(line, numbers(of, gets), "{of:?}, count {count}, {value}");
            }
        }
        assert!(given.next().is_none(), "{of:?}");
    }
}
