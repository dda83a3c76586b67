//! Document 02, P5, by hand: what an HPK brings, over document 004's products and over the proof table, in the single
//! check and in a range; and what it changes.

mod common;

use cases::generate;
use cases::generate::case::{Case, Numbers};
use cases::generate::hpk::{asked, bad, bad_ranges, both_bad, each, ranges, rows_of, Bad};
use cases::generate::order::{fall_as, sort, Order};
use cases::generate::proof_ranges::{hpk_1_to_3, k_1_to_3_with_table_70, HPK_1_TO_3, K_1_TO_3};
use cases::generate::proof_table::{with_table_70, HPK_K, K};
use cases::run::cover::Seen;
use cases::run::hpk::{self, Brought};
use cases::run::{after_filling, answers_of, store, store_counts};
use common::{coverage, written};
use second::check::entry::{BLANK, GPK, HPK, PRK};
use second::check::{Filling, Table, NUMBERS};
use second::stream::{answers::ANSWERS, counts::COUNTS};

/// What each entry gets over document 004's products: r and a rule, or an answer, behind a point the basis, which is
/// the category too.
const GETS: [(&str, &str); 79] = [
    // 004: HPK 216267 is PRK 5541 and GPK 16004, which has the base level alone
    ("216267 brings both", "r1"),
    ("216267 brings the GPK", "r1"),
    ("216267 brings the PRK", "r1"),
    ("216267 brings nothing", "r1"),
    // 004: HPK 1709925 is PRK 76686 and GPK 122858; the PRK has a row
    ("1709925 brings both", "r2"),
    ("1709925 brings the GPK", "r2"),
    ("1709925 brings the PRK", "r2"),
    ("1709925 brings nothing", "r2"),
    // a PRK brings nothing, nor does a GPK
    ("HPK blank, GPK alone", "104"),
    ("HPK blank, PRK and GPK", "r2"),
    ("HPK blank, PRK alone", "110"),
    ("all blank", "110"),
    // without an HPK nothing is compared; the PRK has no row, so the base level
    ("HPK blank, a PRK and a GPK that no row has together", "r3"),
    ("no row, HPK alone", "110"),
    ("no row, GPK", "104"),
    ("no row, PRK", "110"),
    ("no row, both", "r2"),
    ("no row: a PRK is no HPK", "110"),
    ("no row: a GPK is no HPK", "110"),
    ("no row: alike in 16 bits", "110"),
    ("another PRK", "133"),
    ("another PRK, GPK 0", "133"),
    ("another GPK", "133"),
    ("another GPK, PRK blank", "133"),
    ("another PRK and another GPK", "133"),
    ("another product, its own PRK and GPK", "133"),
    ("the GPK as PRK", "133"),
    ("the PRK as GPK", "133"),
    ("the HPK as PRK", "133"),
    ("the count as PRK", "133"),
    ("the count as GPK", "133"),
    ("a PRK alike in 16 bits", "133"),
    ("a GPK alike in 16 bits", "133"),
    // 004 prints PRK 79308 in file 730, and 79803 in file 070, which decides
    ("the PRK that file 730 prints", "133"),
    ("1927043, sex blank", "102"),
    ("1927043, sex 1", "112"),
    // PRK 79803 has no row: the base level, which has no setting
    ("1927043, sex 2", "113.8"),
    ("GPK 124575, PRK 79308, sex 2", "r7"),
    ("709050: the HPK has a row in 641", "r4"),
    ("GPK 111368, HPK blank", "103"),
    // none of the HPK's rows in 641 is this one: the PRK that it brings
    ("another HPK of PRK 65919", "124.5"),
    ("an HPK of PRK 65920", "r6"),
    ("the same, surface blank", "106.6"),
    ("the same, surface 1,500", "119.6"),
    ("an HPK of PRK 76687", "r3"),
    ("the same, weight blank", "105.3"),
    ("the same, weight 80,000", "118.3"),
    ("551805: no level", "124"),
    ("HPK 1: the greatest codes", "111"),
    ("HPK 99,999,999: PRK 1", "r1"),
    // several, even where they agree, and before 133
    ("the same row twice", "123"),
    ("the same row twice, what it says is given", "123"),
    ("the same row twice, another PRK", "123"),
    ("the same row twice, another GPK", "123"),
    ("two rows of other counts", "123"),
    ("two rows of other PRKs", "123"),
    ("two rows of other PRKs, the first is given", "123"),
    ("two rows of other PRKs, the last is given", "123"),
    ("two rows of other GPKs, the first is given", "123"),
    ("two rows of other GPKs, the last is given", "123"),
    ("three rows", "123"),
    ("three rows, another PRK and another GPK", "123"),
    ("age blank", "101"),
    // 40 drops are 2 millilitres, which equals the norm maximum
    ("2 to 40 drops, of which 20 are a millilitre", "r1"),
    // both tests stand before step 2
    ("no unit", "126"),
    ("no unit, another PRK", "133"),
    ("no unit, another GPK", "133"),
    ("no unit, several rows", "123"),
    ("no unit, no row", "126"),
    // 125 is of the entry as it was entered, and stands before
    ("HPK 0", "125"),
    ("PRK 0", "125"),
    ("GPK 100,000,000", "125"),
    ("another PRK, age 1,801", "125"),
    ("several rows, care group 4", "125"),
    ("for 3", "115.1"),
    // 3 times 1,000 is below twice 2,000
    ("for 3 quietly", "S.1"),
    ("for 3 quietly, another PRK", "133"),
    ("for 3 quietly, weight blank", "105.3"),
    ("for 3 quietly, surface blank", "106.6"),
];

/// For 1 to 3.
const GETS_IN_RANGE: [(&str, &str); 13] = [
    ("216267 brings both", "115.1 r1 115.1"),
    ("1709925 brings the GPK", "115.2 r2 115.2"),
    ("1709925 brings the PRK", "115.2 r2 115.2"),
    ("1709925 brings nothing", "115.2 r2 115.2"),
    ("HPK blank, GPK alone", "104 104 104"),
    ("no row, GPK", "104 104 104"),
    ("no row, PRK", "110 110 110"),
    ("another PRK, GPK 0", "133 133 133"),
    ("another GPK, PRK blank", "133 133 133"),
    ("another PRK and another GPK", "133 133 133"),
    ("the same row twice", "123 123 123"),
    ("709050: the HPK has a row in 641", "115.4 r4 115.4"),
    ("for 3 quietly", "S.1 r1 S.1"),
];

/// The first of them, one that differs and one of several rows: for 2 to 3, 0 to 2, 2, 3 to 2, and for 1 to 3 with two
/// places.
const OTHER_RANGES: [[&str; 3]; 5] = [
    ["r1 115.1", "133 133", "123 123"],
    ["125 115.1 r1", "125 133 133", "125 123 123"],
    ["r1", "133", "123"],
    ["131", "131", "131"],
    ["132", "132", "132"],
];

/// The nine numbers; B stands for what is behind the point or the r.
fn line(gets: &str) -> String {
    let (answer, basis) = match gets.strip_prefix('r') {
        Some(rule) => ("r", rule),
        None => gets.split_once('.').unwrap_or((gets, "0")),
    };
    let numbers = match answer {
        "r" => "100 0 0 B B B 0 0 0",
        "S" => "100 0 0 B B 0 0 0 115",
        "101" => "101 12 0 0 0 0 0 0 0",
        "102" => "102 7 0 0 0 0 0 0 0",
        "103" => "103 16 0 0 0 0 0 0 0",
        "104" => "104 16 0 0 0 0 0 0 0",
        "105" => "105 10 0 B B 0 0 0 0",
        "106" => "106 11 0 B B 0 0 0 0",
        "110" => "110 0 0 0 0 0 0 0 0",
        "111" => "111 16 0 0 0 0 0 0 0",
        "112" => "112 7 0 0 0 0 0 0 0",
        "113" => "113 0 0 B 0 0 0 0 0",
        "115" => "115 24 0 B B 0 0 0 0",
        "118" => "118 14 0 B B 0 0 0 0",
        "119" => "119 15 0 B B 0 0 0 0",
        "123" => "123 0 70 0 0 0 0 0 0",
        "124" if basis == "0" => "124 0 641 0 0 0 0 0 0",
        "124" => "124 0 649 B B B 0 0 0",
        "125" => "125 0 0 0 0 0 0 0 0",
        "126" => "126 0 730 0 0 0 0 0 0",
        "133" => "133 0 0 0 0 0 0 0 0",
        refusal => refusal,
    };
    numbers.replace('B', basis)
}

fn lines_of(gets: &str) -> Vec<String> {
    gets.split(' ').map(line).collect()
}

fn spelled(numbers: [u32; NUMBERS]) -> String {
    numbers.map(|number| number.to_string()).join(" ")
}

#[test]
fn each_way_by_itself() {
    let lines = written(&ANSWERS, &each().bytes());
    assert_eq!((lines.len(), asked().len()), (GETS.len(), GETS.len()));
    for ((asked, (name, gets)), given) in asked().iter().zip(GETS).zip(lines) {
        assert_eq!(asked.name, name);
        assert_eq!(given, line(gets), "{name}");
    }
}

#[test]
fn the_order_of_table_70_changes_nothing() {
    let expected: Vec<String> = GETS.iter().map(|(_, gets)| line(gets)).collect();
    for order in Order::ALL {
        let mut case = each();
        sort(case.rows(Table::T70));
        fall_as(case.rows(Table::T70), order);
        assert_eq!(written(&ANSWERS, &case.bytes()), expected, "{order:?}");
    }
}

#[test]
fn each_place_of_a_range() {
    let mut expected = vec![];
    for asked in asked() {
        let gets = GETS_IN_RANGE.iter().find(|(name, _)| *name == asked.name);
        expected.extend(gets.into_iter().flat_map(|(_, gets)| lines_of(gets)));
    }
    expected.extend(OTHER_RANGES.concat().into_iter().flat_map(lines_of));
    assert_eq!(written(&COUNTS, &ranges().bytes()), expected);
}

#[test]
fn the_examples_over_the_proof_table() {
    assert_eq!(written(&ANSWERS, &with_table_70(&HPK_K).bytes()), HPK_K.map(|k| spelled(k.2)));
    assert_eq!(written(&COUNTS, &hpk_1_to_3().bytes()), HPK_1_TO_3.concat());
    // K1 to K15 give no HPK.
    assert_eq!(written(&ANSWERS, &with_table_70(&K).bytes()), K.map(|k| spelled(k.2)));
    assert_eq!(written(&COUNTS, &k_1_to_3_with_table_70().bytes()), K_1_TO_3.concat());
}

/// Whatever the entry says of its HPK; 125 alone stands before.
#[test]
fn table_70_is_refused_last_and_before_the_hpk_is_looked_for() {
    for of in Bad::ALL {
        let answer = if matches!(of, Bad::Tail(_)) { 121 } else { 122 };
        let refused = format!("{answer} 0 70 0 0 0 0 0 0");
        let mut expected = vec![refused.clone(); 5];
        expected.push(line("125"));
        assert_eq!(written(&ANSWERS, &bad(of).bytes()), expected, "{of:?}");
        let expected = [refused.clone(), refused, "131".to_string(), "132".to_string()];
        assert_eq!(written(&COUNTS, &bad_ranges(of).bytes()), expected, "{of:?}");
    }
    let first = both_bad().map(|case| written(&ANSWERS, &case.bytes()).remove(0));
    assert_eq!(first, ["121 0 730", "122 0 730", "121 0 70", "121 0 640"].map(|front| format!("{front} 0 0 0 0 0 0")));
}

/// So that their lines are what they were.
#[test]
fn what_was_stored_before_has_no_table_70() {
    let ranges = store_counts::cases_before_p5();
    let before = [store::cases_before_p5(), ranges.into_iter().map(|case| case.case).collect()].concat();
    assert!(before.len() > 3_500 && before.iter().all(|case| case.tables[Table::T70 as usize].length() == 0));
}

/// The entry, and the entry after the filling.
fn fillings(number: u64) -> Vec<(Numbers, Numbers)> {
    let case = generate::case(9, number);
    case.entries.iter().copied().zip(after_filling(&case)).collect()
}

#[test]
fn nothing_that_is_given_is_overwritten() {
    let mut filled = [0; 3];
    for number in (0..4_000).filter(|number| !generate::LONG_CASES.contains(number)) {
        let case = generate::case(9, number);
        for (before, after) in fillings(number) {
            let mut expected = before;
            if let ([row], true) = (&rows_of(&case, before[HPK] as u64)[..], before != after) {
                expected[PRK] = if before[PRK] == BLANK { row[1] as u32 } else { before[PRK] };
                expected[GPK] = if before[GPK] == 0 { row[3] as u32 } else { before[GPK] };
            }
            assert_eq!(after, expected, "case {number}");
            let fills = [before[PRK] != after[PRK], before[GPK] != after[GPK]];
            filled[0] += (fills == [true, false]) as u64;
            filled[1] += (fills == [false, true]) as u64;
            filled[2] += (fills == [true, true]) as u64;
        }
    }
    assert!(filled.iter().all(|times| *times > 500), "{filled:?}");
}

/// Given what the HPK would fill, the answer is the same; and where it fills nothing, it is as without table 70.
#[test]
fn what_is_filled_might_have_been_given() {
    let numbers = |case: &Case| answers_of(case).iter().map(|answer| answer.numbers).collect::<Vec<_>>();
    let mut unfilled = 0;
    for number in (0..4_000).filter(|number| !generate::LONG_CASES.contains(number)) {
        let case = generate::case(9, number);
        let given = Case { tables: case.tables.clone(), entries: after_filling(&case) };
        assert_eq!(numbers(&case), numbers(&given), "case {number}");
        let mut without = case.clone();
        without.rows(Table::T70).cells.clear();
        without.rows(Table::T70).tail.clear();
        for ((answer, entry), without) in answers_of(&case).iter().zip(&case.entries).zip(numbers(&without)) {
            if answer.filled.is_some_and(|filled| filled.entry.numbers == *entry) {
                assert_eq!(answer.numbers, without, "case {number}");
                unfilled += 1;
            }
        }
    }
    assert!(unfilled > 10_000, "{unfilled}");
}

/// The coverage says so where table 70 is always empty: what is seen of an HPK then, and all else is missed.
#[test]
fn cases_without_table_70_are_missed() {
    let empty = |case: &mut Case| {
        case.rows(Table::T70).cells.clear();
        case.rows(Table::T70).tail.clear();
    };
    let missing = coverage(empty).missing();
    let seen = hpk::required().into_iter().filter(|seen| !missing.contains(&Seen::Brought(*seen)));
    let without_rows = [Filling::HpkBlank, Filling::NoRow].map(|filling| Brought::Came(filling, false));
    assert_eq!(seen.collect::<Vec<_>>(), without_rows);
}

#[test]
fn of_an_hpk_nothing_else_occurs() {
    let coverage = coverage(|_| {});
    let possible = hpk::required();
    // What 123 and 133 stand before may be any later answer.
    let other = |seen: &&Seen| match seen {
        Seen::Brought(Brought::Before(answer, ..)) => ![123, 133].contains(answer),
        Seen::Brought(seen) => !possible.contains(seen),
        _ => false,
    };
    assert_eq!(coverage.counts.keys().filter(other).collect::<Vec<_>>(), Vec::<&Seen>::new());
}
