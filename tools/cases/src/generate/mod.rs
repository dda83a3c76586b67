//! The seeded generator of cases: the same seed and number give the same case.

mod breakers;
pub mod calls;
pub mod case;
pub mod chains;
pub mod counts;
mod directed;
pub mod edition;
pub mod full;
mod heavy;
pub mod hpk;
pub mod joints;
mod model;
pub mod months;
pub mod order;
mod plain;
pub mod proof_ranges;
pub mod proof_table;
pub mod quiet;
pub mod records;
pub mod space;
mod spread;
mod vary;

use crate::random::Random;
use case::Case;

/// Long tables come once in so many cases.
const ROUND: u64 = 100_000;

/// The cases of the first round that have long tables.
pub const LONG_CASES: std::ops::RangeInclusive<u64> = 1..=heavy::VARIANTS as u64;
/// Those of 640: 65,535 rows, and one more.
pub const FULL_640: u64 = 1;
pub const TOO_LONG_640: u64 = 7;

/// The cases of the first round that get a category of 512 or 513 rows.
pub const FULL_CASES: std::ops::Range<u64> =
    heavy::VARIANTS as u64 + 1..heavy::VARIANTS as u64 + 1 + full::VARIANTS as u64;

/// Case `number` of the run: K1 to K15 first, long tables next, then directed and plain cases in turn, the first of
/// them with a full category besides; their rows as they were made, or in the order of their keys; each entry with an
/// edition.
pub fn case(seed: u64, number: u64) -> Case {
    let mut case = before_p7(seed, number);
    add_editions(&mut case, seed, number);
    if FULL_CASES.contains(&(number % ROUND)) {
        edition::over_full(&mut case);
    }
    case
}

/// Before entries had an edition: all say 2, as K1 to K15 and the entries of long tables still do.
fn before_p7(seed: u64, number: u64) -> Case {
    let mut case = fitted(made(seed, number), seed, number);
    match number % ROUND {
        0 => {}
        place if FULL_CASES.contains(&place) => {
            full::add(&mut case, (place - FULL_CASES.start) as usize, &mut ordering(seed, number));
            quiet::over_full(&mut case);
            hpk::over_full(&mut case);
        }
        place if LONG_CASES.contains(&place) => long_in_order(&mut case, &mut ordering(seed, number)),
        _ => put_in_order(&mut case, &mut ordering(seed, number)),
    }
    case
}

/// As `case`, without long tables and full categories.
pub fn light_case(seed: u64, number: u64) -> Case {
    let mut case = fitted(light_made(seed, number), seed, number);
    put_in_order(&mut case, &mut ordering(seed, number));
    add_editions(&mut case, seed, number);
    case
}

/// From random numbers of their own, so that all else of the case stays.
fn add_editions(case: &mut Case, seed: u64, number: u64) {
    if number % ROUND > *LONG_CASES.end() {
        edition::add(case, &mut Random::of_case(seed ^ 0x6564_6974, number));
    }
}

/// The cases were made for rows that fit at both ends. In half of them the high ends that the first entry lies on are
/// raised, so that it is found as before; in the others it lies on an end that does not count. A twelfth get rows that
/// meet besides, and a twelfth rows of time units that stand beside each other. They were made without a quiet setting,
/// so that each entry gets one; and a quarter get rows per day for entries whose frequency is missing. They were made
/// without table 70: it stays empty in almost half of them, and half get rows for their entries; those with a full
/// category get one row, later. K1 to K15 and long tables, which may be full, are left alone.
fn fitted(mut case: Case, seed: u64, number: u64) -> Case {
    let r = &mut Random::of_case(seed ^ 0x6669_7473, number);
    if number % ROUND <= *LONG_CASES.end() {
        return case;
    }
    if r.percent(50) {
        joints::raise(&mut case);
    }
    if r.below(12) == 0 {
        joints::add(&mut case, r);
    }
    let r = &mut Random::of_case(seed ^ 0x6d6f_6e74, number);
    if r.below(12) == 0 {
        months::add(&mut case, r);
    }
    let r = &mut Random::of_case(seed ^ 0x7175_6965, number);
    quiet::set(&mut case.entries, r);
    if r.percent(25) {
        if r.percent(25) {
            // Alone, so that its rules are the first and the last of 649.
            case = Case::empty();
        }
        quiet::add(&mut case, r);
    }
    let r = &mut Random::of_case(seed ^ 0x6870_6b73, number);
    match r.below(100) {
        _ if FULL_CASES.contains(&(number % ROUND)) => {}
        0..45 => {}
        45..50 => hpk::others(&mut case, r),
        _ => hpk::add(&mut case, r),
    }
    case
}

/// A third of the cases by key, a sixth nearly. A twelfth get more keys to look for, and of these more are nearly so:
/// whatever row is moved, some entry needs it.
fn put_in_order(case: &mut Case, r: &mut Random) {
    use order::Ordered::{AsMade, ByKey, Nearly};
    let mut ways = [ByKey, ByKey, Nearly, AsMade, AsMade, AsMade];
    if r.below(12) == 0 {
        chains::add(case, r);
        ways = [ByKey, Nearly, Nearly, Nearly, Nearly, AsMade];
    }
    let ordered = r.pick(&ways);
    order::order(case, r, ordered);
}

/// Half of the long tables by key.
fn long_in_order(case: &mut Case, r: &mut Random) {
    let ordered = r.pick(&[order::Ordered::AsMade, order::Ordered::ByKey]);
    order::order(case, r, ordered);
}

/// Another stream than the one that makes the case, so that what is made stays the same.
fn ordering(seed: u64, number: u64) -> Random {
    Random::of_case(seed ^ 0x6b65_7973, number)
}

/// Case `number` as it was made: what is stored rests on it.
pub fn made(seed: u64, number: u64) -> Case {
    let r = &mut Random::of_case(seed, number);
    let place = number % ROUND;
    if place == 0 {
        return proof_table::k_case();
    }
    if LONG_CASES.contains(&place) {
        return heavy::heavy(place as usize - 1, r);
    }
    light(r, number)
}

/// As `made`, without long tables.
pub fn light_made(seed: u64, number: u64) -> Case {
    light(&mut Random::of_case(seed, number), number)
}

fn light(r: &mut Random, number: u64) -> Case {
    let mut case =
        if number.is_multiple_of(2) { directed::directed((number / 2) as usize, r) } else { plain::plain(r) };
    if r.percent(20) {
        spread::spread(&mut case);
    }
    case
}

#[cfg(test)]
mod tests {
    use super::*;
    use crate::run::answers_of;
    use second::check::entry::{EDITION, EDITION_2};
    use second::check::{check, Entry, Lent, NUMBERS};
    use second::stream::{parts, Header, HEADER};

    /// The directed cases rest on this: a model is compared, where no end that does not count is met.
    #[test]
    fn a_model_is_compared() {
        for number in 0..5_000 {
            let mut case = model::model(&mut Random::of_case(9, number));
            joints::raise(&mut case);
            let bytes = case.bytes();
            let header = Header::new(bytes.first_chunk().expect("a header"));
            let lent = Lent::new(parts(&header, &bytes[HEADER..]).0);
            let answer = check(&lent, &Entry::new(case.entries[0]));
            assert_eq!(answer.numbers[0], 100, "model {number}: {:?}", answer.test);
        }
    }

    fn numbers(case: &Case) -> Vec<[u32; NUMBERS]> {
        answers_of(case).iter().map(|answer| answer.numbers).collect()
    }

    /// What is done to a case as it was made leaves its lines as they are.
    #[test]
    fn the_order_of_rows_changes_no_answer() {
        let mut ordered = 0;
        for number in 0..3_000 {
            let (made, case) = (fitted(made(8, number), 8, number), before_p7(8, number));
            let lines = numbers(&made);
            assert_eq!(numbers(&case)[..lines.len()], lines, "case {number}");
            ordered += (made.bytes() != case.bytes()) as u64;
        }
        // Half of them, and those that get more keys.
        assert!((1_400..1_800).contains(&ordered), "{ordered}");
    }

    /// P7 puts an edition into each entry, and entries behind them; all else stays.
    #[test]
    fn editions_are_put_on_top() {
        let mut all = [0; 2];
        for number in 0..3_000 {
            let (before, mut case) = (before_p7(8, number), case(8, number));
            let there = before.entries.len();
            let mut seen = vec![];
            for entry in &mut case.entries {
                seen.push(std::mem::replace(&mut entry[EDITION], EDITION_2));
            }
            assert!(case.entries[there..].iter().all(|entry| before.entries.contains(entry)), "case {number}");
            case.entries.truncate(there);
            assert!(case.bytes() == before.bytes(), "case {number}");
            edition::EDITIONS.iter().zip(&mut all).for_each(|(edition, all)| {
                *all += seen.iter().filter(|seen| *seen == edition).count();
            });
        }
        assert!(all[0] > 10_000 && all[0].abs_diff(all[1]) < 1_000, "{all:?}");
    }

    /// By steps 7 and 11 of document 01.
    #[test]
    fn a_full_category_is_refused_or_compared() {
        let key = full::KEY as u32;
        let expected = [
            [123, 0, 643, key, key, 0, 0, 0, 0],
            [100, 0, 0, key, key, key, 0, 0, 0],
            [120, 0, 643, key, key, 0, 0, 0, 0],
        ];
        for seed in 0..20 {
            for number in FULL_CASES {
                let answers = numbers(&before_p7(seed, number));
                assert_eq!(
                    answers.last(),
                    Some(&expected[(number - FULL_CASES.start) as usize % 3]),
                    "{seed} {number}"
                );
            }
        }
    }

    #[test]
    fn the_same_seed_gives_the_same_cases() {
        for number in [0, 14, 15, 100, 101, 3_000] {
            assert_eq!(case(5, number).bytes(), case(5, number).bytes());
        }
        assert_ne!(case(5, 101).bytes(), case(6, 101).bytes());
        assert_ne!(case(5, 101).bytes(), case(5, 103).bytes());
    }
}
