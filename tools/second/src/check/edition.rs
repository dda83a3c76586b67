//! Document 02, P7: the answer in the words of the entry's host.

use super::answer::{Answer, ANSWER, SUPPRESSED, TEXT};
use super::entry::EDITION_1;

/// Only count differs, only unit, both.
const SIGNALS: std::ops::RangeInclusive<u32> = 115..=117;
/// 117 has text 8, which 001, 4.5.2, permits for each missing frequency.
const BOTH_DIFFER: (u32, u32) = (117, 8);

/// Edition 1 gives 117 with text 8 where edition 2 gives its signal, and 117 where one is suppressed. The test and the
/// ways are those of edition 2: the place is the same.
pub fn in_words_of(edition: u32, mut answer: Answer) -> Answer {
    if edition != EDITION_1 {
        return answer;
    }
    let numbers = &mut answer.numbers;
    if SIGNALS.contains(&numbers[ANSWER]) {
        (numbers[ANSWER], numbers[TEXT]) = BOTH_DIFFER;
    }
    if SIGNALS.contains(&numbers[SUPPRESSED]) {
        numbers[SUPPRESSED] = BOTH_DIFFER.0;
    }
    answer
}
