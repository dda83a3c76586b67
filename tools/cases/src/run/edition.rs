//! Document 02, P7: what an edition gives, and what it leaves alone.

use super::answers_of;
use crate::generate::case::{Case, Numbers};
use crate::generate::edition::{other, with_edition, EDITIONS, NO_EDITIONS};
use second::check::entry::{EDITION, EDITION_1, EDITION_2};
use second::check::{Answer, Test};

/// What is counted of an edition. A signal is the one that edition 2 gives.
#[derive(Clone, Copy, PartialEq, Eq, PartialOrd, Ord, Debug)]
pub enum Edition {
    /// An edition gives its signal.
    Signal(u32, u32),
    /// Or has it as the suppressed number.
    Suppressed(u32, u32),
    /// The case has the same entry in both editions.
    BothSignal(u32),
    BothSuppressed(u32),
    /// Edition 1 gives any other answer with its text.
    Same(u32, u32),
    /// Edition 1, and step 9 asks (P4).
    Asked(u32),
    /// 125 for a number that is no edition, and for nothing else.
    Refused(u32),
    /// The same, where edition 2 would get this answer.
    Before(u32),
}

impl Edition {
    pub fn is_of_one_entry(&self) -> bool {
        !matches!(self, Edition::BothSignal(_) | Edition::BothSuppressed(_))
    }
}

/// What is seen of the answer to an entry.
pub fn editions(case: &Case, answer: &Answer, entry: &Numbers) -> Vec<Edition> {
    match entry[EDITION] {
        EDITION_1 | EDITION_2 => given(case, answer, entry),
        _ => refused(case, entry),
    }
}

fn given(case: &Case, answer: &Answer, entry: &Numbers) -> Vec<Edition> {
    let edition = entry[EDITION];
    let signal = answer.ways.signal.map_or(0, Test::answer);
    let has_both = || other(edition).is_some_and(|other| case.entries.contains(&with_edition(*entry, other)));
    match answer.test {
        Test::OnlyCountDiffers | Test::OnlyUnitDiffers | Test::BothDiffer => {
            let both = has_both().then_some(Edition::BothSignal(signal));
            both.into_iter().chain([Edition::Signal(edition, signal)]).collect()
        }
        Test::Suppressed => {
            let both = has_both().then_some(Edition::BothSuppressed(signal));
            both.into_iter().chain([Edition::Suppressed(edition, signal)]).collect()
        }
        _ if edition == EDITION_2 => vec![],
        Test::QuietWeightMissing | Test::QuietSurfaceMissing => vec![Edition::Asked(answer.numbers[0])],
        _ => vec![Edition::Same(answer.numbers[0], answer.numbers[1])],
    }
}

fn refused(case: &Case, entry: &Numbers) -> Vec<Edition> {
    let now = Case { tables: case.tables.clone(), entries: vec![with_edition(*entry, EDITION_2)] };
    match answers_of(&now)[0].numbers[0] {
        125 => vec![],
        answer => vec![Edition::Refused(entry[EDITION]), Edition::Before(answer)],
    }
}

/// Where a row per day passed the age the signal is 115 (P4), so that no other is suppressed.
const SIGNALS: [u32; 3] = [115, 116, 117];
const SUPPRESSED: u32 = 115;

/// All other answers, with their texts.
const OTHERS: [(u32, u32); 29] = [
    (100, 0),
    (100, 1),
    (100, 2),
    (100, 3),
    (100, 5),
    (100, 6),
    (101, 12),
    (102, 7),
    (103, 16),
    (104, 16),
    (105, 10),
    (106, 11),
    (110, 0),
    (111, 16),
    (112, 7),
    (113, 0),
    (114, 13),
    (118, 14),
    (119, 15),
    (120, 0),
    (121, 0),
    (122, 0),
    (123, 0),
    (124, 0),
    (125, 0),
    (126, 0),
    (127, 0),
    (128, 0),
    (133, 0),
];

/// All that can occur.
pub fn required() -> Vec<Edition> {
    let mut all = vec![];
    for edition in EDITIONS {
        all.extend(SIGNALS.map(|signal| Edition::Signal(edition, signal)));
        all.push(Edition::Suppressed(edition, SUPPRESSED));
    }
    all.extend(SIGNALS.map(Edition::BothSignal));
    all.push(Edition::BothSuppressed(SUPPRESSED));
    all.extend(OTHERS.map(|(answer, text)| Edition::Same(answer, text)));
    all.extend([105, 106].map(Edition::Asked));
    all.extend(NO_EDITIONS.map(Edition::Refused));
    let mut before: Vec<u32> = OTHERS.iter().map(|(answer, _)| *answer).filter(|answer| *answer != 125).collect();
    before.extend(SIGNALS);
    before.dedup();
    all.extend(before.into_iter().map(Edition::Before));
    all
}

/// What edition 1 gives where edition 2 gives this line: 117 with text 8 for a signal, 117 for a suppressed one.
pub fn in_edition_1(line: &str) -> String {
    let mut numbers: Vec<&str> = line.split(' ').collect();
    let is_signal = |number: &str| ["115", "116", "117"].contains(&number);
    if let [answer, text, .., suppressed] = &mut numbers[..] {
        if is_signal(answer) {
            (*answer, *text) = ("117", "8");
        }
        if is_signal(suppressed) {
            *suppressed = "117";
        }
    }
    numbers.join(" ")
}
