//! Document 01's table of answers, in words, and what document 02 adds: the refusal of a range, the suppressed signal,
//! the PRK or GPK that is not the HPK's, and edition 1's signal.

use crate::answer::Answer;
use crate::edition::Edition;
use crate::links::Said;
use std::ops::RangeInclusive;

pub const COMPARED: u32 = 100;
/// The signals of a missing frequency, which quiet may suppress (P4).
pub const FREQUENCY_SIGNALS: RangeInclusive<u32> = 115..=117;
/// Of them edition 1 has none but the last (P7).
pub const ONLY_ONE_DIFFERS: RangeInclusive<u32> = 115..=116;
pub const NO_FREQUENCY: u32 = 117;
const NO_FREQUENCY_IN_EDITION_1: &str =
    "no row for the frequency: edition 1 does not say whether count, unit or both differ";

/// What an HPK may spare (P5), and what is said of its row in table 70.
pub const PRK_MISSING: u32 = 104;
pub const NO_GPK: u32 = 110;
pub const ASKS_FOR_CODE: [u32; 2] = [PRK_MISSING, NO_GPK];
pub const SEVERAL: u32 = 123;
pub const LINKS: u32 = 70;
pub const OTHER_THAN_HPK: u32 = 133;
pub const ENTRY_OUT_OF_RANGE: u32 = 125;
/// The answers that stand before the tables are looked at, and before an HPK is looked for.
pub const BEFORE_TABLES: [u32; 2] = [ENTRY_OUT_OF_RANGE, RANGE_REFUSED];
pub const BEFORE_LINKS: [u32; 4] = [121, 122, ENTRY_OUT_OF_RANGE, RANGE_REFUSED];

/// The refusal of a whole range of counts (P2). It is no answer of a check.
pub const RANGE_REFUSED: u32 = 131;
pub const RANGE_REFUSED_MEANS: &str = "first count above the last, or over 16 counts";

/// The meaning of an answer, if documents 01 and 02 have it.
pub fn of(answer: u32) -> Option<&'static str> {
    Some(match answer {
        COMPARED => "compared",
        101 => "age missing",
        102 => "sex missing",
        103 => "HPK missing",
        PRK_MISSING => "PRK missing",
        105 => "weight missing",
        106 => "surface missing",
        NO_GPK => "no GPK",
        111 => "GPK not in 640",
        112 => "sex not allowed",
        113 => "no setting in 642",
        114 => "no row for the age",
        115 => "no row for the frequency: only the count differs",
        116 => "no row for the frequency: only the unit differs",
        NO_FREQUENCY => "no row for the frequency: count and unit differ",
        118 => "no row for the weight",
        119 => "no row for the surface",
        120 => "over 512 rows in the category",
        121 => "table not whole rows, or too long",
        122 => "field out of range",
        SEVERAL => "several rows where one is needed",
        124 => "needed row absent",
        ENTRY_OUT_OF_RANGE => "entry out of range",
        126 => "unit row absent",
        127 => "amount zero",
        128 => "amount (CDHOEV) above 9,999,999,999",
        OTHER_THAN_HPK => "PRK or GPK is not that of the HPK",
        _ => return None,
    })
}

/// The meaning in an edition: 117 of edition 1 does not say what differs.
fn in_edition(answer: u32, edition: Edition) -> &'static str {
    match (answer, edition) {
        (NO_FREQUENCY, Edition::One) => NO_FREQUENCY_IN_EDITION_1,
        _ => of(answer).unwrap_or("unknown"),
    }
}

/// The answer in words, with the table it names, what a comparison found, an edition that there is not, and what table
/// 70 says of the HPK.
pub fn sentence(answer: &Answer, edition: Edition, said: &Said) -> String {
    let parts = [Some(answer_alone(answer, edition)), edition.sentence(answer), said.sentence(answer)];
    parts.into_iter().flatten().collect::<Vec<_>>().join("; ")
}

fn answer_alone(answer: &Answer, edition: Edition) -> String {
    if answer.suppressed != 0 {
        return suppression(answer.suppressed, edition);
    }
    let mut said = in_edition(answer.answer, edition).to_string();
    if answer.table != 0 {
        said += &format!(" (table {})", answer.table);
    }
    if answer.answer == COMPARED {
        said += match answer.high {
            0 => "",
            1 => ", highest dose above the norm maximum",
            _ => ", highest dose above the absolute maximum",
        };
        said += if answer.low == 0 { "" } else { ", lowest dose below the norm minimum" };
        said += if answer.high == 0 && answer.low == 0 { ", neither high nor low" } else { "" };
    }
    said
}

/// Not `compared, neither high nor low`: no rule was chosen, and only norm maxima were looked at.
fn suppression(signal: u32, edition: Edition) -> String {
    format!(
        "no signal: {signal} ({}) is suppressed, since quiet is on and a fitting rule per day allows more by its \
         norm maximum, at a time and in a day",
        in_edition(signal, edition)
    )
}
