//! Text numbers of document 001.

use super::Test;

/// The text of every answer but a comparison; 0 where quiet suppressed the signal.
pub fn of_refusal(test: Test) -> u32 {
    match test.answer() {
        101 => 12,
        102 | 112 => 7,
        103 | 104 | 111 => 16,
        105 => 10,
        106 => 11,
        114 => 13,
        115 => 24,
        116 => 25,
        117 => 8,
        118 => 14,
        119 => 15,
        _ => 0,
    }
}

/// The text of 100 (001, 4.6): high's text if both speak; a narrow range has its own texts for high.
pub fn of_compared(high: u32, low: u32, gprisc: u32) -> u32 {
    let narrow = gprisc == 1;
    let low_text = if low == 1 { 2 } else { 0 };
    match (high, narrow) {
        (0, _) => low_text,
        (1, false) => 1,
        (1, true) => 5,
        (_, false) => 3,
        (_, true) => 6,
    }
}
