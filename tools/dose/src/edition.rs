//! The edition of an entry: which texts its host has for a missing frequency (document 02, P7; 001, 4.5.2).

use crate::answer::Answer;
use crate::words;
use std::ffi::OsStr;

/// Where neither the entry nor the command line says one: hosts that have texts 24 and 25.
pub const DEFAULT: u64 = 2;

#[derive(Clone, Copy)]
pub enum Edition {
    /// 1: the host has text 8 alone, so that 117 is its one signal.
    One,
    /// 2: it has texts 24 and 25 too, for 115 and 116.
    Two,
    /// Any other number, which is 125.
    Neither(u64),
}

impl Edition {
    pub fn of(number: u64) -> Edition {
        match number {
            1 => Edition::One,
            2 => Edition::Two,
            other => Edition::Neither(other),
        }
    }

    /// Why the answer cannot be one for an entry of this edition, if so.
    pub fn contradicts(self, answer: &Answer) -> Option<String> {
        match self {
            Edition::One => {
                let mut signals = [answer.answer, answer.suppressed].into_iter();
                let signal = signals.find(|signal| words::ONLY_ONE_DIFFERS.contains(signal))?;
                Some(format!("the entry's edition is 1, which has {} and no {signal}", words::NO_FREQUENCY))
            }
            Edition::Neither(number) if !words::BEFORE_TABLES.contains(&answer.answer) => {
                Some(format!("the entry's edition is {number}, which is {}", words::ENTRY_OUT_OF_RANGE))
            }
            _ => None,
        }
    }

    /// What there is to say of the edition beside the answer: why it is 125.
    pub fn sentence(self, answer: &Answer) -> Option<String> {
        match self {
            Edition::Neither(number) if answer.answer == words::ENTRY_OUT_OF_RANGE => {
                Some(format!("edition {number} is neither 1 nor 2"))
            }
            _ => None,
        }
    }
}

/// The edition that the command line gives to the entries without one.
pub fn of_option(word: &OsStr) -> Result<u64, String> {
    match word.to_str() {
        Some("1") => Ok(1),
        Some("2") => Ok(2),
        _ => Err(format!(
            "--edition is 1 (for hosts that have only text 8) or 2 (for hosts that have texts 24 and 25), and not `{}`",
            word.to_string_lossy()
        )),
    }
}
