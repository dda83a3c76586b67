//! A line of a proved program: the nine numbers of an answer, held to what documents 01 and 02 let them be, or 131.

use crate::range::Range;
use crate::words;

/// Document 01's names of its eight numbers, and the signal that was suppressed (P4).
pub const NAMES: [&str; 9] =
    ["answer", "text", "table", "basis", "category", "rule", "high", "low", "suppressed"];

const HIGHEST_HIGH: u32 = 2;
const HIGHEST_LOW: u32 = 1;

#[derive(Default)]
pub struct Answer {
    pub answer: u32,
    pub text: u32,
    pub table: u32,
    pub basis: u32,
    pub category: u32,
    pub rule: u32,
    pub high: u32,
    pub low: u32,
    /// The signal that was suppressed, 0 if none.
    pub suppressed: u32,
}

impl Answer {
    /// Reads a line, or says why it is none of an answer.
    pub fn read(line: &str) -> Result<Answer, String> {
        let numbers: Option<Vec<u32>> = line.split(' ').map(number).collect();
        let numbers = numbers.and_then(|numbers| <[u32; NAMES.len()]>::try_from(numbers).ok());
        let Some([answer, text, table, basis, category, rule, high, low, suppressed]) = numbers else {
            return Err(format!("`{line}` is not nine numbers"));
        };
        if words::of(answer).is_none() {
            return Err(format!("`{line}`: document 01 has no answer {answer}"));
        }
        if high > HIGHEST_HIGH || low > HIGHEST_LOW {
            return Err(format!("`{line}`: high is at most {HIGHEST_HIGH} and low at most {HIGHEST_LOW}"));
        }
        let answer = Answer { answer, text, table, basis, category, rule, high, low, suppressed };
        if suppressed != 0 && !answer.is_of_suppression() {
            return Err(format!("`{line}`: this is no answer with a suppressed signal, by document 02, P4"));
        }
        if answer.answer == words::OTHER_THAN_HPK && answer.numbers()[1..] != [0; NAMES.len() - 1] {
            return Err(format!("`{line}`: all other numbers of {} are 0", answer.answer));
        }
        Ok(answer)
    }

    /// Whether the numbers are those of a suppressed signal: 100, where basis and category alone are filled.
    fn is_of_suppression(&self) -> bool {
        let empty = [self.text, self.table, self.rule, self.high, self.low];
        words::COMPARED == self.answer
            && words::FREQUENCY_SIGNALS.contains(&self.suppressed)
            && empty.iter().all(|&number| number == 0)
            && self.basis != 0
            && self.category != 0
    }

    /// Reads the line of a range that must be refused. 131 comes alone: the other numbers are not reached, so 0.
    pub fn read_refusal(line: &str, range: Range) -> Result<Answer, String> {
        let answer = words::RANGE_REFUSED;
        if line != answer.to_string() {
            return Err(format!("`{line}` is not {answer}, which the range {range} must get"));
        }
        Ok(Answer { answer, ..Answer::default() })
    }

    pub fn numbers(&self) -> [u32; NAMES.len()] {
        let Answer { answer, text, table, basis, category, rule, high, low, suppressed } = *self;
        [answer, text, table, basis, category, rule, high, low, suppressed]
    }
}

fn number(word: &str) -> Option<u32> {
    // parse alone would take a sign
    word.bytes().all(|b| b.is_ascii_digit()).then(|| word.parse().ok())?
}
