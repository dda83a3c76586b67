//! The nine numbers, with the test that gave them and the ways the steps went.

use super::{text, Compared, Filled, Test, Ways};

/// Numbers of an answer.
pub const NUMBERS: usize = 9;
/// Places of some of them.
pub const ANSWER: usize = 0;
pub const TEXT: usize = 1;
pub const SUPPRESSED: usize = 8;

/// What the steps have chosen so far; a number not reached is 0.
#[derive(Clone, Copy, Default)]
pub struct Found {
    pub basis: u32,
    pub category: u32,
    pub rule: u32,
    /// The signal that quiet suppressed.
    pub suppressed: u32,
    /// The entry after P5's filling.
    pub filled: Option<Filled>,
    pub ways: Ways,
}

#[derive(Clone, Copy)]
pub struct Answer {
    /// answer, text, table, basis, category, rule, high, low, suppressed
    pub numbers: [u32; NUMBERS],
    pub test: Test,
    /// The entry after P5's filling; none where a test before it refused.
    pub filled: Option<Filled>,
    pub ways: Ways,
    pub compared: Option<Compared>,
}

impl Answer {
    /// Of every test but the comparison.
    pub fn refused(test: Test, found: &Found) -> Answer {
        let text = text::of_refusal(test);
        let Found { suppressed, filled, .. } = *found;
        let numbers = [test.answer(), text, test.table(), found.basis, found.category, found.rule, 0, 0, suppressed];
        Answer { numbers, test, filled, ways: found.ways, compared: None }
    }

    pub fn compared(compared: Compared, found: &Found) -> Answer {
        let Compared { high, low, gprisc, .. } = compared;
        let text = text::of_compared(high, low, gprisc);
        let numbers = [100, text, 0, found.basis, found.category, found.rule, high, low, 0];
        let (filled, ways) = (found.filled, found.ways);
        Answer { numbers, test: Test::Compared, filled, ways, compared: Some(compared) }
    }

    pub fn line(&self, out: &mut Vec<u8>) {
        push_line(&self.numbers, out);
    }
}

/// Numbers with one space between, ended by a line feed.
pub fn push_line(numbers: &[u32], out: &mut Vec<u8>) {
    for (place, number) in numbers.iter().enumerate() {
        if place > 0 {
            out.push(b' ');
        }
        push_number(out, *number as u64);
    }
    out.push(b'\n');
}

/// A number in digits, no zeros in front.
pub fn push_number(out: &mut Vec<u8>, number: u64) {
    if number >= 10 {
        push_number(out, number / 10);
    }
    out.push(b'0' + (number % 10) as u8);
}
