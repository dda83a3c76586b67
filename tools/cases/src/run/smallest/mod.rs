//! What a program is compared on, and the smallest of it on which it differs, as far as it can be found: from one that
//! differs to a smaller one that still does, until none of the smaller ones does.

pub mod calls;
pub mod case;
pub mod counts;
pub mod unit_file;

use super::program::{self, Output};
use std::ops::Range;

/// A piece of a run: a case, a case of ranges, a unit file, or calls of files 730 and 070.
pub trait Piece: Clone {
    /// The command of the second program, and of `again`.
    const OF: &'static str;
    /// What the pieces of a run are called.
    const NAME: &'static str;

    fn of_run(seed: u64, number: u64) -> Self;
    /// The order in which the pieces of a run are joined.
    fn in_order(_seed: u64, numbers: Range<u64>) -> Vec<u64> {
        numbers.collect()
    }
    /// The pieces of an input, if it is a whole one.
    fn read(input: &[u8]) -> Option<Vec<Self>>;
    /// The pieces as one input.
    fn joined(pieces: &[Self]) -> Vec<u8>;
    /// What the second program writes for each piece of the joined input.
    fn lines(pieces: &[Self]) -> Vec<Vec<u8>>;
    /// Smaller pieces, those that leave out most first. No chain of them is endless.
    fn smaller(&self) -> Box<dyn Iterator<Item = Self> + '_>;
    /// Whether it may be the end of the input that matters: a piece that is followed by another then shows nothing.
    fn end_matters(&self) -> bool;
    /// The piece for a reader, with the lines of both programs.
    fn shown(&self, second: &str, program: &str) -> String;
}

/// Smaller pieces that are tried by one start of a program, and their bytes.
const TOGETHER: usize = 500;
const BYTES_TOGETHER: usize = 8 << 20;

/// What came of comparing a program with the second program.
pub enum Outcome {
    /// So many lines, all the same.
    Same(usize),
    /// The places of pieces for which other lines were written. Where the program ends badly, or writes too few or too
    /// many lines, one of those that cause it; none, if none of them does by itself.
    Differs(Vec<usize>),
}

fn count(lines: &[u8]) -> usize {
    lines.iter().filter(|c| **c == b'\n').count()
}

pub fn compared<P: Piece>(program: &str, pieces: &[P]) -> Result<Outcome, String> {
    let Output { bytes, ended } = program::output(program, &P::joined(pieces))?;
    let expected = P::lines(pieces);
    if ended.is_ok() && bytes == expected.concat() {
        return Ok(Outcome::Same(count(&bytes)));
    }
    if pieces.len() == 1 {
        return Ok(Outcome::Differs(vec![0]));
    }
    let lines: Vec<&[u8]> = bytes.split_inclusive(|c| *c == b'\n').collect();
    if ended.is_ok() && lines.len() == expected.iter().map(|lines| count(lines)).sum::<usize>() {
        let mut rest = &lines[..];
        let mut differs = |right: &Vec<u8>| {
            let (lines, behind) = rest.split_at(count(right));
            rest = behind;
            lines.concat() != *right
        };
        return Ok(Outcome::Differs((0..pieces.len()).filter(|place| differs(&expected[*place])).collect()));
    }
    let (front, back) = pieces.split_at(pieces.len() / 2);
    for (half, before) in [(front, 0), (back, front.len())] {
        if let Outcome::Differs(found) = compared(program, half)? {
            return Ok(Outcome::Differs(found.into_iter().map(|place| before + place).collect()));
        }
    }
    Ok(Outcome::Differs(vec![]))
}

/// Whether the program differs on the piece by itself.
pub fn differs<P: Piece>(program: &str, piece: &P) -> Result<bool, String> {
    Ok(matches!(compared(program, std::slice::from_ref(piece))?, Outcome::Differs(_)))
}

/// From a piece on which the program differs.
pub fn smallest<P: Piece>(program: &str, piece: P) -> Result<P, String> {
    let mut piece = piece;
    while let Some(smaller) = smaller_one(program, &piece)? {
        piece = smaller;
    }
    Ok(piece)
}

/// A smaller piece on which the program differs too: tried together, and where none is found by itself.
fn smaller_one<P: Piece>(program: &str, piece: &P) -> Result<Option<P>, String> {
    let found = first_smaller(program, piece, TOGETHER)?;
    if found.is_none() && piece.end_matters() {
        return first_smaller(program, piece, 1);
    }
    Ok(found)
}

fn first_smaller<P: Piece>(program: &str, piece: &P, most: usize) -> Result<Option<P>, String> {
    let mut all = piece.smaller().peekable();
    while all.peek().is_some() {
        let mut bytes = 0;
        let mut together: Vec<P> = vec![];
        while together.len() < most && bytes < BYTES_TOGETHER {
            let Some(next) = all.next() else { break };
            bytes += P::joined(std::slice::from_ref(&next)).len();
            together.push(next);
        }
        let Outcome::Differs(found) = compared(program, &together)? else { continue };
        for place in found {
            if together.len() == 1 || differs(program, &together[place])? {
                return Ok(Some(together.swap_remove(place)));
            }
        }
    }
    Ok(None)
}

/// The ranges of a list of so many that may be left out: all, halves, and so on down to one, the long ones first. Of a
/// long list only great parts, since each of its smaller ones is long too.
pub fn parts(length: usize) -> impl Iterator<Item = Range<usize>> {
    const SINGLE_MOST: usize = 1_024;
    const PARTS_MOST: usize = 64;
    let sizes = std::iter::successors(Some(length), |size| (*size > 1).then(|| size.div_ceil(2)));
    let sizes = sizes.filter(move |size| *size > 0 && (length <= SINGLE_MOST || length / size <= PARTS_MOST));
    sizes.flat_map(move |size| (0..length).step_by(size).map(move |from| from..length.min(from + size)))
}

#[cfg(test)]
mod tests {
    use super::unit_file::UnitFile;
    use super::*;
    use crate::generate::{calls::CallCase, case::Case, counts::CountCase, LONG_CASES};

    /// What `again` reads is what was written.
    fn reads_what_is_joined<P: Piece>() {
        let pieces: Vec<P> = P::in_order(3, 20..60).into_iter().map(|number| P::of_run(3, number)).collect();
        let bytes = P::joined(&pieces);
        assert!(P::joined(&P::read(&bytes).expect("a whole input")) == bytes, "{}", P::NAME);
    }

    #[test]
    fn a_joined_input_is_read_back() {
        reads_what_is_joined::<Case>();
        reads_what_is_joined::<CountCase>();
        reads_what_is_joined::<UnitFile>();
        reads_what_is_joined::<CallCase>();
        let case = Case::of_run(3, 20).bytes();
        assert!(Case::read(&case[..case.len() - 1]).is_none());
        let mut case = CountCase::of_run(3, 20);
        assert!(CountCase::read(&case.bytes()[..case.bytes().len() - 1]).is_none());
        case.ranges[0].places = 65;
        assert!(CountCase::read(&case.bytes()).is_none());
    }

    /// Fewer bytes, or as many with plainer numbers or characters: the search ends.
    fn gets_smaller<P: Piece>(pieces: u64, plainer: fn(&P, &P) -> bool) {
        for number in (0..pieces).filter(|number| !LONG_CASES.contains(number)) {
            let piece = P::of_run(4, number);
            let bytes = |piece: &P| P::joined(std::slice::from_ref(piece)).len();
            for smaller in piece.smaller() {
                let shorter = bytes(&smaller) < bytes(&piece);
                assert!(shorter || bytes(&smaller) == bytes(&piece) && plainer(&smaller, &piece), "{number}");
            }
        }
    }

    #[test]
    fn a_smaller_piece_is_smaller() {
        gets_smaller::<Case>(200, |smaller, piece| case::weight(smaller) < case::weight(piece));
        gets_smaller::<CountCase>(60, |smaller, piece| counts::weight(smaller) < counts::weight(piece));
        gets_smaller::<UnitFile>(200, |smaller, piece| unit_file::weight(&smaller.0) < unit_file::weight(&piece.0));
        gets_smaller::<CallCase>(200, |smaller, piece| calls::weight(smaller) < calls::weight(piece));
    }

    #[test]
    fn each_one_of_a_list_may_be_left_out() {
        for length in 1..100 {
            let all: Vec<Range<usize>> = parts(length).collect();
            assert_eq!(all[0], 0..length);
            assert!((0..length).all(|place| all.contains(&(place..place + 1))), "{length}");
        }
        assert_eq!(parts(0).count(), 0);
        assert!(parts(65_536).count() < 200);
    }
}
