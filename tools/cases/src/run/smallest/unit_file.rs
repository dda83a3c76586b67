//! Smaller unit files.

use super::{parts, Piece};
use crate::generate::records::unit_file;
use second::record::list::{records, unit_list};

#[derive(Clone)]
pub struct UnitFile(pub Vec<u8>);

const END: &[u8] = b"\r\n";

impl Piece for UnitFile {
    const OF: &'static str = "units";
    const NAME: &'static str = "unit files";

    fn of_run(seed: u64, number: u64) -> UnitFile {
        UnitFile(unit_file(seed, number))
    }

    fn read(input: &[u8]) -> Option<Vec<UnitFile>> {
        Some(vec![UnitFile(input.to_vec())])
    }

    /// CR LF between, so that the last record of one is not the first of the next.
    fn joined(files: &[UnitFile]) -> Vec<u8> {
        files.iter().map(|file| &file.0[..]).collect::<Vec<_>>().join(END)
    }

    fn lines(files: &[UnitFile]) -> Vec<Vec<u8>> {
        let last = files.len().saturating_sub(1);
        let lines = |(place, file): (usize, &UnitFile)| match place {
            place if place == last => unit_list(&file.0),
            _ => unit_list(&[&file.0[..], END].concat()),
        };
        files.iter().enumerate().map(lines).collect()
    }

    fn smaller(&self) -> Box<dyn Iterator<Item = UnitFile> + '_> {
        let records = records(&self.0);
        let fewer = parts(records.len()).map(move |left_out| {
            let kept = [&records[..left_out.start], &records[left_out.end..]].concat();
            UnitFile(kept.join(END))
        });
        let shorter = parts(self.0.len()).map(|left_out| {
            let mut file = self.0.clone();
            file.drain(left_out);
            UnitFile(file)
        });
        Box::new(fewer.filter(|file| file.0.len() < self.0.len()).chain(shorter).chain(plainer(&self.0).map(UnitFile)))
    }

    fn end_matters(&self) -> bool {
        true
    }

    fn shown(&self, second: &str, program: &str) -> String {
        format!("file:    \"{}\"\nsecond:  {second:?}\nprogram: {program:?}\n", self.0.escape_ascii())
    }
}

/// How far a character is from the plainest.
fn rank(c: u8) -> usize {
    [b'0', b' '].iter().position(|plain| *plain == c).unwrap_or(2)
}

#[cfg(test)]
pub fn weight(text: &[u8]) -> usize {
    text.iter().map(|c| rank(*c)).sum()
}

/// The text with one character plainer: 0, else a space.
pub fn plainer(text: &[u8]) -> impl Iterator<Item = Vec<u8>> + '_ {
    (0..text.len()).flat_map(move |place| {
        [b'0', b' '].into_iter().filter(move |c| rank(*c) < rank(text[place])).map(move |c| {
            let mut text = text.to_vec();
            text[place] = c;
            text
        })
    })
}
