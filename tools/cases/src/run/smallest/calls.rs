//! Fewer and smaller calls of files 730 and 070.

use super::unit_file::plainer;
use super::{parts, Piece};
use crate::generate::calls::{call_case, stream, CallCase};
use second::record::calls::{calls, take, Call, Record};
use second::record::f070::Link;
use second::record::Unit;
use std::ops::Range;

impl Piece for CallCase {
    const OF: &'static str = "calls";
    const NAME: &'static str = "cases of calls";

    fn of_run(seed: u64, number: u64) -> CallCase {
        call_case(seed, number)
    }

    /// One that ends in damage last, if there is one.
    fn in_order(seed: u64, numbers: Range<u64>) -> Vec<u64> {
        let mut all: Vec<u64> = numbers.collect();
        if let Some(place) = all.iter().rposition(|number| call_case(seed, *number).damaged.is_some()) {
            let last = all.remove(place);
            all.push(last);
        }
        all
    }

    fn read(input: &[u8]) -> Option<Vec<CallCase>> {
        let mut case = CallCase { whole: vec![], damaged: None };
        let mut rest = input;
        while !rest.is_empty() {
            let from_here = rest;
            match take(&mut rest) {
                Ok(call) => case.whole.push(call),
                Err(_) => {
                    case.damaged = Some(from_here.to_vec());
                    break;
                }
            }
        }
        Some(vec![case])
    }

    /// Only the last one's damage: what stands behind a damaged call is not read.
    fn joined(cases: &[CallCase]) -> Vec<u8> {
        let mut bytes: Vec<u8> = cases.iter().flat_map(|case| stream(&case.whole)).collect();
        bytes.extend(cases.last().iter().flat_map(|case| case.damaged.iter().flatten()));
        bytes
    }

    fn lines(cases: &[CallCase]) -> Vec<Vec<u8>> {
        let last = cases.len().saturating_sub(1);
        let lines = |(place, case): (usize, &CallCase)| match place {
            place if place == last => calls(&case.bytes()),
            _ => calls(&stream(&case.whole)),
        };
        cases.iter().enumerate().map(lines).collect()
    }

    fn smaller(&self) -> Box<dyn Iterator<Item = CallCase> + '_> {
        let with = |whole: Vec<Call>| CallCase { whole, damaged: self.damaged.clone() };
        let whole = self.damaged.iter().map(|_| CallCase { whole: self.whole.clone(), damaged: None });
        let fewer = parts(self.whole.len())
            .map(move |left_out| with([&self.whole[..left_out.start], &self.whole[left_out.end..]].concat()));
        let smaller = (0..self.whole.len()).flat_map(move |place| {
            smaller_call(&self.whole[place]).map(move |call| {
                let mut whole = self.whole.clone();
                whole[place] = call;
                with(whole)
            })
        });
        let cut = self.damaged.iter().flat_map(|bytes| parts(bytes.len()).map(move |out| (bytes, out)));
        let cut = cut.filter(|(bytes, out)| out.len() < bytes.len()).map(|(bytes, out)| {
            let damaged = Some([&bytes[..out.start], &bytes[out.end..]].concat());
            CallCase { whole: self.whole.clone(), damaged }
        });
        Box::new(whole.chain(fewer).chain(cut).chain(smaller))
    }

    fn end_matters(&self) -> bool {
        self.damaged.is_some()
    }

    fn shown(&self, second: &str, program: &str) -> String {
        let mut shown: String = self.whole.iter().map(|call| format!("call:    {}\n", shown_call(call))).collect();
        if let Some(bytes) = &self.damaged {
            shown += &format!("damaged: {bytes:?}\n");
        }
        shown + &format!("second:  {}\nprogram: {}\n", second.trim_end(), program.trim_end())
    }
}

fn shown_call(call: &Call) -> String {
    match call {
        Call::Read(file, text) => format!("read of {}, \"{}\"", file.number(), text.escape_ascii()),
        Call::Write { record, buffer, place } => {
            format!("write {record:?} at {place} of {} bytes, \"{}\"", buffer.len(), buffer.escape_ascii())
        }
    }
}

fn smaller_call(call: &Call) -> Box<dyn Iterator<Item = Call> + '_> {
    match call {
        Call::Read(file, text) => Box::new(smaller_text(text).map(|text| Call::Read(*file, text))),
        Call::Write { record, buffer, place } => {
            let written =
                |record: Record, buffer: &[u8], place: u64| Call::Write { record, buffer: buffer.to_vec(), place };
            let buffers = smaller_text(buffer).map(move |buffer| written(*record, &buffer, *place));
            let places = plainer_number(*place).map(move |place| written(*record, buffer, place));
            let records = smaller_record(record).map(move |record| written(record, buffer, *place));
            Box::new(places.chain(buffers).chain(records))
        }
    }
}

fn smaller_text(text: &[u8]) -> impl Iterator<Item = Vec<u8>> + '_ {
    let shorter = parts(text.len()).map(|out| [&text[..out.start], &text[out.end..]].concat());
    shorter.chain(plainer(text))
}

fn plainer_number(number: u64) -> impl Iterator<Item = u64> {
    [0, 1, number / 1_000, number / 10].into_iter().filter(move |new| *new < number)
}

fn smaller_record(record: &Record) -> Box<dyn Iterator<Item = Record> + '_> {
    match record {
        Record::Unit(unit) => Box::new(smaller_unit(unit).map(Record::Unit)),
        Record::Link(link) => Box::new(smaller_link(link).map(Record::Link)),
    }
}

fn long(number: u32) -> impl Iterator<Item = u32> {
    plainer_number(number as u64).map(|number| number as u32)
}

fn smaller_link(link: &Link) -> impl Iterator<Item = Link> + '_ {
    let mutations = long(link.mutation).map(|mutation| Link { mutation, ..*link });
    let numbers = (0..link.numbers.len()).flat_map(move |part| {
        long(link.numbers[part]).map(move |number| {
            let mut link = *link;
            link.numbers[part] = number;
            link
        })
    });
    mutations.chain(numbers)
}

fn smaller_unit(unit: &Unit) -> impl Iterator<Item = Unit> + '_ {
    let mutations = long(unit.mutation).map(|mutation| Unit { mutation, ..*unit });
    let kinds = long(unit.srtcde).map(|srtcde| Unit { srtcde, ..*unit });
    let codes = long(unit.code).map(|code| Unit { code, ..*unit });
    let amounts = plainer_number(unit.cdhoev).map(|cdhoev| Unit { cdhoev, ..*unit });
    let units = long(unit.cdeenh).map(|cdeenh| Unit { cdeenh, ..*unit });
    mutations.chain(kinds).chain(codes).chain(amounts).chain(units)
}

#[cfg(test)]
/// The numbers, and the characters that are not plain.
pub fn weight(case: &CallCase) -> u128 {
    let of_call = |call: &Call| match call {
        Call::Read(_, text) => super::unit_file::weight(text) as u128,
        Call::Write { record, buffer, place } => {
            let codes = match record {
                Record::Unit(unit) => vec![unit.mutation, unit.srtcde, unit.code, unit.cdeenh],
                Record::Link(link) => [&[link.mutation], &link.numbers[..]].concat(),
            };
            let amount = match record {
                Record::Unit(unit) => unit.cdhoev as u128,
                Record::Link(_) => 0,
            };
            let numbers = codes.into_iter().map(u128::from).sum::<u128>() + amount + *place as u128;
            numbers + super::unit_file::weight(buffer) as u128
        }
    };
    case.whole.iter().map(of_call).sum()
}
