//! The unit list: one line for each record of standard input.

use super::read::read;
use crate::check::push_number;

/// The whole output for the whole input.
pub fn unit_list(input: &[u8]) -> Vec<u8> {
    let mut out = Vec::with_capacity(input.len() / 2);
    for record in records(input) {
        line(record, &mut out);
    }
    out
}

/// The text before each CR LF; a last one without CR LF too, unless it is empty.
pub fn records(input: &[u8]) -> Vec<&[u8]> {
    let mut records = vec![];
    let mut start = 0;
    let mut place = 0;
    while place < input.len() {
        if input[place..].starts_with(b"\r\n") {
            records.push(&input[start..place]);
            place += 2;
            start = place;
        } else {
            place += 1;
        }
    }
    let rest = &input[start..];
    if !rest.is_empty() {
        records.push(rest);
    }
    records
}

fn line(record: &[u8], out: &mut Vec<u8>) {
    match read(record) {
        Ok(unit) => {
            push_number(out, unit.srtcde as u64);
            out.push(b' ');
            push_number(out, unit.code as u64);
            out.push(b' ');
            amount(unit.cdhoev, out);
            out.push(b' ');
            push_number(out, unit.cdeenh as u64);
        }
        Err(number) => {
            out.extend(b"refused ");
            push_number(out, number as u64);
        }
    }
    out.push(b'\n');
}

/// At least one whole digit, a point and three decimals.
fn amount(thousandths: u64, out: &mut Vec<u8>) {
    let (whole, decimals) = (thousandths / 1_000, thousandths % 1_000);
    push_number(out, whole);
    out.push(b'.');
    for unit in [100, 10, 1] {
        out.push(b'0' + (decimals / unit % 10) as u8);
    }
}
