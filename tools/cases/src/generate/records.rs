//! Unit files, and records of files 730 and 070.

use crate::random::Random;
use second::record::calls::File;
use second::record::RECORD;

/// A file of good and damaged records.
pub fn unit_file(seed: u64, number: u64) -> Vec<u8> {
    let r = &mut Random::of_case(seed, number);
    let mut file = vec![];
    for _ in 0..r.below(12) {
        file.extend(record(r, File::F730));
        file.extend(end(r));
    }
    if r.percent(40) {
        file.extend(record(r, File::F730));
    }
    file
}

/// Mostly CR LF.
fn end(r: &mut Random) -> &'static [u8] {
    match r.below(20) {
        0 => b"\n",
        1 => b"\r",
        2 => b"\r\r\n",
        3 => b"\r\n\r\n",
        4 => b"\n\r\n",
        5 => b"\r\n\n",
        _ => b"\r\n",
    }
}

/// A number of at most `most`, often at an end.
pub fn number(r: &mut Random, most: u64) -> u64 {
    let any = r.below(most + 1);
    let small = r.below(most.min(1_500) + 1);
    r.pick(&[0, 1, most, any, any, small, 10.min(most), 1_000.min(most), most - 1])
}

/// Part by part as document 004 has it, and not by the second program, whose writer is compared on it.
pub fn good(r: &mut Random, file: File) -> [u8; RECORD] {
    let record = match file {
        File::F730 => good_730(r),
        File::F070 => good_070(r),
    };
    record.into_bytes().try_into().expect("64 characters")
}

fn good_730(r: &mut Random) -> String {
    let mutation = r.below(4);
    let [srtcde, code, cdhoev, cdeenh] = [999_999, 99_999_999, 999_999_999_999, 999_999].map(|most| number(r, most));
    format!("0730{mutation}1850{srtcde:06}{code:08}{cdhoev:012}0002{cdeenh:06}{:19}", "")
}

fn good_070(r: &mut Random) -> String {
    let mutation = r.below(4);
    let [hpk, prk, gpk] = [99_999_999; 3].map(|most| number(r, most));
    let [prk_in_hpk, gpk_in_prk, gpk_in_hpk] = [999_999; 3].map(|most| number(r, most));
    text_070(mutation, [hpk, prk, prk_in_hpk, gpk, gpk_in_prk, gpk_in_hpk])
}

/// A record of 070 with these numbers, in the file's order.
pub fn text_070(mutation: u64, numbers: [u64; 6]) -> String {
    let [hpk, prk, prk_in_hpk, gpk, gpk_in_prk, gpk_in_hpk] = numbers;
    format!("0070{mutation}{hpk:08}{prk:08}{prk_in_hpk:06}{gpk:08}{gpk_in_prk:06}{gpk_in_hpk:06}{:17}", "")
}

/// Places in a record: the ends of each part, or any.
fn place(r: &mut Random, file: File) -> usize {
    let any = r.below(RECORD as u64) as usize;
    match file {
        File::F730 => r.pick(&[0, 3, 4, 5, 8, 9, 14, 15, 22, 23, 34, 35, 38, 39, 44, 45, 63, any]),
        File::F070 => r.pick(&[0, 3, 4, 5, 12, 13, 20, 21, 26, 27, 34, 35, 40, 41, 46, 47, 56, 57, 63, any]),
    }
}

/// A record, good or damaged.
pub fn record(r: &mut Random, file: File) -> Vec<u8> {
    let mut record = good(r, file).to_vec();
    match r.below(16) {
        0 => record.truncate(r.below(RECORD as u64) as usize),
        1 => record.truncate(RECORD - 1),
        2 => record.push(b' '),
        3 => record.extend(vec![b'x'; r.between(1, 200) as usize]),
        4 => record.clear(),
        5 => record[4] = b'0' + r.between(4, 9) as u8,
        6 => record[4] = r.pick(b" /:x\t"),
        7..=10 => damage(r, file, &mut record),
        11 => {
            damage(r, file, &mut record);
            damage(r, file, &mut record);
        }
        12 => {
            record[4] = b'9';
            damage(r, file, &mut record);
        }
        _ => {}
    }
    record
}

fn damage(r: &mut Random, file: File, record: &mut [u8]) {
    let any = r.below(256) as u8;
    record[place(r, file)] = r.pick(&[b' ', b'/', b':', b'x', b'\t', b'0', b'9', b'\r', b'\n', any]);
}
