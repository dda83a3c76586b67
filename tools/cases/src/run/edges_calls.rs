//! Whole and damaged streams of calls: where a stream may end, and how long a call may be.

use super::edges::{Edge, BROKEN};

/// Of a file: its number, a record, the line that reading it gives, and the numbers of it behind a writing's place.
struct Of {
    file: u32,
    record: &'static [u8; 64],
    read: &'static str,
    numbers: &'static [u32],
    /// Where the numbers in front of a writing's buffer end.
    ends: &'static [usize],
}

const READ_ENDS: &[usize] = &[4, 8, 12];
/// The amount has 64 bits.
const F730: Of = Of {
    file: 730,
    record: b"073001850000001002162670000000200000002000303                   ",
    read: "0 0 1 216267 20000 303\n",
    numbers: &[0, 1, 216_267, 20_000, 0, 303],
    ends: &[4, 8, 12, 20, 24, 28, 32, 40, 44],
};
/// Document 004's HPK of the same number.
const F070: Of = Of {
    file: 70,
    record: b"00700002162670000554100000100016004000001000001                 ",
    read: "0 0 216267 5541 1 16004 1 1\n",
    numbers: &[0, 216_267, 5_541, 1, 16_004, 1, 1],
    ends: &[4, 8, 12, 20, 24, 28, 32, 36, 40, 44, 48],
};

/// Numbers that are no file's, no reading or writing, no length.
const NO_FILE: [u32; 18] = [
    0,
    1,
    7,
    69,
    71,
    700,
    729,
    731,
    70 << 8,
    70 << 16,
    70 | 1 << 16,
    70 | 1 << 31,
    730 << 8,
    730 << 16,
    730 | 1 << 16,
    730 | 1 << 31,
    730 & 255,
    u32::MAX,
];
const NO_WHAT: [u32; 8] = [2, 3, 256, 257, 1 << 16, 1 << 24, 1 << 31, u32::MAX];
const NO_LENGTH: [u32; 6] = [4_098, 4_160, 8_192, 64 | 1 << 16, 1 << 31, u32::MAX];

fn numbers(words: &[u32]) -> Vec<u8> {
    words.iter().flat_map(|word| word.to_le_bytes()).collect()
}

impl Of {
    fn reading(&self, text: &[u8]) -> Vec<u8> {
        [&numbers(&[self.file, 0, text.len() as u32]), text].concat()
    }

    /// The record's numbers written at a place below 2^32.
    fn writing(&self, buffer: &[u8], place: u32) -> Vec<u8> {
        let front = [self.file, 1, buffer.len() as u32, place, 0];
        [&numbers(&front), &numbers(self.numbers), buffer].concat()
    }

    /// A reading and a writing, with their lines.
    fn both(&self) -> [(Vec<u8>, String); 2] {
        let written = write_line(0, &[&[7], &self.record[..], &[7]].concat());
        [(self.reading(self.record), self.read.to_string()), (self.writing(&[7; 66], 1), written)]
    }
}

fn write_line(number: u32, buffer: &[u8]) -> String {
    let digits: String = buffer.iter().map(|byte| format!("{byte:02x}")).collect();
    format!("{number} {digits}\n")
}

fn edge(name: String, stream: &[&[u8]], lines: &[&str]) -> Edge {
    (name, stream.concat(), lines.concat())
}

pub fn streams() -> Vec<Edge> {
    let mut all = vec![edge("empty".to_string(), &[], &[])];
    for of in [&F730, &F070] {
        all.extend(whole(of));
        all.extend(damaged(of));
        all.extend(cut(of));
    }
    // A call of one file behind one of the other, and a record of the other file.
    for (first, second) in [(&F730, &F070), (&F070, &F730)] {
        let name = format!("{}: a record of {}", first.file, second.file);
        all.push(edge(name, &[&first.reading(second.record)], &["202\n"]));
        for (one, line) in first.both() {
            for (other, behind) in second.both() {
                let name = format!("a call of {} and one of {}", first.file, second.file);
                all.push(edge(name, &[&one, &other], &[&line, &behind]));
            }
        }
    }
    all
}

fn whole(of: &Of) -> Vec<Edge> {
    let [(read, line), (write, written)] = of.both();
    let edge = |name: &str, stream: &[&[u8]], lines: &[&str]| edge(format!("{}: {name}", of.file), stream, lines);
    let (most, more) = ([b' '; 4_096], [b' '; 4_097]);
    let last = write_line(0, &[&most[..4_032], &of.record[..]].concat());
    vec![
        edge("two calls", &[&read, &write], &[&line, &written]),
        edge("two calls in the other order", &[&write, &read], &[&written, &line]),
        edge("an empty record", &[&of.reading(b""), &read], &["201\n", &line]),
        edge("an empty buffer", &[&of.writing(b"", 0), &read], &["206 \n", &line]),
        edge("4,096 bytes read", &[&of.reading(&most), &read], &["201\n", &line]),
        edge("4,096 bytes lent", &[&of.writing(&most, 4_032), &read], &[&last, &line]),
        edge("4,096 bytes lent, no room", &[&of.writing(&most, 4_033)], &[&write_line(206, &most)]),
        edge("4,097 bytes read", &[&write, &of.reading(&more), &read], &[&written, BROKEN]),
        edge("4,097 bytes lent", &[&write, &of.writing(&more, 0), &read], &[&written, BROKEN]),
    ]
}

fn damaged(of: &Of) -> Vec<Edge> {
    let [(read, line), (write, _)] = of.both();
    let mut all = vec![];
    for (place, name, wrong) in [(0, "file", &NO_FILE[..]), (4, "what", &NO_WHAT), (8, "length", &NO_LENGTH)] {
        for number in wrong {
            for (call, kind) in [(&read, "reading"), (&write, "writing")] {
                let mut call = call.clone();
                call[place..place + 4].copy_from_slice(&number.to_le_bytes());
                let name = format!("{}: {name} {number} of a {kind}", of.file);
                all.push(edge(name, &[&read, &call, &read], &[&line, BROKEN]));
            }
        }
    }
    all
}

fn cut(of: &Of) -> Vec<Edge> {
    let [(read, line), (write, written)] = of.both();
    let mut all = vec![];
    for (call, ends) in [(&read, READ_ENDS), (&write, of.ends)] {
        let bytes = [ends[ends.len() - 1] + 1, call.len() - 1];
        for end in ends.iter().flat_map(|end| [end - 3, end - 1, *end]).chain(bytes) {
            let name = format!("{}: cut after {end} bytes of {}", of.file, call.len());
            all.push(edge(name, &[&call[..end]], &[BROKEN]));
        }
        let cut = ends[0] + 1;
        let name = format!("{}: cut {cut} bytes into the third call", of.file);
        all.push(edge(name, &[&write, &read, &call[..cut]], &[&written, &line, BROKEN]));
    }
    all
}
