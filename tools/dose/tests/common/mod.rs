//! What the tests share: a folder of their own with a copy of the sample, and the front run over fake programs.
#![allow(dead_code)] // each test file uses a part of it

pub mod proof_table;

use std::fs;
use std::path::{Path, PathBuf};
use std::process::{Command, Output};

pub const TABLES: [&str; 7] = ["640.csv", "641.csv", "642.csv", "643.csv", "649.csv", "730.csv", "070.csv"];
pub const ENTRIES: &str = "entries.csv";
pub const SAMPLE: &str = concat!(env!("CARGO_MANIFEST_DIR"), "/sample");
pub const FAKE: &str = concat!(env!("CARGO_MANIFEST_DIR"), "/tests/fake.sh");
/// Stands in for the program `counts`.
pub const FAKE_COUNTS: &str = concat!(env!("CARGO_MANIFEST_DIR"), "/tests/fake_counts.sh");
/// Stands in for the program `record_calls`.
pub const FAKE_CALLS: &str = concat!(env!("CARGO_MANIFEST_DIR"), "/tests/fake_calls.sh");

/// A copy of the proof table with its entries, to be changed by a test.
pub struct Room {
    pub folder: PathBuf,
}

pub struct Ran {
    pub status: i32,
    pub said: String,
    pub complained: String,
}

impl Room {
    pub fn new(test: &str) -> Room {
        let folder = Path::new(env!("CARGO_TARGET_TMPDIR")).join(test);
        let _ = fs::remove_dir_all(&folder);
        fs::create_dir_all(&folder).unwrap();
        let room = Room { folder };
        for file in TABLES.iter().chain([&ENTRIES]) {
            room.write(file, sample(file));
        }
        room.fake_says(&paper_lines());
        room.counts_says("");
        room.calls_says("");
        room
    }

    pub fn write(&self, file: &str, content: impl AsRef<[u8]>) {
        fs::write(self.folder.join(file), content).unwrap();
    }

    pub fn fake_says(&self, lines: &str) {
        self.write("says", lines);
    }

    pub fn counts_says(&self, lines: &str) {
        self.write("counts_says", lines);
    }

    pub fn calls_says(&self, lines: &str) {
        self.write("calls_says", lines);
    }

    pub fn remove(&self, file: &str) {
        fs::remove_file(self.folder.join(file)).unwrap();
    }

    /// `dose check` over the room's files.
    pub fn check(&self, more: &[&str]) -> Ran {
        let programs = ["--program", FAKE, "--counts-program", FAKE_COUNTS, "--calls-program", FAKE_CALLS];
        ran(self.check_without_programs().args(programs).args(more))
    }

    pub fn check_without_programs(&self) -> Command {
        let mut command = self.dose();
        command.arg("check").arg(&self.folder).arg(self.folder.join(ENTRIES));
        command
    }

    pub fn units(&self, file: &str) -> Ran {
        ran(self.dose().arg("units").arg(self.folder.join(file)).args(["--program", FAKE]))
    }

    pub fn products(&self, file: &str) -> Ran {
        ran(self.dose().arg("products").arg(self.folder.join(file)).args(["--program", FAKE_CALLS]))
    }

    /// The front, with the fake programs' orders; what they heard before is forgotten.
    pub fn dose(&self) -> Command {
        let mut command = Command::new(env!("CARGO_BIN_EXE_dose"));
        for (of, file) in [("FAKE", ""), ("FAKE_COUNTS", "counts_"), ("FAKE_CALLS", "calls_")] {
            let heard = self.folder.join(format!("{file}heard"));
            let _ = fs::remove_file(&heard);
            command.env(format!("{of}_HEARD"), heard);
            command.env(format!("{of}_SAYS"), self.folder.join(format!("{file}says")));
        }
        command
    }

    /// What the fake program heard, if it was started.
    pub fn heard(&self) -> Option<Vec<u8>> {
        fs::read(self.folder.join("heard")).ok()
    }

    /// What the fake program `counts` heard, if it was started.
    pub fn counts_heard(&self) -> Option<Vec<u8>> {
        fs::read(self.folder.join("counts_heard")).ok()
    }

    /// What the fake program `record_calls` heard, if it was started.
    pub fn calls_heard(&self) -> Option<Vec<u8>> {
        fs::read(self.folder.join("calls_heard")).ok()
    }

    /// The check must be refused with these words, without a line printed and without a program started.
    pub fn refused(&self, words: &[&str]) {
        let ran = self.check(&[]);
        assert_eq!(ran.status, 2, "{words:?}: {}", ran.complained);
        assert_eq!(ran.said, "", "{words:?}");
        assert!(self.heard().is_none() && self.counts_heard().is_none(), "{words:?}: a program was started");
        assert!(ran.complained.contains("nothing was checked"), "{}", ran.complained);
        for word in words {
            assert!(ran.complained.contains(word), "`{word}` is not in:\n{}", ran.complained);
        }
    }
}

pub fn ran(command: &mut Command) -> Ran {
    let Output { status, stdout, stderr } = command.output().unwrap();
    Ran {
        status: status.code().expect("the front ends by itself"),
        said: String::from_utf8(stdout).unwrap(),
        complained: String::from_utf8(stderr).unwrap(),
    }
}

/// A file of the proof table's folder.
pub fn sample(file: &str) -> String {
    fs::read_to_string(Path::new(SAMPLE).join("proof-table").join(file)).unwrap()
}

/// A file of the sample with ranges.
pub fn ranges(file: &str) -> String {
    fs::read_to_string(Path::new(SAMPLE).join("ranges").join(file)).unwrap()
}

/// A file of the sample with months.
pub fn months(file: &str) -> String {
    fs::read_to_string(Path::new(SAMPLE).join("months").join(file)).unwrap()
}

/// A file of the sample with quiet.
pub fn quiet(file: &str) -> String {
    fs::read_to_string(Path::new(SAMPLE).join("quiet").join(file)).unwrap()
}

/// A file of the sample with both editions.
pub fn edition(file: &str) -> String {
    fs::read_to_string(Path::new(SAMPLE).join("edition").join(file)).unwrap()
}

/// A file of the sample with HPKs.
pub fn hpk(file: &str) -> String {
    fs::read_to_string(Path::new(SAMPLE).join("hpk").join(file)).unwrap()
}

/// The header of the proof table's entries, then K1 under each of these names with this count.
pub fn k1_with(counts: &[(&str, &str)]) -> String {
    let entry = |(name, count): &(&str, &str)| {
        format!("{name},103136,,,240,,75000,,3,0,0,0,{count},19,2000,2000,233,233,0,0,on,2\n")
    };
    let header = sample(ENTRIES).lines().next().unwrap().to_string();
    format!("{header}\n{}", counts.iter().map(entry).collect::<String>())
}

/// K1 with these counts, these columns behind CODE and these cells in them.
pub fn k1_ending(counts: &[(&str, &str)], columns: &str, cells: &str) -> String {
    let with_columns = k1_with(counts).replace(",months,edition\n", &format!(",{columns}\n"));
    with_columns.replace(",on,2\n", &format!(",{cells}\n"))
}

/// expected.csv, written from document 01, as the lines of the program `answers`.
pub fn paper_lines() -> String {
    let expected = sample("expected.csv");
    let numbers = |line: &str| line.split_once(',').unwrap().1.replace(',', " ") + "\n";
    expected.lines().skip(1).map(numbers).collect()
}

/// A line of an expected.csv that has counts, as the program writes it.
pub fn program_line(line: &str) -> String {
    let numbers = line.splitn(3, ',').nth(2).unwrap();
    if numbers.starts_with("131,") {
        return "131\n".to_string();
    }
    numbers.replace(',', " ") + "\n"
}
