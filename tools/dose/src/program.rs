//! Where a proved program is, and how this machine starts it.

use crate::kit;
use std::io::{self, Read};
use std::path::{Path, PathBuf};
use std::process::{Child, Command, Stdio};

/// The file at the root of the repository, by which the root is known.
const ROOT_MARK: &str = "crates.txt";

/// A proved program, and the option that names it.
pub struct Proved {
    name: &'static str,
    option: &'static str,
}

pub const ANSWERS: Proved = Proved { name: "answers", option: "--program" };
pub const COUNTS: Proved = Proved { name: "counts", option: "--counts-program" };
pub const UNIT_LIST: Proved = Proved { name: "unit_list", option: "--program" };

/// Beside `answers` it has an option of its own.
pub const fn record_calls(option: &'static str) -> Proved {
    Proved { name: "record_calls", option }
}

/// The program that was given, or the one that tools/build-programs puts into the repository around this front.
pub fn find(proved: &Proved, given: Option<&Path>) -> Result<PathBuf, String> {
    if let Some(path) = given {
        return path
            .canonicalize()
            .map_err(|e| format!("the program {} cannot be found: {e}", path.display()));
    }
    let below_root = Path::new("crates").join(proved.name).join("out").join(proved.name);
    let front = std::env::current_exe().ok();
    let here = std::env::current_dir().ok();
    for start in [front, here].into_iter().flatten() {
        let root = start.ancestors().find(|folder| folder.join(ROOT_MARK).is_file());
        if let Some(program) = root.map(|root| root.join(&below_root)).filter(|program| program.is_file()) {
            return Ok(program);
        }
    }
    Err(format!(
        "the proved program {} is not there: run tools/build-programs in the repository, or name it with {} PATH",
        below_root.display(),
        proved.option
    ))
}

/// Starts the program with its input and output in our hands.
pub fn start(program: &Path) -> Result<Child, String> {
    let is_foreign = is_for_x86_64(program) && std::env::consts::ARCH != "x86_64";
    if !is_foreign {
        match spawn(Command::new(program)) {
            Err(e) if is_for_x86_64(program) && e.kind() == io::ErrorKind::NotFound => {} // its loader is absent
            Err(e) => return Err(format!("the program {} cannot be started: {e}", program.display())),
            Ok(child) => return Ok(child),
        }
    }
    let command = kit::command(program)?;
    spawn(command).map_err(|e| format!("the program {} cannot be started: {e}", program.display()))
}

fn spawn(mut command: Command) -> io::Result<Child> {
    command.stdin(Stdio::piped()).stdout(Stdio::piped()).spawn()
}

/// Whether the file is an ELF program for x86-64, as all proved programs are.
fn is_for_x86_64(program: &Path) -> bool {
    const MAGIC: &[u8] = b"\x7FELF";
    const MACHINE: std::ops::Range<usize> = 18..20;
    const X86_64: [u8; 2] = 62u16.to_le_bytes();
    let mut head = [0; 20];
    let read = std::fs::File::open(program).and_then(|mut file| file.read_exact(&mut head));
    read.is_ok() && head.starts_with(MAGIC) && head[MACHINE] == X86_64
}
