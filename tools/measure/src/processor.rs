//! The processor's time of another program, in microseconds: what else the machine does counts less than in the time that passes.

use std::fs::File;
use std::io;
use std::process::{Command, Stdio};

/// Linux's struct rusage: two times in seconds and microseconds, and fourteen numbers that are not looked at.
#[repr(C)]
#[derive(Default)]
struct Usage {
    user: [i64; 2],
    system: [i64; 2],
    others: [i64; 14],
}

extern "C" {
    fn getrusage(who: i32, usage: *mut Usage) -> i32;
}

/// The programs that this one has started and waited for.
const CHILDREN: i32 = -1;

fn so_far() -> io::Result<i64> {
    let mut usage = Usage::default();
    // SAFETY: `usage` has the size and the layout that Linux gives struct rusage on 64 bits.
    match unsafe { getrusage(CHILDREN, &mut usage) } {
        0 => Ok((usage.user[0] + usage.system[0]) * 1_000_000 + usage.user[1] + usage.system[1]),
        _ => Err(io::Error::last_os_error()),
    }
}

pub fn microseconds(input: &str, output: &str, program: &str) -> io::Result<i64> {
    let before = so_far()?;
    let mut command = Command::new(program);
    let status = command.stdin(File::open(input)?).stdout(File::create(output)?).stderr(Stdio::inherit()).status()?;
    match status.success() {
        true => Ok(so_far()? - before),
        false => Err(io::Error::other(format!("{program} ended with {status}"))),
    }
}
