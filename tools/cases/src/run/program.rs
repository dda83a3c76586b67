//! Another program, run on a stream.

use std::io::{Read, Write};
use std::process::{Command, Stdio};
use std::thread;

/// This program as it was called, so that a printed command can be given as it stands.
pub fn this() -> String {
    std::env::args().next().unwrap_or("cases".to_string())
}

/// A path, or where no such file stands, a path and arguments with spaces between.
fn command(program: &str) -> Command {
    if std::path::Path::new(program).exists() {
        return Command::new(program);
    }
    let mut words = program.split_whitespace();
    let mut command = Command::new(words.next().unwrap_or_default());
    command.args(words);
    command
}

/// What the program wrote, and how it ended, if badly.
pub struct Output {
    pub bytes: Vec<u8>,
    pub ended: Result<(), String>,
}

pub fn output(program: &str, input: &[u8]) -> Result<Output, String> {
    let failed = |what: &str, error: std::io::Error| format!("{program}: {what}: {error}");
    let mut child = command(program)
        .stdin(Stdio::piped())
        .stdout(Stdio::piped())
        .spawn()
        .map_err(|error| failed("does not start", error))?;
    let mut stdin = child.stdin.take().ok_or("no standard input")?;
    let mut stdout = child.stdout.take().ok_or("no standard output")?;
    let mut bytes = vec![];
    thread::scope(|scope| {
        // A program that ends early closes its input; its output then shows where.
        scope.spawn(move || stdin.write_all(input).is_ok());
        stdout.read_to_end(&mut bytes).map_err(|error| failed("cannot be read", error))
    })?;
    let status = child.wait().map_err(|error| failed("does not end", error))?;
    let ended = if status.success() { Ok(()) } else { Err(format!("{program}: ended with {status}")) };
    Ok(Output { bytes, ended })
}

/// The lines of a program that ends well.
pub fn lines(program: &str, input: &[u8]) -> Result<Vec<String>, String> {
    let output = output(program, input)?;
    output.ended?;
    Ok(String::from_utf8_lossy(&output.bytes).lines().map(str::to_string).collect())
}
