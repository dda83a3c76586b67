//! Sends a program its input and hears its lines, at the same time, so that neither waits for the other.

use crate::program;
use std::io::{self, BufRead, BufReader, BufWriter, Write};
use std::path::Path;

/// Runs the program to its end. The lines it writes go to `hear`, which may refuse one.
/// Whatever is not a whole, successful run is an error that says so.
pub fn run(
    path: &Path,
    send: impl FnOnce(&mut dyn Write) -> io::Result<()> + Send,
    mut hear: impl FnMut(&str) -> Result<(), String>,
) -> Result<(), String> {
    let mut child = program::start(path)?;
    let input = child.stdin.take().expect("the input is in our hands");
    let output = child.stdout.take().expect("the output is in our hands");
    let (heard, sent) = std::thread::scope(|scope| {
        let sender = scope.spawn(|| send(&mut BufWriter::new(input)));
        let heard = hear_all(path, BufReader::new(output), &mut hear);
        if heard.is_err() {
            let _ = child.kill(); // it may have ended by itself
        }
        (heard, sender.join().expect("sending does not panic"))
    });
    let status = child.wait();
    heard?;
    let status = status.map_err(|e| format!("the program {} did not end: {e}", path.display()))?;
    if !status.success() {
        return Err(format!("the program {} failed ({status})", path.display()));
    }
    sent.map_err(|e| format!("the program {} did not read all of its input: {e}", path.display()))
}

fn hear_all(
    path: &Path,
    mut output: impl BufRead,
    hear: &mut impl FnMut(&str) -> Result<(), String>,
) -> Result<(), String> {
    let program = path.display();
    let mut line = Vec::new();
    loop {
        line.clear();
        let length = output
            .read_until(b'\n', &mut line)
            .map_err(|e| format!("the program {program} cannot be heard: {e}"))?;
        if length == 0 {
            return Ok(());
        }
        let Some(text) = line.strip_suffix(b"\n") else {
            let text = String::from_utf8_lossy(&line);
            return Err(format!("the program {program} ended inside a line: `{text}`"));
        };
        hear(&String::from_utf8_lossy(text))?;
    }
}
