//! How far a long run is, on standard error.

use std::io::{self, IsTerminal, Write};
use std::time::{Duration, Instant};

const QUIET: Duration = Duration::from_secs(1);
const ON_TERMINAL: Duration = Duration::from_millis(200);
const IN_FILE: Duration = Duration::from_secs(5);
/// Where standard error is no terminal, shorter lists are run in silence.
const MANY: usize = 10_000;

pub struct Progress {
    start: Instant,
    next: Duration,
    done: usize,
    total: usize,
    is_terminal: bool,
    is_shown: bool,
}

impl Progress {
    pub fn new(total: usize) -> Progress {
        let is_terminal = io::stderr().is_terminal();
        Progress { start: Instant::now(), next: QUIET, done: 0, total, is_terminal, is_shown: false }
    }

    pub fn one_more(&mut self) {
        self.done += 1;
        if !self.is_terminal && self.total < MANY || self.start.elapsed() < self.next {
            return;
        }
        let (before, after, pause) =
            if self.is_terminal { ("\r", "", ON_TERMINAL) } else { ("", "\n", IN_FILE) };
        // a run does not fail because its progress cannot be shown
        let _ = write!(io::stderr(), "{before}dose: {} of {} answers given{after}", self.done, self.total);
        self.is_shown = true;
        self.next = self.start.elapsed() + pause;
    }
}

impl Drop for Progress {
    fn drop(&mut self) {
        if self.is_terminal && self.is_shown {
            let _ = writeln!(io::stderr());
        }
    }
}
