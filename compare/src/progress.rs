//! What is said while a program works, and at its end.

use std::io::{self, IsTerminal, Write};
use std::time::{Duration, Instant};

/// Text on standard output. Where nobody reads it any more, nothing is said.
pub fn say(text: &str) {
    let _ = io::stdout().write_all(text.as_bytes());
}

/// A line on standard error that says how far long work is: what is being done, and when it was last told.
pub struct Progress {
    work: String,
    told: Instant,
    terminal: bool,
}

impl Progress {
    /// Nothing is being done yet.
    pub fn new() -> Progress {
        Progress { work: String::new(), told: Instant::now(), terminal: io::stderr().is_terminal() }
    }

    /// From now on this is being done.
    pub fn begin(&mut self, work: &str) {
        self.work = work.to_string();
    }

    /// Tells how many are done: on a terminal once a second on one line, else a line every ten seconds.
    pub fn tell(&mut self, done: u64, things: &str) {
        let pause = Duration::from_secs(if self.terminal { 1 } else { 10 });
        if self.told.elapsed() < pause {
            return;
        }
        self.told = Instant::now();
        let (before, after) = if self.terminal { ("\r", "\x1b[K") } else { ("", "\n") };
        eprint!("{before}{}: {done} {things}{after}", self.work);
        let _ = io::stderr().flush();
    }

    /// Leaves the line, so that other words may follow.
    pub fn end(&mut self) {
        if self.terminal {
            eprint!("\r\x1b[K");
        }
    }
}

impl Default for Progress {
    fn default() -> Progress {
        Progress::new()
    }
}
