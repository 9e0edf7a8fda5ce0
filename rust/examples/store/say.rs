//! Lines on standard output, and progress on a terminal.

use crate::trouble::Trouble;
use std::io::{self, IsTerminal, Write};
use std::time::Duration;

/// A line on standard output. One that cannot be written is a failure of the run.
pub fn out(line: &str) -> Result<(), Trouble> {
    let mut to = io::stdout().lock();
    let written = writeln!(to, "{line}").and_then(|()| to.flush());
    written.map_err(|error| Trouble::Failed(format!("cannot write to standard output: {error}")))
}

/// A line on standard error. The exit status says the same, should it not be written.
pub fn error(text: &str) {
    let _ = writeln!(io::stderr(), "{}", text.trim_end());
}

/// A number with a comma before each three digits that follow others.
pub fn grouped(number: usize) -> String {
    let digits = number.to_string();
    let threes: Vec<_> = digits.as_bytes().rchunks(3).rev().map(String::from_utf8_lossy).collect();
    threes.join(",")
}

/// Millions of bytes a second.
pub fn speed(bytes: usize, time: Duration) -> String {
    format!("{:.1} MB/s", bytes as f64 / 1e6 / time.as_secs_f64().max(1e-9))
}

/// A line on standard error that is rewritten in place, where that is a terminal.
pub struct Progress {
    name: &'static str,
    total: usize,
    shown: Option<usize>,
    terminal: bool,
}

impl Progress {
    pub fn new(name: &'static str, total: usize) -> Progress {
        Progress { name, total, shown: None, terminal: io::stderr().is_terminal() }
    }

    pub fn at(&mut self, done: usize) {
        let percent = done * 100 / self.total.max(1);
        if self.terminal && self.shown != Some(percent) {
            self.shown = Some(percent);
            let _ = write!(io::stderr(), "\r{}: {percent}%", self.name);
        }
    }
}

impl Drop for Progress {
    fn drop(&mut self) {
        if self.shown.is_some() {
            let _ = write!(io::stderr(), "\r{:20}\r", "");
        }
    }
}
