//! How far a long sweep is, on standard error: on a terminal in one line, else now and then.
use std::io::{stderr, IsTerminal, Write};
use std::time::Instant;

pub struct Progress {
    start: Instant,
    said: u64,
}

impl Progress {
    pub fn new() -> Progress {
        Progress { start: Instant::now(), said: 0 }
    }

    pub fn at(&mut self, done: usize, all: usize) {
        let every = if stderr().is_terminal() { 500 } else { 5000 };
        let now = self.start.elapsed().as_millis() as u64 / every;
        if now > self.said {
            self.said = now;
            self.say(&format!("  {done} of {all} cuts, {} in a hundred", done * 100 / all.max(1)));
        }
    }

    fn say(&self, text: &str) {
        let end = if stderr().is_terminal() { "\r" } else { "\n" };
        let _ = write!(stderr(), "{text}{end}");
    }

    pub fn end(&self) {
        if self.said > 0 && stderr().is_terminal() {
            let _ = write!(stderr(), "{:60}\r", "");
        }
    }
}
