//! The progress line: rewritten in place on a terminal, else a line every few seconds.

use std::io::{stderr, IsTerminal, Write};
use std::time::{Duration, Instant};

/// Looking at the clock costs more than a small case, so it is done once in so many.
const CASES_PER_LOOK: u64 = 1024;

pub struct Progress {
    name: &'static str,
    total: u64,
    terminal: bool,
    began: Instant,
    next: Instant,
}

impl Progress {
    pub fn new(name: &'static str, total: u64) -> Self {
        let now = Instant::now();
        let terminal = stderr().is_terminal();
        Progress {
            name,
            total,
            terminal,
            began: now,
            next: now + pause(terminal),
        }
    }

    pub fn done(&mut self, cases: u64) {
        if cases % CASES_PER_LOOK != 0 || Instant::now() < self.next {
            return;
        }
        self.next = Instant::now() + pause(self.terminal);
        let end = if self.terminal { "\r" } else { "\n" };
        let text = format!(
            "{}: {cases} of {} cases, {:.0} s",
            self.name,
            self.total,
            self.began.elapsed().as_secs_f64()
        );
        // Progress that cannot be shown is no reason to stop.
        let _ = write!(stderr(), "{text}{end}");
    }

    /// Clears the line that the terminal shows.
    pub fn end(&self) {
        if self.terminal {
            let _ = write!(stderr(), "\r\x1b[K");
        }
    }
}

fn pause(terminal: bool) -> Duration {
    if terminal {
        Duration::from_millis(200)
    } else {
        Duration::from_secs(5)
    }
}
