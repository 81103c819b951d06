//! A line on standard error, where something takes more than two seconds.

use std::io::Write;
use std::time::{Duration, Instant};

const PATIENCE: Duration = Duration::from_secs(2);

pub struct Progress {
    what: &'static str,
    next: Instant,
    shown: bool,
}

impl Progress {
    pub fn of(what: &'static str) -> Progress {
        Progress { what, next: Instant::now() + PATIENCE, shown: false }
    }

    /// Says how far it is, at most once in two seconds.
    pub fn at(&mut self, done: usize, all: usize) {
        self.say(format_args!("{done} of {all}"));
    }

    /// The same, where nobody knows how far it goes.
    pub fn so_far(&mut self, done: usize) {
        self.say(format_args!("{done} so far"));
    }

    fn say(&mut self, far: std::fmt::Arguments<'_>) {
        if Instant::now() >= self.next {
            self.shown = true;
            self.next = Instant::now() + PATIENCE;
            // Whoever does not listen misses nothing of the result.
            let _ = writeln!(std::io::stderr(), "{}: {far}", self.what);
        }
    }
}

impl Drop for Progress {
    fn drop(&mut self) {
        if self.shown {
            let _ = writeln!(std::io::stderr(), "{}: done", self.what);
        }
    }
}
