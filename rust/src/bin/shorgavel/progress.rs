//! A line on the terminal that tells how far long work is.

use std::io::{self, IsTerminal, Write};
use std::time::{Duration, Instant};

/// Short work shows no line at all, and no line is written more often than the eye can follow.
const FIRST: Duration = Duration::from_millis(500);
const AGAIN: Duration = Duration::from_millis(100);

pub struct Progress {
    /// When the line is due; never where standard error is no terminal.
    due: Option<Instant>,
    shown: bool,
    total: usize,
    done: usize,
}

impl Progress {
    /// So much is to be done, in pages or rows.
    pub fn new(total: usize) -> Progress {
        let due = io::stderr().is_terminal().then(|| Instant::now() + FIRST);
        Progress { due, shown: false, total, done: 0 }
    }

    /// So much of it is done. It is called for each row, so it is quick where no line is ever shown, and where nothing is
    /// new.
    #[inline]
    pub fn reach(&mut self, done: usize) {
        if self.done != done {
            self.done = done;
            if self.due.is_some() {
                self.show();
            }
        }
    }

    /// One more of it is done.
    pub fn step(&mut self) {
        self.reach(self.done + 1);
    }

    fn show(&mut self) {
        let now = Instant::now();
        if self.due.is_some_and(|due| due <= now) {
            self.line();
            self.due = Some(now + AGAIN);
        }
    }

    /// A terminal that takes no line is no reason to stop.
    fn line(&mut self) {
        let percent = 100 * self.done / self.total.max(1);
        let _ = write!(io::stderr(), "\r{percent:3} % is done");
        self.shown = true;
    }
}

/// The line is taken away, also where the work ends early.
impl Drop for Progress {
    fn drop(&mut self) {
        if self.shown {
            let _ = write!(io::stderr(), "\r\x1b[K");
        }
    }
}
