//! How far a long run has come, on standard error.

use std::io::{self, IsTerminal, Write};
use std::time::{Duration, Instant};

/// On a terminal the line is written no sooner than this after it was written before.
const PAUSE: Duration = Duration::from_millis(100);
/// Elsewhere there is a line for so many.
const STRIDE: usize = 100;

/// A line that is written again in its place on a terminal, and elsewhere a line now and then. What
/// can't be written to standard error is left out: the run goes on.
pub struct Progress {
    total: usize,
    done: usize,
    terminal: bool,
    /// When the line was written, or the run began.
    last: Instant,
    /// How many columns of the terminal it has.
    shown: usize,
}

impl Progress {
    pub fn new(total: usize) -> Self {
        Self {
            total,
            done: 0,
            terminal: io::stderr().is_terminal(),
            last: Instant::now(),
            shown: 0,
        }
    }

    /// One more parcel is done.
    pub fn step(&mut self) {
        self.done += 1;
        let text = format!("{} of {} parcels", self.done, self.total);
        if !self.terminal {
            if self.done % STRIDE == 0 {
                write(&format!("{text}\n"));
            }
        } else if self.last.elapsed() >= PAUSE {
            // It never gets shorter, so that nothing of the one before is left.
            write(&format!("\r{text}"));
            self.shown = text.len();
            self.last = Instant::now();
        }
    }

    /// Writes another line. A name in it may have any characters: one line it stays.
    pub fn line(&mut self, text: &str) {
        self.clear();
        write(&format!("{}\n", text.replace(char::is_control, "?")));
    }

    /// Takes the line off the terminal.
    pub fn clear(&mut self) {
        if self.shown > 0 {
            write(&format!("\r{:width$}\r", "", width = self.shown));
            self.shown = 0;
        }
    }
}

fn write(text: &str) {
    io::stderr().write_all(text.as_bytes()).ok();
}
