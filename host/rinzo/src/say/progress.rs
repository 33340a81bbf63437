//! How far long work has come: a line on a terminal, which goes when the work is done. Nothing in a pipe.

use super::out::Out;
use std::io::{Write, stderr};
use std::time::{Duration, Instant};

/// How often the line is written anew.
const TURN: Duration = Duration::from_millis(100);

/// Work of which so much is done.
pub struct Progress {
    what: &'static str,
    unit: Unit,
    done: u64,
    /// When the line was written last; none before the first, and nothing is written without a terminal.
    told: Option<Instant>,
    on_terminal: bool,
}

enum Unit {
    /// So many in all.
    Things(u64),
    Bytes,
}

impl Progress {
    /// Work on so many things; short work is not told.
    pub fn of_things(out: &Out, what: &'static str, all: usize) -> Progress {
        Progress {
            what,
            unit: Unit::Things(all as u64),
            done: 0,
            told: None,
            on_terminal: out.tells_progress() && all >= 100,
        }
    }

    /// Work on bytes; it is told from the first million on.
    pub fn of_bytes(out: &Out, what: &'static str) -> Progress {
        Progress { what, unit: Unit::Bytes, done: 0, told: None, on_terminal: out.tells_progress() }
    }

    /// So much more is done.
    pub fn went_on(&mut self, by: u64) {
        self.done += by;
        let text = match self.unit {
            Unit::Things(all) => format!("{} {} of {all}", self.what, self.done),
            Unit::Bytes if self.done >= 1_000_000 => {
                format!("{}: {}.{} MB", self.what, self.done / 1_000_000, self.done / 100_000 % 10)
            }
            Unit::Bytes => return,
        };
        if self.on_terminal && self.told.is_none_or(|told| told.elapsed() >= TURN) {
            let _ = write!(stderr(), "\r\x1b[K{text}");
            self.told = Some(Instant::now());
        }
    }
}

impl Drop for Progress {
    fn drop(&mut self) {
        if self.told.is_some() {
            let _ = write!(stderr(), "\r\x1b[K");
        }
    }
}
