//! What a command prints: plain text, or JSON a line.

use super::failure::Failure;
use super::json::Json;
use super::shown;
use std::io::{self, ErrorKind, IsTerminal, Write, stderr, stdin, stdout};

/// Where and how to print.
pub struct Out {
    /// JSON, not text.
    pub json: bool,
    /// Standard output was closed when the program began.
    pub is_closed: bool,
}

impl Out {
    /// The answer of a command, in either form.
    pub fn answer(&self, text: impl FnOnce() -> String, json: impl FnOnce() -> Json) -> Result<(), Failure> {
        if self.json { self.lines(&json().to_string()) } else { self.lines(&text()) }
    }

    /// Lines to standard output.
    pub fn lines(&self, text: &str) -> Result<(), Failure> {
        self.bytes(format!("{}\n", shown::lines(text)).as_bytes())
    }

    /// Bytes to standard output.
    pub fn bytes(&self, bytes: &[u8]) -> Result<(), Failure> {
        if self.is_closed {
            return Err(Failure::Io("standard output is closed: open it, or send it to /dev/null".to_string()));
        }
        let mut out = stdout().lock();
        out.write_all(bytes).and_then(|()| out.flush()).map_err(|error| not_taken(&error))
    }

    /// A line of a job's progress. Nobody may be reading; the job goes on all the same.
    pub fn progress(&self, text: impl FnOnce() -> String, json: impl FnOnce() -> Json) {
        let _ = self.answer(text, json);
    }

    /// A failure: the sentence goes to standard error, its JSON form to standard output.
    pub fn failure(&self, failure: &Failure) {
        if matches!(failure, Failure::OutputClosed | Failure::Told(_)) {
            return;
        }
        // where standard output takes nothing, standard error has to do
        if !self.json || self.lines(&failure.json().to_string()).is_err() {
            self.remark(&failure.to_string());
        }
    }

    /// A remark beside the answer.
    pub fn remark(&self, text: &str) {
        let _ = writeln!(stderr(), "rinzo: {}", shown::lines(text));
    }

    /// What a person answers to a question; none where standard input is no terminal.
    pub fn ask(&self, question: &str) -> Option<bool> {
        if !stdin().is_terminal() {
            return None;
        }
        let _ = write!(stderr(), "{}", shown::lines(question));
        let mut answer = String::new();
        let _ = stdin().read_line(&mut answer);
        Some(matches!(answer.trim(), "y" | "yes"))
    }

    /// Whether a person sees how far long work has come.
    pub fn tells_progress(&self) -> bool {
        !self.json && stderr().is_terminal()
    }

    /// Whether bytes on standard output would be shown to a person.
    pub fn is_terminal(&self) -> bool {
        stdout().is_terminal()
    }
}

/// Nobody reading is no failure to speak of; anything else is.
fn not_taken(error: &io::Error) -> Failure {
    match error.kind() {
        ErrorKind::BrokenPipe => Failure::OutputClosed,
        _ => Failure::Io(format!("standard output could not be written, what it has is not whole: {error}")),
    }
}
