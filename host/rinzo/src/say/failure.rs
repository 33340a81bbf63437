//! How a command can fail, as a sentence that says what to do and as an exit status.

use super::json::Json;
use super::refused::Refused;
use super::shown;
use std::fmt;
use std::io;
use std::path::{Path, PathBuf};

/// Why a command did not do what it was asked.
#[derive(Debug)]
pub enum Failure {
    /// The library refused: the status is the paper's number, 1 to 20.
    Refused(Refused),
    /// The command line is wrong: 64.
    Usage(String),
    /// A file to read is not there or no file: 66.
    NoInput(String),
    /// Something would be lost or doubled, and there is an option that does it: 73.
    Exists(String),
    /// The system failed to read or write: 74.
    Io(String),
    /// Another program works on the file: 75.
    Busy(String),
    /// Not permitted: 77.
    NotPermitted(String),
    /// Ctrl-C while this file was worked on: 130.
    Interrupted(PathBuf),
    /// A job was dropped: why, and what the file shows now. The status is the reason's own.
    Dropped(Box<Failure>, String),
    /// It was told of each file as it came; the status of the first that failed.
    Told(u8),
    /// Nobody reads standard output any more: 74, and nothing to say.
    OutputClosed,
}

impl Failure {
    /// The exit status.
    pub fn status(&self) -> u8 {
        match self {
            Failure::Refused(refused) => refused.why.number() as u8,
            Failure::Usage(_) => 64,
            Failure::NoInput(_) => 66,
            Failure::Exists(_) => 73,
            Failure::Io(_) | Failure::OutputClosed => 74,
            Failure::Busy(_) => 75,
            Failure::NotPermitted(_) => 77,
            Failure::Interrupted(_) => 130,
            Failure::Told(status) => *status,
            Failure::Dropped(why, _) => why.status(),
        }
    }

    /// For a file that could not be opened, made or read.
    pub fn of(path: &Path, error: &io::Error) -> Failure {
        let name = shown::name(path);
        match error.kind() {
            io::ErrorKind::NotFound => Failure::NoInput(missing(path)),
            io::ErrorKind::IsADirectory => {
                Failure::NoInput(format!("{name} is a folder: give the path of a file in it"))
            }
            io::ErrorKind::NotADirectory => {
                Failure::NoInput(format!("{name} has a file where it should have a folder: check the path"))
            }
            io::ErrorKind::PermissionDenied | io::ErrorKind::ReadOnlyFilesystem => Failure::NotPermitted(format!(
                "{name} may not be opened like this: it is read-only or another user's ({error})"
            )),
            _ => Failure::Io(format!("{name}: {error}")),
        }
    }

    /// For programs.
    pub fn json(&self) -> Json {
        let mut fields = self.number_for_programs();
        fields.push(("sentence", Json::text(self.to_string())));
        Json::Object(fields)
    }

    fn number_for_programs(&self) -> Vec<(&'static str, Json)> {
        match self {
            Failure::Refused(refused) => refused.fields(),
            Failure::Dropped(why, _) => why.number_for_programs(),
            _ => vec![("failed", Json::number(self.status()))],
        }
    }
}

/// What is missing: the file, or already the folder that it should be in.
fn missing(path: &Path) -> String {
    match path.parent() {
        Some(folder) if !folder.as_os_str().is_empty() && !folder.exists() => {
            format!("{}: the folder {} is not there: make it first", shown::name(path), shown::name(folder))
        }
        _ => format!("{} is not there: check the name", shown::name(path)),
    }
}

impl From<Refused> for Failure {
    fn from(refused: Refused) -> Failure {
        Failure::Refused(refused)
    }
}

impl fmt::Display for Failure {
    fn fmt(&self, f: &mut fmt::Formatter) -> fmt::Result {
        match self {
            Failure::Refused(refused) => refused.fmt(f),
            Failure::Interrupted(path) => write!(f, "{}: interrupted", shown::name(path)),
            Failure::Dropped(why, shows) => write!(f, "{why}. The job is dropped; {shows}"),
            Failure::Told(_) => write!(f, "not every file is as it should be"),
            Failure::OutputClosed => write!(f, "nobody reads the output"),
            Failure::Usage(s)
            | Failure::NoInput(s)
            | Failure::Exists(s)
            | Failure::Io(s)
            | Failure::Busy(s)
            | Failure::NotPermitted(s) => f.write_str(s),
        }
    }
}
