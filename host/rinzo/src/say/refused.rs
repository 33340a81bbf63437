//! A refusal of the library, with what it was about.

use super::json::Json;
use super::shown;
use sdd::Refusal;
use std::fmt;
use std::path::{Path, PathBuf};

/// Why the library refused, and of what.
#[derive(Debug)]
pub struct Refused {
    pub why: Refusal,
    /// The file, or for a scan that is to be saved the scan's.
    path: PathBuf,
    /// It came on standard input, and has no name.
    is_input: bool,
    /// The slot that was asked for.
    slot: Option<u64>,
    /// How many slots the file has.
    slots: Option<u64>,
    /// All bytes of the file are zeros.
    is_zeros: bool,
    /// What is wrong and what to do, where more is known than the number says.
    cause: Option<String>,
    /// What else there is to say.
    beside: Option<String>,
}

impl Refused {
    /// A refusal of this file.
    pub fn of(path: &Path, why: Refusal) -> Refused {
        Refused {
            why,
            path: path.to_path_buf(),
            is_input: false,
            slot: None,
            slots: None,
            is_zeros: false,
            cause: None,
            beside: None,
        }
    }

    /// A refusal of the file that came on standard input.
    pub fn of_input(path: &Path, why: Refusal) -> Refused {
        Refused { is_input: true, ..Refused::of(path, why) }
    }

    /// The same, of the slot that was asked for.
    pub fn at(self, slot: Option<u64>) -> Refused {
        Refused { slot, ..self }
    }

    /// The same, of a file with so many slots.
    pub fn among(self, slots: Option<u64>) -> Refused {
        Refused { slots, ..self }
    }

    /// The same, of a file of zeros or not.
    pub fn of_zeros(self, is_zeros: bool) -> Refused {
        Refused { is_zeros, ..self }
    }

    /// The same, for a cause that is known.
    pub fn because(self, cause: String) -> Refused {
        Refused { cause: Some(cause), ..self }
    }

    /// The same, with something else to say at its end.
    pub fn beside(self, beside: Option<String>) -> Refused {
        Refused { beside, ..self }
    }

    /// What looks for the scans where the index is damaged.
    fn finder(&self) -> String {
        match self.is_input {
            true => "`rinzo find` looks for the scans of a saved file".to_string(),
            false => format!("`rinzo find {}` looks for the scans", shown::name(&self.path)),
        }
    }

    /// The slot that the refusal is about, where it is about one.
    fn its_slot(&self) -> Option<u64> {
        match self.why {
            Refusal::BadEntry(slot) | Refusal::EntryAboveUsed(slot) | Refusal::SharedRecord(slot) => Some(slot.into()),
            Refusal::NoSuchSlot | Refusal::EmptySlot | Refusal::BadScan(_) => self.slot,
            Refusal::NotVersionOne | Refusal::NotConvertible => self.slot,
            _ => None,
        }
    }

    /// Its numbers, for programs.
    pub fn fields(&self) -> Vec<(&'static str, Json)> {
        let mut fields = vec![("refused", Json::number(self.why.number()))];
        fields.extend(self.its_slot().map(|slot| ("slot", Json::number(slot))));
        if let Refusal::BadScan(rule) = self.why {
            fields.push(("rule", Json::number(rule.number())));
        }
        fields.push(("file", Json::path(&self.path)));
        fields
    }
}

impl fmt::Display for Refused {
    fn fmt(&self, f: &mut fmt::Formatter) -> fmt::Result {
        self.sentence(f)?;
        self.beside.iter().try_for_each(|beside| write!(f, "; {beside}"))
    }
}

impl Refused {
    fn sentence(&self, f: &mut fmt::Formatter) -> fmt::Result {
        let number = self.why.number();
        let file = if self.is_input { "standard input".to_string() } else { shown::name(&self.path) };
        match (self.why, self.its_slot()) {
            _ if self.is_zeros => write!(
                f,
                "refused {number}: {file} is empty, all its bytes are zeros: if nothing is missing in it, blank it with --force"
            ),
            _ if self.cause.is_some() => {
                write!(f, "refused {number}: {file}: {}", self.cause.as_deref().unwrap_or_default())
            }
            (Refusal::NoSuchSlot, Some(slot)) if self.slots.is_some() => write!(
                f,
                "refused 9: {file} has slots 1 to {}, and {slot} is none of them: give one of those",
                self.slots.unwrap_or_default()
            ),
            (Refusal::EmptySlot | Refusal::BadScan(_) | Refusal::NotVersionOne, Some(slot)) => {
                write!(f, "refused {number}: {file}: slot {slot}: {}", self.why.sentence())
            }
            (Refusal::BadEntry(slot) | Refusal::EntryAboveUsed(slot) | Refusal::SharedRecord(slot), _) => write!(
                f,
                "refused {number} slot {slot}: {file}: {}; without one, {} without the index",
                self.why.sentence(),
                self.finder()
            ),
            (_, Some(slot)) => write!(f, "refused {number} slot {slot}: {file}: {}", self.why.sentence()),
            (_, None) => write!(f, "refused {number}: {file}: {}", self.why.sentence()),
        }
    }
}
