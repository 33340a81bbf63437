//! The sizes of a file, and its form.

use face::version;

/// Which form a file has: how its bootstrap and its index are written. Its scans are the same in both.
#[derive(Clone, Copy, Debug, PartialEq, Eq)]
pub enum Form {
    /// From before 1993, with 16-bit numbers. Such a file is looked at and not changed.
    Old,
    /// Today's, with 32-bit numbers.
    Current,
}

impl Form {
    /// The form of this version number; none where there is no such version.
    pub(crate) fn of(number: u64) -> Option<Form> {
        match number {
            version::OLD => Some(Form::Old),
            version::CURRENT => Some(Form::Current),
            _ => None,
        }
    }
}

/// The sizes of a file that opens, in the paper's letters.
#[derive(Clone, Copy, Debug, PartialEq, Eq)]
pub struct Sizes {
    /// N: records of bootstrap and index.
    pub n: u64,
    /// D: data records.
    pub d: u64,
    /// L: bytes per record.
    pub l: u64,
    /// M: bytes per index entry.
    pub m: u64,
    /// U: entries in use, at least the highest slot with a scan. A job that ran to its end leaves just that slot, or 0;
    /// after a cut, or from elsewhere, it may be higher.
    pub u: u64,
    /// The update counter: one higher at each job; after all ones comes zero. An old file's has 16 bits.
    pub counter: u32,
    /// Whether the file holds individual records (type 1) and not data (type 0, as every old file).
    pub individual_records: bool,
    /// How many slots there are.
    pub capacity: u64,
    /// Whole records lent, at most 1,000,000.
    pub room: u64,
    /// Which form the file has.
    pub form: Form,
}

impl Sizes {
    pub(crate) fn of(opened: face::Opened) -> Sizes {
        Sizes {
            n: opened.n,
            d: opened.d,
            l: opened.l,
            m: opened.m,
            u: opened.u,
            counter: opened.counter as u32,
            individual_records: opened.kind == 1,
            capacity: opened.capacity,
            room: opened.room,
            form: if opened.version == version::OLD { Form::Old } else { Form::Current },
        }
    }
}
