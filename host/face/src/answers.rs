//! The structs, field by field in the header's order.

/// The paper's refusal number with its slot or reason; two zeros where the call is accepted.
#[repr(C)]
#[derive(Clone, Copy, Debug, PartialEq, Eq)]
pub struct Refusal {
    /// 1 to [`refused::HIGHEST`](crate::refused::HIGHEST), or 0.
    pub number: u32,
    /// The slot (6, 7, 8) or the reason (11), else 0.
    pub value: u32,
}

/// The sizes of a file that opens.
#[allow(missing_docs)] // the names are the paper's
#[repr(C)]
#[derive(Clone, Copy, Debug, PartialEq, Eq)]
pub struct Opened {
    pub why: Refusal,
    pub n: u64,
    pub d: u64,
    pub l: u64,
    pub m: u64,
    pub u: u64,
    pub counter: u64,
    pub kind: u64,
    pub capacity: u64,
    pub room: u64,
    /// 0 the old form, 1 the current one.
    pub version: u64,
}

/// How many scans were listed.
#[allow(missing_docs)]
#[repr(C)]
#[derive(Clone, Copy, Debug, PartialEq, Eq)]
pub struct Listed {
    pub why: Refusal,
    pub scans: u64,
}

/// Yes or no.
#[repr(C)]
#[derive(Clone, Copy, Debug, PartialEq, Eq)]
pub struct Answer {
    /// Why there is neither.
    pub why: Refusal,
    /// 1 yes; 0 no, and where the call was refused.
    pub yes: u64,
}

/// Bytes `from` to `to` of what was lent.
#[allow(missing_docs)]
#[repr(C)]
#[derive(Clone, Copy, Debug, PartialEq, Eq)]
pub struct Span {
    pub why: Refusal,
    pub from: u64,
    pub to: u64,
}

/// An index entry; floats as their bits, and two of them also as values.
#[allow(missing_docs)]
#[repr(C)]
#[derive(Clone, Copy, Debug)]
pub struct Entry {
    pub why: Refusal,
    pub first: u32,
    pub last: u32,
    pub horizontal: u32,
    pub vertical: u32,
    pub source: [u8; 16],
    pub scan: u32,
    pub field4: u32,
    pub field8: u64,
    pub lst: u32,
    pub date: u32,
    pub mode: i16,
    pub number: i16,
    pub position: i16,
    /// What the old form says of the scan's own form; 0 in the current one, which says nothing.
    pub magic: i16,
    pub kind: u16,
    pub single_value: f32,
    pub double_value: f64,
}

/// A save (also a keep) or a clear under way.
#[allow(missing_docs)]
#[repr(C)]
#[derive(Clone, Copy, Debug, PartialEq, Eq)]
pub struct Job {
    pub saves: u64,
    pub slot: u64,
    pub scan_len: u64,
    pub file_len: u64,
    pub first: u64,
    pub written: u64,
    /// Of a clear: 1 where it writes record 1 a second time, to lower U.
    pub lowers: u64,
    /// The first record of the scan that is replaced or cleared.
    pub old_first: u64,
    /// How many records that scan has; they are zeroed last. 0 where there is none.
    pub old_count: u64,
    pub boot: [u8; 32],
    pub about: [u8; 54],
}

/// A job that was begun.
#[allow(missing_docs)]
#[repr(C)]
#[derive(Clone, Copy, Debug, PartialEq, Eq)]
pub struct Begun {
    pub why: Refusal,
    pub job: Job,
}

/// What one step did, and the job after it.
#[allow(missing_docs)]
#[repr(C)]
#[derive(Clone, Copy, Debug, PartialEq, Eq)]
pub struct Stepped {
    pub why: Refusal,
    /// 0 wrote a record, 1 Saved, 2 Cleared.
    pub done: u64,
    pub record: u64,
    pub written: u64,
    pub job: Job,
}

/// A verdict under way, of a file whose bytes come in pieces.
#[repr(C)]
#[derive(Clone, Copy, Debug, PartialEq, Eq)]
pub struct Link {
    /// The first 32 bytes, as far as they came.
    pub boot: [u8; 32],
    /// The file's length, as it was given first.
    pub length: u64,
    /// How many bytes came that count.
    pub came: u64,
    /// The byte at which the index ends; 0 while the bootstrap has not come, and where it breaks a rule.
    pub index_end: u64,
}

/// The link after a call.
#[allow(missing_docs)]
#[repr(C)]
#[derive(Clone, Copy, Debug, PartialEq, Eq)]
pub struct Linked {
    pub why: Refusal,
    pub link: Link,
}

impl Refusal {
    /// Not refused.
    pub const NONE: Refusal = Refusal { number: 0, value: 0 };
}

impl Opened {
    /// The answer of a refused call but for `why`.
    pub const ZEROS: Opened = Opened {
        why: Refusal::NONE,
        n: 0,
        d: 0,
        l: 0,
        m: 0,
        u: 0,
        counter: 0,
        kind: 0,
        capacity: 0,
        room: 0,
        version: 0,
    };
}

impl Entry {
    /// The answer of a refused call but for `why`.
    pub const ZEROS: Entry = Entry {
        why: Refusal::NONE,
        first: 0,
        last: 0,
        horizontal: 0,
        vertical: 0,
        source: [0; 16],
        scan: 0,
        field4: 0,
        field8: 0,
        lst: 0,
        date: 0,
        mode: 0,
        number: 0,
        position: 0,
        magic: 0,
        kind: 0,
        single_value: 0.0,
        double_value: 0.0,
    };
}

impl Job {
    /// The job of zeros: what a refused save, keep or clear hands back.
    pub const ZEROS: Job = Job {
        saves: 0,
        slot: 0,
        scan_len: 0,
        file_len: 0,
        first: 0,
        written: 0,
        lowers: 0,
        old_first: 0,
        old_count: 0,
        boot: [0; 32],
        about: [0; 54],
    };
}

impl Link {
    /// The link of zeros: what a refused beginning hands back.
    pub const ZEROS: Link = Link { boot: [0; 32], length: 0, came: 0, index_end: 0 };
}
