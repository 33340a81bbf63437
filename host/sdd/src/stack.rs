//! The stack that each call needs at most, in bytes: its tables lie there, since the library allocates nothing.
//!
//! A call on a file with scans needs more than one on a blank file, and a thread with less than this ends in a crash,
//! not in a refusal. A thread that calls the library gets [`MOST`] and what it needs itself:
//!
//! ```
//! let thread = std::thread::Builder::new().stack_size(sdd::stack::MOST + 64 * 1024);
//! let opened = thread.spawn(|| sdd::open(&[0; 512])).unwrap().join().unwrap();
//! # assert!(opened.is_err());
//! ```
//!
//! `include/sdd.h` has the same numbers. `host/bench` measures them on a painted stack; the tests hold them to it.

/// Any call.
pub const MOST: usize = 168 << 10;

/// [`open`](crate::open).
pub const OPEN: usize = MOST;
/// [`list`](crate::list).
pub const LIST: usize = MOST;
/// [`entry`](crate::entry).
pub const ENTRY_AT: usize = MOST;
/// [`show`](crate::show).
pub const SHOW: usize = MOST;
/// [`read`](crate::read).
pub const READ: usize = MOST;
/// [`class`](crate::class).
pub const CLASS: usize = 1 << 10;
/// [`data`](crate::data).
pub const DATA: usize = 1 << 10;
/// [`blank`](crate::blank).
pub const BLANK: usize = 1 << 10;
/// [`save`](crate::save).
pub const SAVE: usize = MOST;
/// [`keep`](crate::keep).
pub const KEEP: usize = MOST;
/// [`clear`](crate::clear).
pub const CLEAR: usize = MOST;
/// [`step`](crate::step).
pub const STEP: usize = MOST;
/// [`to_current`](crate::to_current).
pub const TO_CURRENT: usize = MOST;
/// [`to_old`](crate::to_old).
pub const TO_OLD: usize = MOST;
/// [`gaps_zero`](crate::gaps_zero).
pub const GAPS_ZERO: usize = MOST;
/// [`find`](crate::find).
pub const FIND: usize = 1 << 10;
/// [`Link::begin`](crate::Link::begin).
pub const LINK_BEGIN: usize = 1 << 10;
/// [`Link::take`](crate::Link::take).
pub const LINK_TAKE: usize = 1 << 10;
/// [`Link::finish`](crate::Link::finish).
pub const LINK_FINISH: usize = 136 << 10;

/// All of them, by the names that they have in the header after `sdd_`.
#[doc(hidden)]
pub const ALL: [(&str, usize); 19] = [
    ("open", OPEN),
    ("list", LIST),
    ("entry_at", ENTRY_AT),
    ("show", SHOW),
    ("read", READ),
    ("class", CLASS),
    ("data", DATA),
    ("blank", BLANK),
    ("save", SAVE),
    ("keep", KEEP),
    ("clear", CLEAR),
    ("step", STEP),
    ("to_current", TO_CURRENT),
    ("to_old", TO_OLD),
    ("gaps_zero", GAPS_ZERO),
    ("find", FIND),
    ("link_begin", LINK_BEGIN),
    ("link_take", LINK_TAKE),
    ("link_finish", LINK_FINISH),
];
