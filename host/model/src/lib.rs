//! An independent model of the paper (01, with the requests of 02), in plain Rust.
//!
//! It was written from the paper alone, to be held beside it sentence by
//! sentence, and it shares nothing with the library or with the face. It is
//! slow on purpose: where the paper says "lowest", it tries from the lowest.
//!
//! A call that would change memory answers the [`Write`] that it would make,
//! and changes nothing, so that the caller decides what to do with it.

mod bytes;
mod convert;
mod find;
mod index;
mod job;
mod link;
mod look;
mod refusal;
mod scan;
mod sizes;

pub use bytes::Write;
pub use convert::{Hindrance, hindrances, to_current, to_old};
pub use find::{Find, find, finds};
pub use index::{Run, highest, listed, open};
pub use job::{About, Done, Job, Stepped, blank, clear, keep, save, step};
pub use link::{Link, ROW, Taken, begin, finish, take, verdict};
pub use look::{Entry, Kind, class, data, entry, gaps_zero, list, read, show};
pub use refusal::{Answer, Refusal};
pub use scan::{Purpose, Shape, rules, whole};
pub use sizes::{Form, Sizes, bootstrap, bootstrap_over, room};
