//! What each call costs: the library beside plain Rust of the same job, and beside the limit that its bytes set.
//!
//! All three run in one process, by turns, on the same memory. `docs/SPEED.md` says what is measured and what the
//! limits are; `main.rs` prints the table and the verdicts.

#![allow(missing_docs)] // a program in parts, of no use to others

pub mod before;
pub mod call;
pub mod case;
pub mod clock;
pub mod closed;
pub mod file;
pub mod grow;
pub mod limit;
pub mod link;
pub mod map;
pub mod stack;
pub mod suite;
pub mod table;
pub mod targets;
