//! The C face of the library, as `include/sdd.h` declares it: its structs of
//! numbers, and a table of its calls.
//!
//! A program uses the crate `sdd` and never sees these. They stand in a crate
//! of their own because three parties speak them: the safe crate, the plain
//! stand-in, and the comparison, which holds any [`Calls`] against the model.

mod answers;
mod calls;
mod layout;
mod numbers;

pub use answers::{Answer, Begun, Entry, Job, Link, Linked, Listed, Opened, Refusal, Span, Stepped};
pub use calls::Calls;
pub use numbers::{done, kind, refused, version};
