//! Whether a compiled library computes with floats: by its instructions, and by the routines that it asks for.
//!
//! From the ground up: `x86_64` and `riscv`, which of a processor's instructions count; `routine`, which names are those of
//! software floats; `apart`, a file taken apart by the disassembler; `listing`, what that prints; `report`, what is found in it.

mod apart;
mod listing;
mod report;
mod riscv;
mod routine;
mod x86_64;

pub use apart::{Failure, taken_apart};
pub use report::{Found, Report, report};
