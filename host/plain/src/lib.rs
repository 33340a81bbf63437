//! A plain stand-in with the library's face, written for speed and not proved.
//!
//! It is what a good programmer would write without proofs: one pass over the
//! index, a bit for each record, no copies. It serves twice: as the measure of
//! what the proved library costs, and, with one line wrong, as the trial of
//! the comparison, which has to notice.
//!
//! Every function has a parameter `X`: whether it is of the copy that may have a
//! wrong line. Which one is asked at run time, so that all of them are compiled
//! once. In the right copy the answer is a constant, and no trace of them is left.
//!
//! From the ground up, each knows only those before it: `ground`, `rules`,
//! `calls`, `exported`, `wrong`.

mod calls;
mod exported;
mod ground;
mod rules;
mod wrong;

pub use wrong::{Wrong, wrong_lines};

/// The stand-in with nothing wrong.
pub fn calls() -> face::Calls {
    exported::calls::<false>()
}
