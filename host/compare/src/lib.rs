//! Holds anything with the library's face against the model, on random cases.
//!
//! A [`World`] has a file, a scan and an entry's bytes. Each call on it is first
//! asked of the model, then made of a [`Subject`] on memory of its own between
//! guard pages, and the whole answer and all memory are compared. The cases
//! come in themes; [`run`] mixes them from a seed.
//!
//! From the ground up: `rng` and `call`, `cases` and `tally` on `moves`, `used`, `gaps`, `finds` and `links`, `world` with its subjects
//! (`linked` on `guarded`, `recorder`), `themes`, `run`. Apart from these, on `rng` alone, `lengths`.

mod call;
mod cases;
mod finds;
mod gaps;
mod guarded;
mod lengths;
mod linked;
mod links;
mod moves;
mod recorder;
mod rng;
mod run;
mod seed;
mod tally;
mod themes;
mod used;
mod world;

pub use lengths::{Tried, lengths};
pub use linked::Linked;
pub use recorder::Recorder;
pub use run::{Ended, Options, run, say_where_on_a_fault};
pub use seed::seed_from_environment;
pub use tally::Tally;
pub use world::{Disagreement, Subject, World};
