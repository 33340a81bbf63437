//! A store for SDD files: slices in, enums and spans out.
//!
//! This is a thin and safe layer over the proved library's C face. Nothing
//! here judges anything: each function lends what it was given and turns the
//! numbers that come back into types. Its users write no `unsafe`.
//!
//! A file is a slice of bytes, perhaps longer than what is in use. The calls
//! that look at it are [`open`], [`list`], [`entry`], [`show`] and [`read`];
//! [`class`], [`classes`] and [`data`] take a scan apart; [`gaps_zero`] asks
//! whether anything is left in the records of no scan; [`find`] looks for
//! scans where the index is lost. [`blank`] makes an empty file. Files of the
//! old form, from before 1993, are looked at like any other ([`Form`] says
//! which it is), and not changed; [`to_current`] and [`to_old`] write bootstrap
//! and index in the other form, into other memory. A file that nobody holds as
//! a whole is judged by a [`Link`], which takes its bytes as they come.
//!
//! # To save a scan
//! [`drive`] runs a job on a [`Device`]: it writes each record durably, reads
//! back past the cache, and answers Saved on what came back alone.
//!
//! ```
//! # struct Card { cache: Vec<u8>, cells: Vec<u8> }
//! # impl Card {
//! #     fn blank() -> Card {
//! #         let mut cells = vec![0; 4096];
//! #         sdd::blank(&mut cells, 3, 512, 64).unwrap();
//! #         Card { cache: cells.clone(), cells }
//! #     }
//! # }
//! use sdd::{About, Device, drive};
//!
//! impl Device for Card {
//!     type Error = std::convert::Infallible;
//!     fn length(&mut self) -> Result<u64, Self::Error> {
//!         Ok(self.cells.len() as u64)
//!     }
//!     fn read(&mut self, at: u64, into: &mut [u8]) -> Result<(), Self::Error> {
//!         // on a file: pread
//! #         into.copy_from_slice(&self.cache[at as usize..][..into.len()]);
//!         Ok(())
//!     }
//!     fn write(&mut self, at: u64, record: &[u8]) -> Result<(), Self::Error> {
//!         // on a file: one pwrite
//! #         self.cache[at as usize..][..record.len()].copy_from_slice(record);
//!         Ok(())
//!     }
//!     fn flush(&mut self) -> Result<(), Self::Error> {
//!         // on a file: fdatasync
//! #         self.cells = self.cache.clone();
//!         Ok(())
//!     }
//!     fn read_back(&mut self, at: u64, into: &mut [u8]) -> Result<(), Self::Error> {
//!         // on a file: a read with O_DIRECT
//! #         into.copy_from_slice(&self.cells[at as usize..][..into.len()]);
//!         Ok(())
//!     }
//! }
//!
//! let mut card = Card::blank();
//! # let scan = sample::scan(1000, 0);
//! let saved = drive::keep(&mut card, &scan, &About::default().named("ORION A")?)?;
//! assert_eq!(saved, drive::Confirmed::Saved { slot: 1, first: 4, last: 5 });
//! assert_eq!(sdd::list(&drive::look(&mut card)?)?, [sdd::Listed { slot: 1, first: 4, last: 5 }]);
//! # Ok::<(), Box<dyn std::error::Error>>(())
//! ```
//!
//! Beneath it, [`save`], [`keep`] and [`clear`] begin a [`Job`] and change
//! nothing, and [`step`] puts one record at a time into lent memory. These do no
//! input or output, so their Saved speaks of memory alone.
//!
//! # What a call needs
//! Every call takes every input: what it cannot do it refuses with a
//! [`Refusal`], and a refused call has changed nothing. A call needs up to
//! 168 KiB of [`stack`]: more than some threads have.

mod about;
mod convert;
mod device;
pub mod drive;
mod entry;
mod find;
mod head;
mod job;
mod link;
mod linked;
mod look;
mod real;
mod refusal;
mod sentence;
mod sizes;
pub mod stack;

pub use about::{About, NameTooLong};
pub use convert::{to_current, to_old};
pub use device::Device;
pub use entry::{Entry, Kind};
pub use find::{Find, find};
pub use head::Head;
pub use job::{Job, Step, blank, clear, keep, save, step};
pub use link::Link;
pub use look::{Listed, Span, class, classes, data, entry, gaps_zero, list, open, read, show};
pub use real::{Real4, Real8};
pub use refusal::{Refusal, Rule};
pub use sizes::{Form, Sizes};

/// The numbers of the C face by name, for programs that keep or send them. Here the enums stand for them.
pub mod numbers {
    pub use face::{done, kind, refused, version};
}

/// The table of calls that this crate was linked with, for the comparison with the model.
#[doc(hidden)]
pub fn calls() -> face::Calls {
    linked::calls()
}
