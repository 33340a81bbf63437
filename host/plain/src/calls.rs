//! The calls: those that look, those that change a file, those that convert one, the question of its gaps, the search
//! for scans without its index, and the verdict on a file that comes in pieces.

pub mod convert;
pub mod find;
pub mod gaps;
pub mod link;
pub mod look;
pub mod old;
pub mod store;
