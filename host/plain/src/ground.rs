//! The ground: numbers in bytes, a bit for each record, whether bytes are zeros, and the line that may be wrong.

pub mod bits;
pub mod bytes;
pub mod line;
pub mod zeros;
