//! A file on its device, and the window through which the library sees it.
//! From the ground up: `sys`, `sector`, `device`, `open`, `beside`, `incoming`; `window`, `records`, `gaps`, `finds`; `lent`, which
//! has all of these, and `pieces`.

pub mod beside;
pub mod device;
pub mod finds;
pub mod gaps;
pub mod incoming;
pub mod lent;
pub mod open;
pub mod pieces;
pub mod records;
pub mod sector;
pub mod sys;
pub mod window;
