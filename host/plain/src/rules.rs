//! What makes a file or a scan good: the bootstrap, the index, a scan's rules.

pub mod boot;
pub mod index;
pub mod scan;
