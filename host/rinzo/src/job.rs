//! A job, record by record. From the ground up: `drill`, `interrupt` and `left`, `running`.

pub mod drill;
pub mod interrupt;
pub mod left;
pub mod running;
