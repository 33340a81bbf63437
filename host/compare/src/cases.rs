//! What a case is made of: where things stand in a file, damage to them, files and scans as they should be, and what else
//! may stand in a data section. From the ground up: `shape`, `damage`, `make`, `pieces`.

pub mod damage;
pub mod make;
pub mod pieces;
pub mod shape;
