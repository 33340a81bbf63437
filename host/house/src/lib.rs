//! Which files of a crate know each other, read from their `use` lines and paths; and whether some do so in a ring.
//!
//! A file is a module, and it knows the modules that its paths begin with: `crate::file::window::Window` is the file
//! `file/window.rs`. A path that begins at `crate`, `self` or `super`, and one that begins with a module declared in the
//! same file, counts wherever it stands; words in comments and strings do not.
//!
//! From the ground up: `text`, `paths`, `files`, `ring`.

mod files;
mod paths;
mod ring;
mod text;

pub use files::{Files, files, folders};
pub use ring::ring;
