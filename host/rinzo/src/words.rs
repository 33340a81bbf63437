//! The words of the command line: the table of commands, and all that is made from it.
//! From the ground up: `nearest`, `table`, then `args`, `help`, `completion` and `manual`.

pub mod args;
pub mod completion;
pub mod help;
pub mod manual;
pub mod nearest;
pub mod table;
