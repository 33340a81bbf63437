//! `rinzo completion` and `rinzo manual`: what goes with the program.

use crate::say::failure::Failure;
use crate::say::out::Out;
use crate::words::args::Args;
use crate::words::nearest::hint;
use crate::words::table::SHELLS;
use crate::words::{completion, manual};

pub fn completion(args: &Args, out: &Out) -> Result<(), Failure> {
    let shell = args.path(0).to_string_lossy();
    match completion::of(&shell) {
        Some(lines) => out.lines(&lines),
        None => {
            let near = hint(&shell, "", SHELLS.into_iter());
            args.wrong(&format!("SHELL is {}, and {shell} is none{near}", SHELLS.join(", ")))
        }
    }
}

pub fn manual(out: &Out) -> Result<(), Failure> {
    out.lines(&manual::page())
}
