//! What each command does. `run` knows them all; they know the floors below, `demo` also those that it shows;
//! `second` is what `convert` and `sweep` share, `bytes` has what `find` writes its files with, `stream` is `check` of
//! standard input.

mod about;
mod blank;
mod bytes;
mod cause;
mod change;
mod check;
mod classes;
mod convert;
mod demo;
mod each;
mod entry;
mod find;
mod form;
mod install;
mod list;
mod pages;
mod second;
mod stream;
mod sweep;

use crate::say::failure::Failure;
use crate::say::out::Out;
use crate::words::args::Args;
use crate::words::table::Verb;

/// Does what the verb says.
pub fn run(verb: Verb, args: &Args, out: &Out) -> Result<(), Failure> {
    match verb {
        Verb::Blank => blank::run(args, out),
        Verb::Check => check::run(args, out),
        Verb::Classes => classes::run(args, out),
        Verb::Clear => change::clear(args, out),
        Verb::Completion => pages::completion(args, out),
        Verb::Convert => convert::run(args, out),
        Verb::Demo => demo::run(args, out),
        Verb::Entry => entry::run(args, out),
        Verb::Find => find::run(args, out),
        Verb::Install => install::run(args, out),
        Verb::Keep => change::keep(args, out),
        Verb::List => list::run(args, out),
        Verb::Manual => pages::manual(out),
        Verb::Read => bytes::read(args, out),
        Verb::Save => change::save(args, out),
        Verb::Show => bytes::show(args, out),
        Verb::Sweep => sweep::run(args, out),
    }
}
