//! `rinzo`: SDD files on disk, for a crew member and for a station's script.
//!
//! The work is the library's; this program brings bytes from a file to it and
//! each record that it names back to the file, durably and one at a time.
//!
//! The folders are floors. From the ground up, each knows only those before it:
//! `say`, `words`, `file`, `job`, `commands`.

mod commands;
mod file;
mod job;
mod say;
mod words;

use say::failure::Failure;
use say::out::Out;
use say::shown;
use std::ffi::OsString;
use std::path::Path;
use std::process::ExitCode;
use words::nearest::hint;
use words::table::{COMMANDS, Command, find};
use words::{args, help};

/// What the work needs of stack beyond the library's calls.
const OWN_STACK: usize = 1 << 20;

/// The library's calls need more stack than a limit may leave to this thread, so the work has one of its own.
fn main() -> ExitCode {
    let thread = std::thread::Builder::new().stack_size(sdd::stack::MOST + OWN_STACK);
    let signals = file::sys::leave_interrupts();
    let work = move || {
        file::sys::take(&signals);
        work()
    };
    match thread.spawn(work).map(|work| work.join()) {
        Ok(Ok(status)) => status,
        // it panicked, and has said so
        Ok(Err(_)) => ExitCode::from(101),
        Err(error) => {
            eprintln!("rinzo: there is no memory for a thread to work on: {error}");
            ExitCode::from(74)
        }
    }
}

fn work() -> ExitCode {
    file::sys::ignore_file_size_signal();
    let words: Vec<_> = std::env::args_os().skip(1).collect();
    let json = words.iter().take_while(|word| *word != "--").any(|word| word == "--json");
    let out = Out { json, is_closed: file::sys::output_was_closed() };
    // it may stand before the command too
    let before = words.iter().take_while(|word| *word == "--json").count();
    match run(&words[before..], &out) {
        Ok(()) => ExitCode::SUCCESS,
        Err(failure) => {
            out.failure(&failure);
            ExitCode::from(failure.status())
        }
    }
}

/// Finds the command, or the help that is asked for.
fn run(words: &[OsString], out: &Out) -> Result<(), Failure> {
    let Some(first) = words.first() else {
        return Err(Failure::Usage("no command is given. `rinzo --help` lists them".to_string()));
    };
    match first.to_str() {
        Some("--help" | "-h") => out.lines(&help::overview()),
        Some("--version") => out.lines(concat!("rinzo ", env!("CARGO_PKG_VERSION"))),
        Some("help") => match words.get(1) {
            Some(name) => out.lines(&help::of(command(name)?)),
            None => out.lines(&help::overview()),
        },
        _ => {
            let command = command(first)?;
            match args::parse(command, &words[1..])? {
                Some(args) => commands::run(command.verb, &args, out),
                None => out.lines(&help::of(command)),
            }
        }
    }
}

/// The command of this name.
fn command(name: &OsString) -> Result<&'static Command, Failure> {
    let name = shown::name(Path::new(name));
    find(&name).ok_or_else(|| {
        let near = hint(&name, "", COMMANDS.iter().map(|command| command.name));
        let end = if near.is_empty() { "." } else { "" };
        Failure::Usage(format!("{name} is no command{near}{end} `rinzo --help` lists them"))
    })
}
