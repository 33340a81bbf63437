//! `floats`: takes a compiled library apart and says what of it computes with floats.

use floats::{Failure, Found, Report, report, taken_apart};
use std::process::ExitCode;

const USAGE: &str = "usage: floats FILE [FUNCTION..]

Takes an archive or object for x86-64, or for RISC-V, apart. A FUNCTION is one that it has to have.

Status: 0 nothing in it computes with floats, 1 something does, or may, or it is not that library; 64 bad usage, 66 the file
cannot be taken apart, 69 the disassembler is not installed.";

fn main() -> ExitCode {
    let words: Vec<String> = std::env::args().skip(1).collect();
    let Some((file, wanted)) = words.split_first().filter(|(file, _)| !file.starts_with('-')) else {
        eprintln!("{USAGE}");
        return ExitCode::from(64);
    };
    match taken_apart(file) {
        Ok(text) => tell(file, wanted, &report(&text)),
        Err(Failure { status, sentence }) => {
            eprintln!("floats: {sentence}");
            ExitCode::from(status)
        }
    }
}

/// Says what was found; nothing can be said of a file that has no instruction, or not the functions that it has to have.
fn tell(file: &str, wanted: &[String], report: &Report) -> ExitCode {
    let missing = wanted.iter().filter(|name| !report.functions.contains(*name));
    let mut wrong: Vec<_> = missing.map(|name| format!("has no function {name}: is it that library?")).collect();
    let (functions, instructions) = (report.functions.len(), report.instructions);
    if instructions == 0 {
        wrong.push("has no instruction".to_string());
    }
    wrong.extend(report.found.iter().map(sentence));
    if !wrong.is_empty() {
        wrong.iter().for_each(|wrong| println!("{file}: {wrong}"));
        return ExitCode::FAILURE;
    }
    let routines = report.asks_for.iter().map(String::as_str).collect::<Vec<_>>().join(", ");
    let routines = if routines.is_empty() { "no routine" } else { &routines };
    println!("{file}: {instructions} instructions in {functions} functions, none floating; it asks for {routines}");
    ExitCode::SUCCESS
}

fn sentence(found: &Found) -> String {
    match found {
        Found::Instruction { function, instruction, counts_as } => {
            format!("{function} has {instruction} ({counts_as})")
        }
        Found::SoftwareFloat(name) => format!("{name} is a routine of software floats"),
        Found::Routine(name) => format!("it asks for {name}, which is not known to work on bytes alone"),
        Found::Format(format) => format!("it is {format}, whose instructions are on no list here"),
    }
}
