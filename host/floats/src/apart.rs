//! A file taken apart by the disassembler.

use std::process::Command;

/// The disassembler, which reads what is compiled for any processor, and the package that has it.
const DISASSEMBLER: &str = "llvm-objdump";
const PACKAGE: &str = "llvm";

/// What it is to print: symbols, and instructions without their addresses and bytes.
const WORDS: [&str; 4] = ["--syms", "--disassemble", "--no-show-raw-insn", "--no-leading-addr"];

/// Why a file is not taken apart: a status to end with, and a sentence.
pub struct Failure {
    /// The status.
    pub status: u8,
    /// The sentence, which says what to do.
    pub sentence: String,
}

/// What the disassembler prints of a file.
pub fn taken_apart(file: &str) -> Result<String, Failure> {
    let Ok(ended) = Command::new(DISASSEMBLER).args(WORDS).arg(file).output() else {
        let sentence = format!("there is no {DISASSEMBLER}: install the package {PACKAGE}");
        return Err(Failure { status: 69, sentence });
    };
    if !ended.status.success() {
        let said = String::from_utf8_lossy(&ended.stderr);
        return Err(Failure { status: 66, sentence: format!("{file} cannot be taken apart: {}", said.trim()) });
    }
    Ok(String::from_utf8_lossy(&ended.stdout).into_owned())
}
