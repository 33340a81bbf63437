//! What is found in a disassembled file.

use crate::listing::{Instruction, Line, lines};
use crate::{riscv, routine, x86_64};
use std::collections::BTreeSet;

/// Something that computes with floats, or that may.
#[derive(Debug, PartialEq, Eq)]
pub enum Found {
    /// A function has this instruction, which counts as this.
    #[allow(missing_docs)]
    Instruction { function: String, instruction: String, counts_as: &'static str },
    /// A routine that computes floats in software, asked for or brought along.
    SoftwareFloat(String),
    /// A routine is asked for that is not known to work on bytes alone.
    Routine(String),
    /// The file is of a format whose instructions are on no list.
    Format(String),
}

/// What a file has.
#[derive(Default)]
pub struct Report {
    /// Its functions.
    pub functions: BTreeSet<String>,
    /// How many instructions they have in all.
    pub instructions: usize,
    /// The routines that it asks for.
    pub asks_for: BTreeSet<String>,
    /// What of it computes with floats, in its order.
    pub found: Vec<Found>,
}

/// As what an instruction counts, if it does, by its name and its operands.
type Counts = fn(&str, &str) -> Option<&'static str>;

/// Reads what the disassembler printed.
pub fn report(text: &str) -> Report {
    let mut report = Report::default();
    let (mut counts, mut function): (Counts, _) = (|_, _| None, "");
    for line in lines(text) {
        match line {
            Line::Object(format) => match counts_of(format) {
                Some(of_format) => counts = of_format,
                None => report.found.push(Found::Format(format.to_string())),
            },
            Line::Symbol(symbol) => report.symbol(symbol.name, symbol.asked_for),
            Line::Function(name) => {
                function = name;
                report.functions.insert(name.to_string());
            }
            Line::Instruction(instruction) => report.instruction(function, &instruction, counts),
        }
    }
    report
}

fn counts_of(format: &str) -> Option<Counts> {
    match format {
        "elf64-x86-64" => Some(x86_64::counts),
        "elf64-littleriscv" => Some(riscv::counts),
        _ => None,
    }
}

impl Report {
    fn symbol(&mut self, name: &str, asked_for: bool) {
        if routine::is_software_float(name) {
            self.found.push(Found::SoftwareFloat(name.to_string()));
        } else if asked_for && !routine::is_of_bytes(name) {
            self.found.push(Found::Routine(name.to_string()));
        }
        if asked_for {
            self.asks_for.insert(name.to_string());
        }
    }

    fn instruction(&mut self, function: &str, instruction: &Instruction, counts: Counts) {
        self.instructions += 1;
        let Instruction { name, operands } = *instruction;
        // bytes that the disassembler could not read have no name
        let is_read = name.starts_with(|begin: char| begin.is_ascii_lowercase());
        if let Some(counts_as) = if is_read { counts(name, operands) } else { Some("not read") } {
            let instruction = format!("{name} {operands}").trim_end().to_string();
            self.found.push(Found::Instruction { function: function.to_string(), instruction, counts_as });
        }
    }
}
