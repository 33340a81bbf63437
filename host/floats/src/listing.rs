//! What the disassembler prints of a file: its objects, their symbols, their functions' instructions.

/// Words that stand before an instruction's own name.
const BEFORE: [&str; 6] = ["lock", "rep", "repe", "repne", "data16", "notrack"];

/// A place inside a function, where a jump goes to, has a name that begins like this.
const LOCAL: &str = ".L";

/// A symbol.
pub struct Symbol<'a> {
    pub name: &'a str,
    /// Whether it is to be found elsewhere.
    pub asked_for: bool,
}

/// An instruction.
pub struct Instruction<'a> {
    pub name: &'a str,
    pub operands: &'a str,
}

/// A line that says something.
pub enum Line<'a> {
    /// Another object begins, of this format.
    Object(&'a str),
    Symbol(Symbol<'a>),
    /// A function begins, of this name.
    Function(&'a str),
    Instruction(Instruction<'a>),
}

/// The lines that say something, in their order.
pub fn lines(text: &str) -> impl Iterator<Item = Line<'_>> {
    let mut symbols = false;
    text.lines().filter_map(move |line| {
        if line.is_empty() {
            symbols = false;
            None
        } else if line == "SYMBOL TABLE:" {
            symbols = true;
            None
        } else if symbols {
            symbol(line)
        } else if let Some((_, format)) = line.split_once(":\tfile format ") {
            Some(Line::Object(format.trim()))
        } else if let Some(name) = line.strip_prefix('<').and_then(|line| line.strip_suffix(">:")) {
            (!name.starts_with(LOCAL)).then_some(Line::Function(name))
        } else {
            line.strip_prefix([' ', '\t']).and_then(instruction)
        }
    })
}

/// Its name is the last word; where it is to be found elsewhere, the section says so.
fn symbol(line: &str) -> Option<Line<'_>> {
    let name = line.split_whitespace().next_back()?;
    Some(Line::Symbol(Symbol { name, asked_for: line.split_whitespace().any(|word| word == "*UND*") }))
}

/// What follows a `#` is a remark, which may have a line to itself.
fn instruction(line: &str) -> Option<Line<'_>> {
    let mut rest = line.split('#').next()?.trim();
    loop {
        let (name, operands) = rest.split_once([' ', '\t']).unwrap_or((rest, ""));
        let operands = operands.trim_start();
        if operands.is_empty() || !BEFORE.contains(&name) {
            return (!name.is_empty()).then_some(Line::Instruction(Instruction { name, operands }));
        }
        rest = operands;
    }
}
