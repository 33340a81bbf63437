//! The instructions of RISC-V that count as floating.

/// All of its floating instructions begin like this, moves too; compiled for a processor without floats there are none.
const FLOATING: [&str; 2] = ["f", "c.f"];

/// What orders reads and writes begins like this as well.
const FENCE: &str = "fence";

/// As what an instruction counts, if it does.
pub fn counts(name: &str, _operands: &str) -> Option<&'static str> {
    let floating = FLOATING.iter().any(|begin| name.starts_with(begin)) && !name.starts_with(FENCE);
    floating.then_some("floating")
}
