//! The instructions of x86-64 that count as floating, by the names that the disassembler gives them, and why.
//!
//! Counted is what takes the bits in a register for the value of a float: a processor without floats would do that in software.
//! Not counted is what takes them for bytes or integers. The compiler moves and compares sixteen bytes at once in the same
//! registers, and an entry's f32 and f64 pass through them bit for bit.
//!
//! What stands on neither list is refused as well, if it has such a register: nothing passes because nobody thought of it.

/// The kinds of float that an instruction's name ends with: one or several, of 32 or 64 bits.
const ENDS: [&str; 4] = ["ss", "sd", "ps", "pd"];

/// Their result is a float that was computed and rounded.
const ARITHMETIC: [&str; 14] =
    ["add", "sub", "mul", "div", "sqrt", "min", "max", "rcp", "rsqrt", "addsub", "hadd", "hsub", "dp", "round"];

/// They order two floats: minus zero equals zero, and a not-a-number equals nothing. The third, `cmp`, has the order wanted
/// between itself and its end, as in `cmpltsd`.
const COMPARISON: [&str; 2] = ["comi", "ucomi"];
const COMPARISON_OF: &str = "cmp";

/// All names of conversions, between floats and integers or between floats, begin like this.
const CONVERSION: &str = "cvt";

/// All of x87, whose registers hold 80 bits: its very loads and stores convert. No other name begins like this.
const X87: &str = "f";

/// How SSE rounds, and what it signals: set or asked for by nothing that has no use for it.
const CONTROL: [&str; 2] = ["ldmxcsr", "stmxcsr"];

/// Floats two to a register, from before SSE; the names of integers begin with the same letter.
const PAIRS: [&str; 2] = ["pf", "pi2f"];

/// Not counted: moves, also of a float's 32 or 64 bits; integers side by side.
const MOVE: &str = "mov";
const INTEGERS: &str = "p";

/// Not counted: the bits of two registers joined, or the parts of two put together; `ps` and `pd` say only how wide a part is.
const BITS: [&str; 7] = ["and", "andn", "or", "xor", "shuf", "unpckl", "unpckh"];

/// The registers that may hold a float.
const REGISTERS: [&str; 5] = ["%xmm", "%ymm", "%zmm", "%mm", "%st"];

/// As what an instruction counts, if it does.
pub fn counts(name: &str, operands: &str) -> Option<&'static str> {
    let begins = |all: &[&str]| all.iter().any(|begin| name.starts_with(begin));
    if is_one_of(name, &ARITHMETIC) {
        Some("arithmetic")
    } else if is_one_of(name, &COMPARISON) || name.starts_with(COMPARISON_OF) && end(name).is_some() {
        Some("comparison")
    } else if name.starts_with(CONVERSION) {
        Some("conversion")
    } else if name.starts_with(X87) {
        Some("x87")
    } else if CONTROL.contains(&name) || begins(&PAIRS) {
        Some("floating")
    } else {
        let is_on_floats = REGISTERS.iter().any(|register| operands.contains(register));
        let only_moves = begins(&[MOVE, INTEGERS]) || is_one_of(name, &BITS);
        (is_on_floats && !only_moves).then_some("on no list")
    }
}

/// Whether a name is one of these with an end that floats have.
fn is_one_of(name: &str, stems: &[&str]) -> bool {
    end(name).is_some_and(|end| stems.contains(&&name[..name.len() - end.len()]))
}

fn end(name: &str) -> Option<&'static str> {
    ENDS.into_iter().find(|end| name.ends_with(end))
}
