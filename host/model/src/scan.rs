//! "The scan": the rules over a run of bytes, and the classes.

use crate::bytes::{double_word, half};
use crate::refusal::{Answer, refuse_with};

/// Rules 1 and 6 ask more of a scan that is being saved.
#[derive(Clone, Copy, Debug, PartialEq, Eq)]
pub enum Purpose {
    /// Rules 1 to 5.
    Reading,
    /// Rules 1 to 6.
    Saving,
}

/// What a run of bytes that obeys the rules says of itself.
#[derive(Clone, Copy, Debug, PartialEq, Eq)]
pub struct Shape {
    /// The number of classes, 13 to 15.
    pub classes: usize,
    /// The class starts; those after `classes` mean nothing.
    pub starts: [i16; 15],
    /// HEADLEN.
    pub head: u64,
    /// DATALEN.
    pub data: u64,
}

/// "a double with sign bit clear that is exactly an integer"; one too large for
/// the answer's type comes out as the largest, which no rule accepts either.
pub fn whole(bits: u64) -> Option<u64> {
    let double = f64::from_bits(bits);
    let sign_clear = bits >> 63 == 0;
    (sign_clear && double.is_finite() && double.fract() == 0.0).then_some(double as u64)
}

/// The rules in order; the number of the first one broken is the reason in refusal 11.
pub fn rules(run: &[u8], purpose: Purpose) -> Answer<Shape> {
    let saving = purpose == Purpose::Saving;
    let s = run.len() as u64;
    let broken = |rule| refuse_with(11, rule);

    if s < 256 || (saving && s > 65_536) {
        return broken(1);
    }

    let count = half(run, 0);
    if !(13..=15).contains(&count) {
        return broken(2);
    }
    let classes = count as usize;

    let starts: [i16; 15] = std::array::from_fn(|i| half(run, 2 + 2 * i));
    let rising = (1..classes).all(|i| starts[i] > starts[i - 1]);
    if starts[0] != 5 || starts[1] < 21 || !rising {
        return broken(3);
    }

    let last_start = starts[classes - 1] as u64;
    let head = match whole(double_word(run, 32)) {
        Some(h) if h.is_multiple_of(8) && h >= 8 * last_start && h <= s && h <= 65_536 => h,
        _ => return broken(4),
    };
    let data = match whole(double_word(run, 40)) {
        Some(d) if d.is_multiple_of(4) && d <= 65_536 && head + d <= s => d,
        _ => return broken(5),
    };
    if saving && head + data != s {
        return broken(6);
    }
    Ok(Shape { classes, starts, head, data })
}

impl Shape {
    /// "Each class runs from its start to the next class's start, the last one to HEADLEN";
    /// no part for a number outside 1 to the count.
    pub fn class(&self, number: u64) -> Option<(u64, u64)> {
        if number < 1 || number > self.classes as u64 {
            return None;
        }
        let begin = |number: usize| 8 * (self.starts[number - 1] as u64 - 1);
        let number = number as usize;
        let end = if number == self.classes { self.head } else { begin(number + 1) };
        Some((begin(number), end))
    }
}
