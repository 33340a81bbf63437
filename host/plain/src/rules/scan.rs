//! The rules over a run of bytes, and the classes.

use crate::ground::bytes::{be16, be64};
use crate::ground::line::{line, or};
use crate::rules::boot::{Answer, refuse};

pub struct Shape {
    count: usize,
    pub head: u64,
    pub data: u64,
}

/// The start of a class, as the preamble has it.
fn start<const X: bool>(run: &[u8], class: usize) -> i32 {
    let start = be16(run, 2 * class);
    or::<X, _>(28, i32::from(start), i32::from(start as u16))
}

/// A length of at most 65,536 from the bits of a double; none for any other double.
fn length<const X: bool>(bits: u64, most: u64) -> Option<u64> {
    let double = f64::from_bits(bits);
    let negative = bits >> 63 != 0 && !(line::<X>() == 29 && double == 0.0);
    // a cast cuts off a fraction, makes a not-a-number 0, and gives the largest for what is too large
    let whole = double as u64;
    let exact = whole as f64 == double || (line::<X>() == 30 && !double.is_nan());
    (!negative && exact && whole <= most).then_some(whole)
}

fn starts_rise<const X: bool>(run: &[u8], count: usize) -> bool {
    let judged = match line::<X>() {
        31 => 15,
        32 => count - 1,
        _ => count,
    };
    start::<X>(run, 1) == 5
        && start::<X>(run, 2) >= or::<X, _>(33, 21, 20)
        && (2..=judged).all(|i| start::<X>(run, i) - start::<X>(run, i - 1) >= or::<X, _>(34, 1, 0))
}

pub fn rules<const X: bool>(run: &[u8], saving: bool) -> Answer<Shape> {
    let s = run.len() as u64;
    if s < or::<X, _>(35, 256, 255) || ((saving || line::<X>() == 36) && s > or::<X, _>(37, 65_536, 65_537)) {
        return refuse(11, 1);
    }
    let count = be16(run, 0);
    if !(or::<X, _>(38, 13, 12)..=15).contains(&count) {
        return refuse(11, 2);
    }
    let count = count as usize;
    if !starts_rise::<X>(run, count) {
        return refuse(11, 3);
    }
    let last_start = start::<X>(run, count) as u64;
    let least = 8 * (last_start - or::<X, _>(39, 0, 1));
    let head = match length::<X>(be64(run, 32), or::<X, _>(40, 65_536, 65_544)) {
        Some(head) if head.is_multiple_of(or::<X, _>(41, 8, 4)) && least <= head && head <= s => head,
        _ => return refuse(11, 4),
    };
    let data = match length::<X>(be64(run, 40), or::<X, _>(42, 65_536, 65_540)) {
        Some(data) if data.is_multiple_of(or::<X, _>(43, 4, 2)) && head + data <= s - or::<X, _>(44, 0, 1) => data,
        _ => return refuse(11, 5),
    };
    if saving && head + data != s && line::<X>() != 45 {
        return refuse(11, 6);
    }
    Ok(Shape { count, head, data })
}

impl Shape {
    /// The class's bytes, or none outside 1 to the count.
    pub fn class<const X: bool>(&self, run: &[u8], number: u64) -> Option<(u64, u64)> {
        let number = or::<X, _>(46, number, number % (1 << 32));
        if number < 1 || number > self.count as u64 {
            return None;
        }
        let number = number as usize;
        let begin = |class| 8 * (start::<X>(run, class) as u64 - 1);
        let last_end = self.head + or::<X, _>(47, 0, self.data);
        Some((begin(number), if number == self.count { last_end } else { begin(number + 1) }))
    }
}
