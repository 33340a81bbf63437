//! One line that may be wrong.

use std::sync::atomic::{AtomicU32, Ordering::Relaxed};

/// The line that is wrong in the copy that has wrong ones; 0 is none.
static CHOSEN: AtomicU32 = AtomicU32::new(0);

/// From now on this line is wrong, in every thread of the program.
pub fn choose(number: u32) {
    CHOSEN.store(number, Relaxed);
}

/// The number of the line that is wrong. In the right copy it is the constant 0.
#[inline(always)]
pub fn line<const X: bool>() -> u32 {
    if X { CHOSEN.load(Relaxed) } else { 0 }
}

/// The right value, but the wrong one where the wrong line has this number.
#[inline(always)]
pub fn or<const X: bool, T>(number: u32, right: T, wrong: T) -> T {
    if line::<X>() == number { wrong } else { right }
}
