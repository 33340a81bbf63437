//! Ctrl-C while a job runs: the first one is noted, and the job drops itself between two records; the
//! second one ends the program at once.

use crate::file::sys;
use std::ffi::c_int;
use std::sync::atomic::{AtomicBool, Ordering::Relaxed};

static NOTED: AtomicBool = AtomicBool::new(false);

extern "C" fn note(_: c_int) {
    NOTED.store(true, Relaxed);
}

/// From now on the first Ctrl-C is noted.
pub fn watch() {
    sys::on_first_interrupt(note);
}

/// Whether there was one.
pub fn noted() -> bool {
    NOTED.load(Relaxed)
}
