//! The seed of a run.

use std::time::{SystemTime, UNIX_EPOCH};

/// `RINZO_SEED`, or another one at each run, from the clock.
pub fn seed_from_environment() -> u64 {
    match std::env::var("RINZO_SEED") {
        Ok(text) => text.parse().unwrap_or_else(|_| panic!("RINZO_SEED is a number, and {text} is none")),
        Err(_) => {
            SystemTime::now().duration_since(UNIX_EPOCH).map_or(1, |since| since.as_nanos() as u64 % 1_000_000_000_000)
        }
    }
}
