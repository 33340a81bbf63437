//! What is said: to people, to programs, on failure, and while long work goes on.
//! From the ground up: `shown`, `json`, `left` and `used`, `refused`, `failure`, `out` and `progress`.

pub mod failure;
pub mod json;
pub mod left;
pub mod out;
pub mod progress;
pub mod refused;
pub mod shown;
pub mod used;
