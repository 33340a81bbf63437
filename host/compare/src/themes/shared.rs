//! What the themes share: slots to ask about, jobs, conversions, searches and verdicts over the link. From the ground up:
//! `slots`, `jobs`; `moves`; `searches`; `links`.

pub mod jobs;
pub mod links;
pub mod moves;
pub mod searches;
pub mod slots;
