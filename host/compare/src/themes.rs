//! The themes of the comparison. A round of a theme sets a world up and makes
//! some dozens of calls on it.

mod blanks;
mod confirming;
mod cuts;
mod edges;
mod files;
mod find;
mod forged;
mod gaps;
mod giant;
mod histories;
mod link;
mod moved;
mod older;
mod past;
mod reach;
mod scans;
mod shared;
mod used;
mod wide;

use crate::world::{Round, World};

/// A theme: its name, and how often its turn comes among a hundred.
pub struct Theme {
    /// The name.
    pub name: &'static str,
    /// Its share.
    pub share: u64,
    /// One round of it.
    pub round: fn(&mut World) -> Round,
}

/// The themes whose turn comes by chance.
pub const THEMES: [Theme; 14] = [
    Theme { name: "files", share: 13, round: files::round },
    Theme { name: "edges", share: 9, round: edges::round },
    Theme { name: "scans", share: 9, round: scans::round },
    Theme { name: "blanks", share: 4, round: blanks::round },
    Theme { name: "histories", share: 8, round: histories::round },
    Theme { name: "cuts", share: 6, round: cuts::round },
    Theme { name: "forged", share: 7, round: forged::round },
    Theme { name: "confirming", share: 7, round: confirming::round },
    Theme { name: "older", share: 6, round: older::round },
    Theme { name: "moved", share: 7, round: moved::round },
    Theme { name: "used", share: 7, round: used::round },
    Theme { name: "gaps", share: 8, round: gaps::round },
    Theme { name: "find", share: 9, round: find::round },
    Theme { name: "link", share: 11, round: link::round },
];

/// Up to 4,096 slots; dear, so its turn comes by count.
pub const WIDE: Theme = Theme { name: "wide", share: 0, round: wide::round };

/// Old files with more than 32,767 records; dear too.
pub const PAST: Theme = Theme { name: "past", share: 0, round: past::round };

/// Current files of which the old form can say no more; as dear.
pub const REACH: Theme = Theme { name: "reach", share: 0, round: reach::round };

/// More than 1,000,000 records; very dear.
pub const GIANT: Theme = Theme { name: "giant", share: 0, round: giant::round };
