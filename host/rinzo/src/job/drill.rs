//! The power-cut drill's hook: stops or holds a job after a given record.
//!
//! `RINZO_DRILL=stop:I` ends the process, as a power cut would, once I records
//! are written (0: before the first). `RINZO_DRILL=pause:I` holds it there, to
//! be ended from outside within ten minutes, after which it ends as with `stop`,
//! and `RINZO_DRILL=wait:I` until its standard input ends. A conversion and a
//! sweep count otherwise: 0 nothing is written, 1 all of it is, 2 it was
//! compared. Without the variable this does nothing.

use crate::file::sys;
use std::time::Duration;

/// How long a job is held for somebody to end it.
const PAUSE: Duration = Duration::from_secs(600);

/// Where to stop, if the drill is on.
pub struct Drill {
    at: Option<(Way, u64)>,
}

enum Way {
    Stop,
    Pause,
    Wait,
}

impl Drill {
    /// As the environment says.
    pub fn from_environment() -> Drill {
        Drill { at: std::env::var("RINZO_DRILL").ok().and_then(|text| read(&text)) }
    }

    /// So many records are written.
    pub fn reached(&self, written: u64) {
        match &self.at {
            Some((way, at)) if *at == written => way.hold(),
            _ => (),
        }
    }
}

impl Way {
    fn hold(&self) {
        match self {
            Way::Stop => sys::stop_dead(),
            Way::Pause => {
                std::thread::sleep(PAUSE);
                sys::stop_dead()
            }
            Way::Wait => {
                let _ = std::io::copy(&mut std::io::stdin(), &mut std::io::sink());
            }
        }
    }
}

fn read(text: &str) -> Option<(Way, u64)> {
    let (way, at) = text.split_once(':')?;
    let way = match way {
        "stop" => Way::Stop,
        "pause" => Way::Pause,
        "wait" => Way::Wait,
        _ => return None,
    };
    Some((way, at.parse().ok()?))
}
