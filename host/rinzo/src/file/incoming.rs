//! Standard input as a file that comes: its length where that is known before its bytes, and these in pieces.

use super::device::uninterrupted;
use crate::say::failure::Failure;
use std::fs::File;
use std::io::{self, Read, Seek};
use std::os::fd::AsFd;

/// How much is asked for at a time. What has come by then is handed on, so that a slow writer is not waited for.
const PIECE: usize = 64 << 10;

/// Standard input. No lock is taken on it: the file behind it, if there is one, is the shell's.
pub struct Incoming(File);

impl Incoming {
    pub fn open() -> Result<Incoming, Failure> {
        // a second hand on the same open file: what std keeps for itself of its own is passed by
        let file = io::stdin().as_fd().try_clone_to_owned().map_err(|error| failed(&error, 0))?;
        Ok(Incoming(file.into()))
    }

    /// How many bytes will come: known of a plain file, from its place on.
    pub fn length(&mut self) -> Option<u64> {
        let about = self.0.metadata().ok().filter(|about| about.is_file())?;
        Some(about.len().saturating_sub(self.0.stream_position().ok()?))
    }

    /// Hands on all that comes, to its end; answers how many bytes that was.
    pub fn pieces(&mut self, mut hand_on: impl FnMut(&[u8])) -> Result<u64, Failure> {
        let mut piece = vec![0; PIECE];
        let mut came = 0;
        loop {
            match uninterrupted(|| self.0.read(&mut piece)).map_err(|error| failed(&error, came))? {
                0 => return Ok(came),
                len => {
                    hand_on(&piece[..len]);
                    came += len as u64;
                }
            }
        }
    }
}

fn failed(error: &io::Error, came: u64) -> Failure {
    Failure::Io(format!("standard input cannot be read after {came} bytes of it: {error}"))
}
