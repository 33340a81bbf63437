//! Runs the program `compare` in a process of its own, so that a subject that
//! touches memory it was not lent ends that process and not the test.

#![allow(dead_code)] // each test program uses a part of it

use compare::Tally;
use std::process::{Child, Command, ExitStatus, Stdio};

/// A comparison under way.
pub struct Running(Child);

/// How it ended.
pub struct Ended {
    /// What was compared.
    pub tally: Tally,
    /// Whether all agreed.
    pub agreed: bool,
    /// What was printed beside the tally.
    pub said: String,
    /// How its process ended.
    pub status: ExitStatus,
}

/// Starts a comparison.
pub fn start(words: &[&str], seed: u64, cases: u64) -> Running {
    let child = Command::new(env!("CARGO_BIN_EXE_compare"))
        .args(words)
        .args(["--seed", &seed.to_string(), "--cases", &cases.to_string()])
        .stdout(Stdio::piped())
        .stderr(Stdio::piped())
        .spawn()
        .expect("compare could not be started");
    Running(child)
}

impl Running {
    /// Rings the clock that a round has to be ended by, once the process takes notice of it.
    pub fn ring(&self) {
        let began = std::time::Instant::now();
        while !self.takes_notice(libc::SIGALRM) {
            assert!(began.elapsed().as_secs() < 60, "the clock is not set");
            std::thread::sleep(std::time::Duration::from_millis(2));
        }
        // SAFETY: a signal to a child that was not waited for yet.
        assert_eq!(unsafe { libc::kill(self.0.id() as libc::pid_t, libc::SIGALRM) }, 0);
    }

    /// Whether the process has a handler for a signal.
    fn takes_notice(&self, signal: i32) -> bool {
        let about = std::fs::read_to_string(format!("/proc/{}/status", self.0.id())).unwrap();
        let caught = about.lines().find_map(|line| line.strip_prefix("SigCgt:")).unwrap();
        u64::from_str_radix(caught.trim(), 16).unwrap() >> (signal - 1) & 1 == 1
    }

    /// Waits for its end.
    pub fn end(self) -> Ended {
        let ended = self.0.wait_with_output().expect("compare could not be waited for");
        let mut tally = Tally::default();
        let mut said = String::from_utf8_lossy(&ended.stderr).into_owned();
        for line in String::from_utf8_lossy(&ended.stdout).lines() {
            if !tally.add_line(line) {
                said += &format!("{line}\n");
            }
        }
        if !ended.status.success() && said.is_empty() {
            said = ended.status.to_string();
        }
        Ended { tally, agreed: ended.status.success(), said, status: ended.status }
    }
}
