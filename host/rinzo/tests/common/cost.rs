//! What a run of the program costs: bytes read, the most memory, time.

use std::io;
use std::process::{Command, Stdio};
use std::time::{Duration, Instant};

/// The costs of one run.
#[derive(Clone, Copy, Debug)]
pub struct Cost {
    /// Bytes that the program asked the system to read, its own start included.
    pub read: u64,
    /// The most memory that was resident at a time, in bytes.
    pub peak: u64,
    /// From start to end.
    pub time: Duration,
}

/// Runs a command that has to end well, and says what it cost.
#[allow(clippy::zombie_processes)] // it is waited for by a call that tells its costs
pub fn of(command: &mut Command) -> Cost {
    let began = Instant::now();
    let child = command.stdout(Stdio::null()).spawn().unwrap();
    let pid = child.id();
    ended(pid).unwrap();
    let time = began.elapsed();
    // the process is over and still has its name until it is waited for
    let counts = std::fs::read_to_string(format!("/proc/{pid}/io")).unwrap();
    let read = counts.lines().find_map(|line| line.strip_prefix("rchar: ")).unwrap().parse().unwrap();
    let (status, peak) = waited_for(pid).unwrap();
    assert_eq!(status, 0, "{command:?} ended badly");
    Cost { read, peak, time }
}

/// Waits for a process's end, and leaves it to be looked at.
fn ended(pid: u32) -> io::Result<()> {
    // SAFETY: a struct of numbers, which the call fills; the process is a child of this one.
    let done = unsafe {
        let mut about: libc::siginfo_t = std::mem::zeroed();
        libc::waitid(libc::P_PID, pid, &mut about, libc::WEXITED | libc::WNOWAIT)
    };
    if done == 0 { Ok(()) } else { Err(io::Error::last_os_error()) }
}

/// The status of a process that is over, and the most memory it had.
fn waited_for(pid: u32) -> io::Result<(i32, u64)> {
    let mut status = 0;
    // SAFETY: a struct of numbers, which the call fills; the process is a child of this one.
    let (done, usage) = unsafe {
        let mut usage: libc::rusage = std::mem::zeroed();
        (libc::wait4(pid as libc::pid_t, &mut status, 0, &mut usage), usage)
    };
    if done < 0 { Err(io::Error::last_os_error()) } else { Ok((status, usage.ru_maxrss as u64 * 1024)) }
}
