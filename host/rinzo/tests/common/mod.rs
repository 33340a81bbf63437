//! What the tests of the command line share: folders, scans, and the program itself.
#![allow(dead_code)] // each test program uses a part of it

pub mod cost;

use std::ffi::CStr;
use std::fs::{File, OpenOptions};
use std::os::fd::{AsRawFd, FromRawFd};
use std::os::unix::fs::OpenOptionsExt;
use std::path::{Path, PathBuf};
use std::process::{Child, Command, ExitStatus, Output, Stdio};
use std::time::{Duration, Instant};

/// A fresh folder of a test's own, on the disk that the build is on.
pub fn folder(name: &str) -> PathBuf {
    let folder = Path::new(env!("CARGO_TARGET_TMPDIR")).join(name);
    let _ = std::fs::remove_dir_all(&folder);
    std::fs::create_dir_all(&folder).unwrap();
    folder
}

/// The program, in a folder. `RINZO_PROGRAM` names another to be measured beside it.
pub fn rinzo(folder: &Path) -> Command {
    let program = std::env::var_os("RINZO_PROGRAM").unwrap_or(env!("CARGO_BIN_EXE_rinzo").into());
    let mut command = Command::new(program);
    command.current_dir(folder).stdin(Stdio::null()).env_remove("RINZO_DRILL");
    command
}

/// Runs the program with these words.
pub fn run(folder: &Path, words: &[&str]) -> Output {
    rinzo(folder).args(words).output().unwrap()
}

/// What it wrote, where it ended well.
pub fn wrote(folder: &Path, words: &[&str]) -> String {
    let output = run(folder, words);
    assert!(output.status.success(), "{words:?}: {}", said(&output));
    String::from_utf8(output.stdout).unwrap()
}

/// What it said on standard error.
pub fn said(output: &Output) -> String {
    String::from_utf8_lossy(&output.stderr).into_owned()
}

/// Its status, and what it said.
pub fn refused(folder: &Path, words: &[&str]) -> (i32, String) {
    let output = run(folder, words);
    (output.status.code().unwrap(), said(&output))
}

/// Writes a scan to a file of the folder, and answers its name; `mark` makes it another than the next.
pub fn scan_file(folder: &Path, len: usize, mark: u8) -> String {
    let name = format!("scan-{len}-{mark}");
    std::fs::write(folder.join(&name), sample::scan(len, mark)).unwrap();
    name
}

/// The paper's file: 4,096 bytes with N 3, L 512, M 64.
pub fn paper_file(folder: &Path) {
    wrote(folder, &["blank", "f.sdd", "--n", "3", "--l", "512", "--m", "64", "--room", "8"]);
}

/// A job that the drill holds, and that is ended with this: also where the test fails, since it would wait on.
pub struct Held(Child);

impl Held {
    /// Ends it, as the power would.
    pub fn cut(mut self) -> ExitStatus {
        self.0.kill().unwrap();
        self.0.wait().unwrap()
    }
}

impl Drop for Held {
    fn drop(&mut self) {
        let _ = self.0.kill();
        let _ = self.0.wait();
    }
}

/// Starts a job that the drill holds after so many records, and waits until it is held there.
pub fn held(folder: &Path, words: &[&str], written: u64) -> Held {
    use std::io::{BufRead, BufReader};
    let mut job = rinzo(folder)
        .args(words)
        .env("RINZO_DRILL", format!("pause:{written}"))
        .stdout(Stdio::piped())
        .spawn()
        .map(Held)
        .unwrap();
    let mut lines = BufReader::new(job.0.stdout.take().unwrap()).lines();
    for _ in 0..written {
        lines.next().expect("the job ended before its time").unwrap();
    }
    // nothing is printed before the first record: the lock tells that it has begun
    if written == 0 {
        soon(&mut job.0, |pid| has_lock(pid).then_some(()));
    }
    job
}

/// Waits for what a program that was started is to come to. It is not waited for without end: not where the program is
/// over, and a minute is more than it can need.
pub fn soon<T>(child: &mut Child, come: impl Fn(u32) -> Option<T>) -> T {
    let began = Instant::now();
    loop {
        if let Some(what) = come(child.id()) {
            return what;
        }
        assert_eq!(child.try_wait().unwrap(), None, "the job ended before its time");
        assert!(began.elapsed() < Duration::from_secs(60), "the job does not come so far");
        std::thread::sleep(Duration::from_millis(2));
    }
}

/// Whether a process has a lock on a file. The system is asked: who tries for the lock itself may be in the process's way.
fn has_lock(pid: u32) -> bool {
    let opened = std::fs::read_dir(format!("/proc/{pid}/fdinfo")).into_iter().flatten().flatten();
    opened.into_iter().any(|file| std::fs::read_to_string(file.path()).is_ok_and(|about| about.contains("FLOCK")))
}

/// Whether a process has a handler for a signal.
pub fn takes(pid: u32, signal: libc::c_int) -> bool {
    let about = std::fs::read_to_string(format!("/proc/{pid}/status")).unwrap();
    let taken = about.lines().find_map(|line| line.strip_prefix("SigCgt:")).unwrap();
    u64::from_str_radix(taken.trim(), 16).unwrap() >> (signal - 1) & 1 == 1
}

/// A terminal: the end that a person has, and the end that a program has. No program that another test starts meanwhile
/// keeps hold of either.
pub fn terminal() -> (File, File) {
    // SAFETY: the number is looked at before it is used, and is nobody else's.
    let person = unsafe {
        let person = libc::posix_openpt(libc::O_RDWR | libc::O_NOCTTY | libc::O_CLOEXEC);
        assert!(person >= 0, "no terminal");
        File::from_raw_fd(person)
    };
    let mut name = [0; 64];
    // SAFETY: the number is that of an open file, and the name has as many bytes as are said.
    let named = unsafe {
        libc::grantpt(person.as_raw_fd()) == 0
            && libc::unlockpt(person.as_raw_fd()) == 0
            && libc::ptsname_r(person.as_raw_fd(), name.as_mut_ptr(), name.len()) == 0
    };
    assert!(named, "no terminal");
    // SAFETY: the call above ended the name with a 0.
    let name = unsafe { CStr::from_ptr(name.as_ptr()) }.to_str().unwrap();
    let program = OpenOptions::new().read(true).write(true).custom_flags(libc::O_NOCTTY).open(name).unwrap();
    (person, program)
}

/// Builds a shim that stands before the system's calls (`LD_PRELOAD`), from lines of C.
pub fn shim(folder: &Path, lines: &str) -> PathBuf {
    let (source, made) = (folder.join("shim.c"), folder.join("shim.so"));
    std::fs::write(&source, lines).unwrap();
    let mut cc = Command::new("cc");
    let built = cc.args(["-shared", "-fPIC", "-Wall", "-Werror", "-o"]).arg(&made).arg(&source).output().unwrap();
    assert!(built.status.success(), "{}", said(&built));
    made
}

/// A shim under which a call on a file fails in its turn, from 1 on, as it does on a disk that is full.
pub fn failing(call: &str, turn: u32) -> String {
    let (kind, words, rest) = match call {
        "fdatasync" | "fsync" => ("int", "int fd", "fd"),
        _ => ("ssize_t", "int fd, const void *at, size_t len, off_t from", "fd, at, len, from"),
    };
    format!(
        "#define _GNU_SOURCE
#include <dlfcn.h>
#include <errno.h>
#include <unistd.h>
{kind} {call}({words}) {{
  static int turn;
  {kind} (*own)({words}) = ({kind} (*)({words}))dlsym(RTLD_NEXT, \"{call}\");
  if (++turn == {turn}) {{ errno = ENOSPC; return -1; }}
  return own({rest});
}}
"
    )
}
