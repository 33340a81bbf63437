//! What comes between two records of a job: a Ctrl-C, and a file that something else cuts short or makes longer.

mod common;

use common::{folder, paper_file, rinzo, run, scan_file, soon, takes, wrote};
use sample::scan;
use std::fs::{self, OpenOptions};
use std::io::{BufRead, BufReader, Read};
use std::os::unix::process::{CommandExt, ExitStatusExt};
use std::path::Path;
use std::process::{Child, ChildStdin, ChildStdout, Command, Stdio};

/// A job that waits after some of its records.
struct Waiting {
    child: Child,
    stdin: ChildStdin,
    stdout: BufReader<ChildStdout>,
}

/// A command that takes Ctrl-C in this way, however the tests were started.
fn taking(how: libc::sighandler_t, mut command: Command) -> Command {
    // SAFETY: signal may be called between fork and exec.
    unsafe {
        command.pre_exec(move || {
            libc::signal(libc::SIGINT, how);
            Ok(())
        });
    }
    command
}

/// Starts a job, and comes back once it has written so many records and waits (one or more).
fn waiting(folder: &Path, words: &[&str], written: usize) -> Waiting {
    let mut child = taking(libc::SIG_DFL, rinzo(folder))
        .args(words)
        .env("RINZO_DRILL", format!("wait:{written}"))
        .stdin(Stdio::piped())
        .stdout(Stdio::piped())
        .stderr(Stdio::piped())
        .spawn()
        .unwrap();
    let mut stdout = BufReader::new(child.stdout.take().unwrap());
    for _ in 0..written {
        let mut line = String::new();
        stdout.read_line(&mut line).unwrap();
        assert!(line.contains("record"), "{line}");
    }
    Waiting { stdin: child.stdin.take().unwrap(), child, stdout }
}

impl Waiting {
    fn interrupt(&self) {
        // SAFETY: a signal to a child that was not waited for yet.
        assert_eq!(unsafe { libc::kill(self.child.id() as libc::pid_t, libc::SIGINT) }, 0);
    }

    /// Lets it go on, and answers its status, what it still printed and what it said.
    fn go_on(mut self) -> (Option<i32>, String, String) {
        drop(self.stdin);
        let (mut printed, mut said) = (String::new(), String::new());
        self.stdout.read_to_string(&mut printed).unwrap();
        self.child.stderr.take().unwrap().read_to_string(&mut said).unwrap();
        (self.child.wait().unwrap().code(), printed, said)
    }
}

/// A file with a scan in slot 1, and one to be saved over it: records 6, 7, 1, 2, and zeros to 4 and 5.
fn file_with_a_scan(folder: &Path) -> String {
    paper_file(folder);
    wrote(folder, &["save", "f.sdd", "1", &scan_file(folder, 1_000, 1)]);
    scan_file(folder, 1_000, 2)
}

/// How to be rid of what is left.
const COPY: &str = "`rinzo sweep f.sdd NEW` makes a copy of the file without them";

/// So many of two records of the old scan.
fn old_left(records: u64) -> String {
    let how = format!("to save or clear again does not remove them, and {COPY}");
    format!("; {records} of 2 records of the old scan can still be read: {how}")
}

#[test]
fn ctrl_c_drops_the_job_between_two_records_and_says_what_the_file_shows() {
    let folder = folder("ctrl_c");
    let name = file_with_a_scan(&folder);
    let file = fs::read(folder.join("f.sdd")).unwrap();
    let before = |left: u64| {
        let hold = format!("; {left} of 2 records that it was to write hold bytes and belong to no scan");
        format!("slot 1 shows the scan that it had before: do it again{hold}: to do it again writes over them")
    };
    let new = "slot 1 shows the new scan, which is not confirmed: list the file, and save the scan to slot 1 once more; to keep it again would put it into two slots";
    for (written, shows) in [
        (1, before(1)),
        (2, before(2)),
        // record 1 says that they are data records now
        (3, format!("{}; else {COPY}", before(2))),
        (4, new.to_string() + &old_left(2)),
        (5, new.to_string() + &old_left(1)),
        (6, new.to_string()),
    ] {
        fs::write(folder.join("f.sdd"), &file).unwrap();
        let job = waiting(&folder, &["save", "f.sdd", "1", &name, "--replace"], written);
        job.interrupt();
        let (status, printed, said) = job.go_on();
        assert_eq!(status, Some(130), "{said}");
        assert_eq!(printed, "");
        assert_eq!(said, format!("rinzo: f.sdd: interrupted. The job is dropped; {shows}\n"));
        let shown = run(&folder, &["read", "f.sdd", "1"]).stdout;
        assert_eq!(shown, scan(1_000, if written < 4 { 1 } else { 2 }));
        assert!(wrote(&folder, &["check", "f.sdd", "--scans"]).starts_with("good"));
        // what is said of a sweep is true
        wrote(&folder, &["sweep", "f.sdd", "g.sdd", "--force"]);
        assert!(wrote(&folder, &["check", "g.sdd"]).ends_with("every data record that belongs to no scan is zeros\n"));
    }
}

#[test]
fn ctrl_c_drops_a_clear_and_says_whether_the_used_number_is_too_high() {
    let folder = folder("ctrl_c_clear");
    let name = file_with_a_scan(&folder);
    wrote(&folder, &["save", "f.sdd", "9", &name]);
    let file = fs::read(folder.join("f.sdd")).unwrap();
    let empty = "slot 9 is empty now, which is not confirmed: list the file";
    let used = "; used 9, highest scan in slot 1: the next save or clear sets it right";
    for (written, shows) in [
        (1, "slot 9 shows the scan that it had before: do it again".to_string()),
        (2, format!("{empty}{used}{}", old_left(2))),
        (3, format!("{empty}{}", old_left(2))),
        (4, format!("{empty}{}", old_left(1))),
        (5, empty.to_string()),
    ] {
        fs::write(folder.join("f.sdd"), &file).unwrap();
        let job = waiting(&folder, &["clear", "f.sdd", "9", "--yes", "--json"], written);
        job.interrupt();
        let (status, printed, said) = job.go_on();
        assert_eq!((status, said.as_str()), (Some(130), ""));
        let sentence = format!("\"sentence\":\"f.sdd: interrupted. The job is dropped; {shows}\"");
        assert!(printed.starts_with("{\"failed\":130,") && printed.contains(&sentence), "{printed}");
        assert!(wrote(&folder, &["check", "f.sdd", "--scans"]).starts_with("good"));
    }
}

#[test]
fn a_second_ctrl_c_ends_it_at_once() {
    let folder = folder("second_ctrl_c");
    let name = file_with_a_scan(&folder);
    let mut job = waiting(&folder, &["save", "f.sdd", "1", &name, "--replace"], 1);
    job.interrupt();
    // two of a kind that nobody has taken yet are one: the second comes when the first was taken, after which none is
    soon(&mut job.child, |pid| (!takes(pid, libc::SIGINT)).then_some(()));
    std::thread::sleep(std::time::Duration::from_millis(100));
    assert!(job.child.try_wait().unwrap().is_none(), "the first one ended a job that was in the middle of something");
    job.interrupt();
    assert_eq!(job.child.wait().unwrap().signal(), Some(libc::SIGINT));
    assert_eq!(run(&folder, &["read", "f.sdd", "1"]).stdout, scan(1_000, 1));
}

#[test]
fn ctrl_c_ends_a_command_that_only_looks() {
    let folder = folder("ctrl_c_look");
    paper_file(&folder);
    // it waits for the lock, which this process has
    let file = fs::File::open(folder.join("f.sdd")).unwrap();
    file.lock().unwrap();
    let mut child = taking(libc::SIG_DFL, rinzo(&folder)).args(["list", "f.sdd"]).spawn().unwrap();
    std::thread::sleep(std::time::Duration::from_millis(200));
    // SAFETY: a signal to a child that was not waited for yet.
    unsafe { libc::kill(child.id() as libc::pid_t, libc::SIGINT) };
    assert_eq!(child.wait().unwrap().signal(), Some(libc::SIGINT));
}

#[test]
fn a_job_in_the_background_takes_no_notice_of_ctrl_c() {
    let folder = folder("ctrl_c_background");
    let name = file_with_a_scan(&folder);
    let mut command = taking(libc::SIG_IGN, rinzo(&folder));
    let job =
        command.args(["save", "f.sdd", "1", &name, "--replace"]).env("RINZO_DRILL", "wait:1").stdin(Stdio::piped());
    let mut child = job.stdout(Stdio::piped()).spawn().unwrap();
    let mut stdout = BufReader::new(child.stdout.take().unwrap());
    stdout.read_line(&mut String::new()).unwrap();
    // SAFETY: a signal to a child that was not waited for yet.
    unsafe { libc::kill(child.id() as libc::pid_t, libc::SIGINT) };
    drop(child.stdin.take());
    let mut printed = String::new();
    stdout.read_to_string(&mut printed).unwrap();
    assert!(child.wait().unwrap().success() && printed.contains("saved: slot 1"), "{printed}");
}

/// Sets the length of the file while a job waits, and holds what comes to this: refused, and nothing more written.
fn other_length(name: &str, len: u64, written: usize, part: &str) {
    let folder = folder(name);
    let scan_name = file_with_a_scan(&folder);
    let path = folder.join("f.sdd");
    let job = waiting(&folder, &["save", "f.sdd", "1", &scan_name, "--replace"], written);
    OpenOptions::new().write(true).open(&path).unwrap().set_len(len).unwrap();
    let bytes = fs::read(&path).unwrap();
    let (status, printed, said) = job.go_on();
    assert_eq!(status, Some(14), "{said}");
    assert!(!printed.contains("record") && !printed.contains("saved"), "{printed}");
    assert!(said.starts_with("rinzo: refused 14: "), "{said}");
    let length =
        format!("The job is dropped; the file had 4096 bytes when the job began and has {len} now, and {part}");
    assert!(said.contains(&length), "{said}");
    assert!(fs::read(&path).unwrap() == bytes, "something was written after the length changed");
}

#[test]
fn a_file_cut_short_while_a_job_runs_is_refused_and_loses_nothing() {
    // behind the scans: slot 1 is as it was
    other_length("cut_1", 4_000, 1, "slot 1 shows the scan that it had before");
    other_length("cut_2", 3_584, 3, "slot 1 shows the scan that it had before");
    // all records are written, and only the confirmation is left
    other_length("cut_3", 3_584, 4, "slot 1 shows the new scan, which is not confirmed");
    // into the scans, and into the index: that was not this program's doing, and it says so
    other_length("cut_4", 2_048, 1, "the file no longer opens, refused 5");
    other_length("cut_5", 100, 2, "the file no longer opens, refused 1");
    other_length("cut_6", 0, 3, "the file no longer opens, refused 1");
}

#[test]
fn a_file_that_grows_while_a_job_runs_is_refused_and_loses_nothing() {
    for (name, written) in [("grown_1", 1), ("grown_2", 2), ("grown_3", 3)] {
        other_length(name, 8_192, written, "slot 1 shows the scan that it had before");
    }
    other_length("grown_4", 4_097, 4, "slot 1 shows the new scan, which is not confirmed");
}
