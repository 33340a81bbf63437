//! What comes into the middle of a conversion: a Ctrl-C, a cut, and other programs.

mod common;

use common::{folder, refused, rinzo, scan_file, soon, wrote};
use std::fs;
use std::io::Read;
use std::os::unix::process::{CommandExt, ExitStatusExt};
use std::path::{Path, PathBuf};
use std::process::{Child, Stdio};

/// A file of the current form with a scan in slot 1, with which each of these folders begins.
fn file(folder: &Path) -> Vec<u8> {
    common::paper_file(folder);
    wrote(folder, &["keep", "f.sdd", &scan_file(folder, 700, 1)]);
    fs::read(folder.join("f.sdd")).unwrap()
}

/// What is under way in a folder.
fn under_way(folder: &Path) -> Option<PathBuf> {
    let names = fs::read_dir(folder).unwrap().map(|entry| entry.unwrap().path());
    names.into_iter().find(|path| path.extension().is_some_and(|end| end == "new"))
}

/// A conversion in this way of the drill, started so that it takes Ctrl-C.
fn started(folder: &Path, drill: &str) -> Child {
    let mut command = rinzo(folder);
    command.args(["convert", "f.sdd", "--to", "old", "--out", "old.sdd"]).env("RINZO_DRILL", drill);
    command.stdin(Stdio::piped()).stdout(Stdio::piped()).stderr(Stdio::piped());
    // SAFETY: signal may be called between fork and exec.
    unsafe {
        command.pre_exec(|| {
            libc::signal(libc::SIGINT, libc::SIG_DFL);
            Ok(())
        });
    }
    command.spawn().unwrap()
}

/// The same, once its file is there.
fn waiting(folder: &Path, at: u32) -> Child {
    let mut child = started(folder, &format!("wait:{at}"));
    soon(&mut child, |_| under_way(folder));
    child
}

fn interrupt(child: &Child) {
    // SAFETY: a signal to a child that was not waited for yet.
    assert_eq!(unsafe { libc::kill(child.id() as libc::pid_t, libc::SIGINT) }, 0);
}

/// Lets it go on, and answers its status and what it said.
fn go_on(mut child: Child) -> (Option<i32>, String) {
    drop(child.stdin.take());
    let mut said = String::new();
    child.stderr.take().unwrap().read_to_string(&mut said).unwrap();
    (child.wait().unwrap().code(), said)
}

#[test]
fn ctrl_c_leaves_nothing_behind() {
    let folder = folder("convert_ctrl_c");
    let bytes = file(&folder);
    for at in [0, 1, 2] {
        let child = waiting(&folder, at);
        interrupt(&child);
        let (status, said) = go_on(child);
        assert_eq!(status, Some(130), "{said}");
        assert_eq!(said, "rinzo: old.sdd: interrupted. The job is dropped; nothing of it is left\n");
        assert!(!folder.join("old.sdd").exists() && under_way(&folder).is_none(), "at {at}");
        assert!(fs::read(folder.join("f.sdd")).unwrap() == bytes);
    }
    // without one it goes on to its end
    assert_eq!(go_on(waiting(&folder, 1)), (Some(0), String::new()));
    assert!(folder.join("old.sdd").exists() && under_way(&folder).is_none());
}

/// A cut, as of the power: the name is not there, or it is there and the file is whole.
#[test]
fn a_cut_leaves_no_half_file_under_the_name() {
    let folder = folder("convert_cut");
    let bytes = file(&folder);
    for at in [0, 1, 2] {
        let mut child = started(&folder, &format!("stop:{at}"));
        assert_eq!(child.wait().unwrap().signal(), Some(libc::SIGKILL));
        assert!(!folder.join("old.sdd").exists(), "at {at}");
        assert!(fs::read(folder.join("f.sdd")).unwrap() == bytes);
        // what is left has another name and is in nobody's way
        assert!(under_way(&folder).is_some());
    }
    wrote(&folder, &["convert", "f.sdd", "--to", "old", "--out", "old.sdd"]);
    assert!(wrote(&folder, &["check", "old.sdd"]).contains("1 scan in 16 slots"));
}

#[test]
fn no_job_gets_in_between() {
    let folder = folder("convert_lock");
    file(&folder);
    let child = waiting(&folder, 1);
    // others may look, and nobody may change the file
    wrote(&folder, &["list", "f.sdd"]);
    assert_eq!(refused(&folder, &["clear", "f.sdd", "1", "--yes"]).0, 75);
    assert_eq!(go_on(child).0, Some(0));
    wrote(&folder, &["clear", "f.sdd", "1", "--yes"]);
}

#[test]
fn what_has_come_to_the_name_meanwhile_stays() {
    let folder = folder("convert_meanwhile");
    file(&folder);
    let child = waiting(&folder, 2);
    fs::write(folder.join("old.sdd"), "mine").unwrap();
    let (status, said) = go_on(child);
    assert!(status == Some(73) && said.contains("old.sdd is there already: give another name"), "{said}");
    assert_eq!(fs::read(folder.join("old.sdd")).unwrap(), b"mine");
    assert!(under_way(&folder).is_none());
}

#[test]
fn a_file_that_changes_under_it_is_not_converted() {
    let folder = folder("convert_changed");
    let bytes = file(&folder);
    let changed = |at: usize| {
        let mut other = bytes.clone();
        other[at] ^= 1;
        other
    };
    // a scan, an entry, the counter, and the length: by a program that does not ask for the lock
    for other in [changed(3 * 512 + 300), changed(512 + 20), changed(23), [&bytes[..], &[0; 512]].concat()] {
        fs::write(folder.join("f.sdd"), &bytes).unwrap();
        let mut child = waiting(&folder, 1);
        // once its scans are copied
        let copied = |now: Vec<u8>| (now.get(3 * 512..) == Some(&bytes[3 * 512..])).then_some(());
        soon(&mut child, |_| copied(fs::read(under_way(&folder)?).ok()?));
        fs::write(folder.join("f.sdd"), other).unwrap();
        let (status, said) = go_on(child);
        assert!(
            status == Some(74) && said.contains(", or f.sdd was changed meanwhile; nothing of it is left"),
            "{said}"
        );
        assert!(!folder.join("old.sdd").exists() && under_way(&folder).is_none());
    }
}
