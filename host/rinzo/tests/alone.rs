//! The program by itself: installed elsewhere, and under a limit on the stack.

mod common;

use common::{folder, refused, scan_file, wrote};
use std::fs;
use std::os::unix::fs::PermissionsExt;
use std::path::Path;
use std::process::{Command, Output};

fn shell(folder: &Path, line: &str) -> Output {
    Command::new("sh").args(["-c", line, env!("CARGO_BIN_EXE_rinzo")]).current_dir(folder).output().unwrap()
}

#[test]
fn an_installed_program_works_alone() {
    let folder = folder("install");
    let installed = wrote(&folder, &["install", "there"]);
    let places = [
        ("bin/rinzo", 0o755),
        ("share/man/man1/rinzo.1", 0o644),
        ("share/bash-completion/completions/rinzo", 0o644),
        ("share/zsh/site-functions/_rinzo", 0o644),
        ("share/fish/vendor_completions.d/rinzo.fish", 0o644),
    ];
    assert_eq!(installed.lines().collect::<Vec<_>>(), places.map(|(place, _)| format!("there/{place}")));
    for (place, mode) in places {
        let about = fs::metadata(folder.join("there").join(place)).unwrap();
        assert_eq!(about.permissions().mode() & 0o777, mode, "{place}");
    }
    let read = |place: &str| fs::read_to_string(folder.join("there").join(place)).unwrap();
    assert_eq!(read("share/man/man1/rinzo.1"), wrote(&folder, &["manual"]));
    assert_eq!(read("share/bash-completion/completions/rinzo"), wrote(&folder, &["completion", "bash"]));
    // from there, with nothing of this folder in its environment, and over an earlier installation
    let demo = shell(&folder, "cd there && env -i bin/rinzo demo d.sdd && bin/rinzo install .");
    assert!(demo.status.success(), "{}", common::said(&demo));
    assert!(String::from_utf8_lossy(&demo.stdout).contains("saved: slot 2"));
    let (status, said) = refused(&folder, &["install", "there/bin/rinzo"]);
    assert!(status == 74 && said.contains("there/bin/rinzo/bin/rinzo"), "{status} {said}");
}

#[test]
fn a_limit_on_the_stack_does_not_matter() {
    let folder = folder("stack");
    // the largest index there is, with a scan in it: the calls need all their tables
    wrote(&folder, &["blank", "f.sdd", "--n", "513", "--l", "512", "--room", "1000000"]);
    let (one, two) = (scan_file(&folder, 1_000, 1), scan_file(&folder, 512, 2));
    for words in ["save f.sdd 9", "save f.sdd 3"] {
        let name = if words.ends_with('9') { &one } else { &two };
        let saved = shell(&folder, &format!("ulimit -s 128; exec \"$0\" {words} {name}"));
        assert!(saved.status.success(), "{words}: {:?} {}", saved.status, common::said(&saved));
    }
    let listed =
        shell(&folder, "ulimit -s 128; \"$0\" check f.sdd --scans && \"$0\" list f.sdd && \"$0\" clear f.sdd 3 --yes");
    assert!(listed.status.success(), "{}", common::said(&listed));
}
