//! The commands that README shows to the crew do what it shows.

mod common;

use common::folder;
use std::os::unix::fs::symlink;
use std::path::Path;
use std::process::Command;

/// Runs a line as it stands in README, where the program and the example lie as they do at the repository's top.
fn shell(folder: &Path, line: &str) -> String {
    let output = Command::new("sh").args(["-c", line]).current_dir(folder).output().unwrap();
    assert!(output.status.success(), "{line}: {}", common::said(&output));
    String::from_utf8(output.stdout).unwrap()
}

/// Lines to be compared: how bytes were read back hangs on the file system.
fn same_everywhere(lines: &str) -> Vec<&str> {
    lines.lines().map(|line| if line.starts_with("read back") { "read back" } else { line }).collect()
}

#[test]
fn the_crews_commands_do_what_readme_shows() {
    let root = Path::new(env!("CARGO_MANIFEST_DIR")).join("../..");
    let readme = std::fs::read_to_string(root.join("README.md")).unwrap();
    let folder = folder("readme");
    std::fs::create_dir(folder.join("host")).unwrap();
    symlink(root.join("host/example").canonicalize().unwrap(), folder.join("host/example")).unwrap();
    symlink(env!("CARGO_BIN_EXE_rinzo"), folder.join("rinzo")).unwrap();

    let blank = readme.split('`').find(|part| part.starts_with("./rinzo blank ")).expect("README makes a file first");
    shell(&folder, blank);
    let shown =
        readme.split("```console\n").nth(1).and_then(|rest| rest.split("```").next()).expect("README shows a job");
    let mut commands = 0;
    for part in shown.split("$ ").skip(1) {
        let (line, wanted) = part.split_once('\n').unwrap();
        assert_eq!(same_everywhere(&shell(&folder, line)), same_everywhere(wanted), "{line}");
        commands += 1;
    }
    assert_eq!(commands, 3);
}
