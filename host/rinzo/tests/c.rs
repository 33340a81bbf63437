//! The example in C, built with the library at hand and run on real files.

mod common;

use common::{folder, paper_file, run, said, scan_file, wrote};
use sample::scan;
use std::fs;
use std::path::{Path, PathBuf};
use std::process::{Command, Output};

/// The repository's folder.
fn root() -> PathBuf {
    Path::new(env!("CARGO_MANIFEST_DIR")).join("../..").canonicalize().unwrap()
}

/// What a C program links: the proved library, or the stand-in under its names.
fn library() -> PathBuf {
    if cfg!(not(feature = "stand-in")) {
        return PathBuf::from(std::env::var_os("SDD_LIB").expect("SDD_LIB names the proved library"));
    }
    let target = Path::new(env!("CARGO_TARGET_TMPDIR")).parent().unwrap();
    let mut build = Command::new(env!("CARGO"));
    build.args(["build", "--release", "--offline", "--quiet", "-p", "stand_in", "--target-dir"]).arg(target);
    assert!(build.current_dir(root().join("host")).status().unwrap().success());
    target.join("release/libstand_in.a")
}

/// Builds the example, with every warning an error, and answers its path.
fn example(folder: &Path) -> PathBuf {
    let program = folder.join("save");
    let mut cc = Command::new("cc");
    cc.args(["-std=c99", "-Wall", "-Wextra", "-Werror", "-O2", "-Iinclude", "host/example/save.c", "-o"]);
    cc.arg(&program).arg(library()).args(["-lpthread", "-ldl", "-lm"]);
    let built = cc.current_dir(root()).output().unwrap();
    assert!(built.status.success(), "{}", said(&built));
    program
}

/// A device that says yes to every write and keeps nothing.
const LIAR: &str = "#include <unistd.h>
ssize_t pwrite(int fd, const void *bytes, size_t len, off_t at) { (void)fd; (void)bytes; (void)at; return (ssize_t)len; }
ssize_t pwrite64(int fd, const void *bytes, size_t len, off_t at) { return pwrite(fd, bytes, len, at); }
";

/// Runs the example, with a limit on file sizes in blocks of 512 bytes where one is given.
fn save(folder: &Path, program: &Path, words: &str, blocks: Option<u32>) -> Output {
    let limit = blocks.map_or(String::new(), |blocks| format!("trap '' XFSZ; ulimit -f {blocks};"));
    let line = format!("{limit} exec {} {words}", program.display());
    Command::new("sh").arg("-c").arg(line).current_dir(folder).output().unwrap()
}

#[test]
fn the_example_in_c_saves_and_tells_the_truth() {
    let folder = folder("c_example");
    let program = example(&folder);
    paper_file(&folder);
    let name = scan_file(&folder, 1_000, 1);

    let saved = save(&folder, &program, &format!("f.sdd 9 {name} 'ORION A'"), None);
    let out = String::from_utf8_lossy(&saved.stdout);
    let records = "record 4 written\nrecord 5 written\nrecord 1 written\nrecord 3 written\n";
    assert_eq!(out, format!("{records}saved: slot 9\n"), "{}", said(&saved));
    assert_eq!(wrote(&folder, &["list", "f.sdd"]), "slots 16 used 9 scans 1\n9 4 5\n");
    assert_eq!(run(&folder, &["read", "f.sdd", "9"]).stdout, scan(1_000, 1));
    let entry = wrote(&folder, &["entry", "f.sdd", "9"]);
    assert!(entry.contains("ORION A") && entry.contains("continuum (mode 256)"), "{entry}");

    let refused = save(&folder, &program, &format!("f.sdd 17 {name}"), None);
    assert_eq!(refused.status.code(), Some(9));
    assert!(said(&refused).starts_with("not saved: refused 9 (0): the file has no such slot"), "{}", said(&refused));

    // a file of the old form is refused as such, whatever its numbers are
    for n in [3, 0] {
        let mut old = sample::old_file(3, 8, &[]);
        old[1] = n;
        fs::write(folder.join("old.sdd"), &old).unwrap();
        let refused = save(&folder, &program, &format!("old.sdd 1 {name}"), None);
        assert_eq!(refused.status.code(), Some(2), "{}", said(&refused));
        assert!(said(&refused).contains("refused 2 (0): the file has the old form"), "{}", said(&refused));
        assert!(fs::read(folder.join("old.sdd")).unwrap() == old);
    }

    // record 7 would end past the limit: the job is dropped, and nothing is called saved
    let before = fs::read(folder.join("f.sdd")).unwrap();
    let failed = save(&folder, &program, &format!("f.sdd 9 {name}"), Some(6));
    assert_eq!(failed.status.code(), Some(74), "{}", said(&failed));
    assert!(said(&failed).contains("not saved") && !String::from_utf8_lossy(&failed.stdout).contains("saved"));
    let now = fs::read(folder.join("f.sdd")).unwrap();
    assert!(now[..2_560] == before[..2_560], "the index and the scan are as they were");
    assert_eq!(run(&folder, &["read", "f.sdd", "9"]).stdout, scan(1_000, 1));
}

#[test]
fn a_device_that_keeps_nothing_is_never_believed() {
    let folder = folder("liar");
    let (program, liar) = (example(&folder), common::shim(&folder, LIAR));
    paper_file(&folder);
    let name = scan_file(&folder, 1_000, 1);
    let before = fs::read(folder.join("f.sdd")).unwrap();
    for mut command in [Command::new(&program), common::rinzo(&folder)] {
        if command.get_program() != program.as_os_str() {
            command.arg("save");
        }
        let ended = command.args(["f.sdd", "9", &name]).current_dir(&folder).env("LD_PRELOAD", &liar).output().unwrap();
        assert_eq!(ended.status.code(), Some(14), "{}", said(&ended));
        assert!(!String::from_utf8_lossy(&ended.stdout).contains("saved"));
        assert!(fs::read(folder.join("f.sdd")).unwrap() == before, "nothing was kept");
    }
}
