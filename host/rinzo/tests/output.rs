//! What comes out: where it cannot be written, what is left then, and bytes that a terminal would obey.

mod common;

use common::{folder, paper_file, refused, rinzo, run, said, scan_file, wrote};
use sample::scan;
use std::ffi::OsStr;
use std::fs;
use std::os::unix::ffi::OsStrExt;
use std::path::Path;
use std::process::{Command, Output};

/// Runs the program by a line of the shell, in which it is `"$0"`.
fn shell(folder: &Path, line: &str) -> Output {
    Command::new("sh").args(["-c", line, env!("CARGO_BIN_EXE_rinzo")]).current_dir(folder).output().unwrap()
}

#[test]
fn an_output_that_is_full_has_a_sentence() {
    let folder = folder("output_full");
    paper_file(&folder);
    let name = scan_file(&folder, 700, 1);
    wrote(&folder, &["keep", "f.sdd", &name]);
    for words in ["list f.sdd", "check f.sdd", "read f.sdd 1", "--help", "list f.sdd f.sdd"] {
        let output = shell(&folder, &format!("\"$0\" {words} >/dev/full"));
        assert_eq!(output.status.code(), Some(74), "{words}");
        assert!(said(&output).contains("standard output could not be written"), "{words}: {}", said(&output));
    }
    // a failure's JSON has nowhere to go, so that its sentence is said
    let output = shell(&folder, "\"$0\" list nothing --json >/dev/full");
    assert_eq!(output.status.code(), Some(66));
    assert!(said(&output).contains("nothing is not there"), "{}", said(&output));
}

#[test]
fn a_closed_output_is_not_status_0() {
    let folder = folder("output_closed");
    paper_file(&folder);
    let name = scan_file(&folder, 700, 1);
    for words in ["list f.sdd", "check f.sdd", "--version"] {
        let output = shell(&folder, &format!("\"$0\" {words} >&-"));
        assert_eq!(output.status.code(), Some(74), "{words}");
        assert!(said(&output).contains("standard output is closed"), "{words}: {}", said(&output));
    }
    // a save is done and confirmed all the same, and the sentence says so
    for (end, part) in [(">&-", "standard output is closed"), (">/dev/full", "standard output could not be written")] {
        let output = shell(&folder, &format!("\"$0\" keep f.sdd {name} --again {end}"));
        assert_eq!(output.status.code(), Some(74));
        assert!(
            said(&output).contains("f.sdd: slot ")
                && said(&output).contains("is saved and confirmed, but ")
                && said(&output).contains(part),
            "{}",
            said(&output)
        );
    }
    assert!(wrote(&folder, &["list", "f.sdd"]).contains("scans 2"));
    // and what nobody wants to see is no failure
    assert_eq!(shell(&folder, "\"$0\" list f.sdd >/dev/null").status.code(), Some(0));
    assert!(shell(&folder, "\"$0\" list f.sdd | true").stderr.is_empty());
}

#[test]
fn a_failed_out_leaves_no_file() {
    let folder = folder("failed_out");
    paper_file(&folder);
    let name = scan_file(&folder, 2_000, 1);
    wrote(&folder, &["keep", "f.sdd", &name]);
    fs::write(folder.join("old"), "old").unwrap();
    for (to, force) in [("new", ""), ("old", "--force")] {
        let line = format!("trap '' XFSZ; ulimit -f 2; exec \"$0\" read f.sdd 1 --out {to} {force}");
        let output = shell(&folder, &line);
        assert_eq!(output.status.code(), Some(74), "{}", said(&output));
        assert!(said(&output).contains(&format!("{to}: it could not be written, and nothing of it is left")));
        assert!(!folder.join(to).exists(), "half a scan is left in {to}");
    }
    wrote(&folder, &["read", "f.sdd", "1", "--out", "new"]);
    assert_eq!(fs::read(folder.join("new")).unwrap(), scan(2_000, 1));
    // what is no plain file is not removed
    assert_eq!(shell(&folder, "\"$0\" read f.sdd 1 --out /dev/full --force").status.code(), Some(74));
    assert!(Path::new("/dev/full").exists());
}

#[test]
fn demo_and_folders_say_the_right_thing() {
    let folder = folder("right_thing");
    fs::write(folder.join("d.sdd"), "mine").unwrap();
    let (status, said) = refused(&folder, &["demo", "d.sdd"]);
    assert_eq!(status, 73);
    assert!(said.contains("d.sdd is there already, and demo works on a new file: give another name"), "{said}");
    assert!(!said.contains("--force"));
    assert_eq!(fs::read(folder.join("d.sdd")).unwrap(), b"mine");
    paper_file(&folder);
    wrote(&folder, &["keep", "f.sdd", &scan_file(&folder, 512, 1)]);
    for words in [
        &["blank", "no/such/f.sdd"][..],
        &["list", "no/such/f.sdd"],
        &["demo", "no/such/f.sdd"],
        &["read", "f.sdd", "1", "--out", "no/such/f.sdd"],
    ] {
        let (status, said) = refused(&folder, words);
        assert_eq!(status, 66, "{words:?}");
        assert!(said.contains("no/such/f.sdd: the folder no/such is not there: make it first"), "{words:?}: {said}");
    }
    assert!(refused(&folder, &["list", "."]).1.contains(". is no plain file"));
    assert!(refused(&folder, &["list", "f.sdd/x"]).1.contains("has a file where it should have a folder"));
}

/// Whether bytes have nothing but letters and ends of line: neither C0 nor C1, in UTF-8.
fn is_harmless(bytes: &[u8]) -> bool {
    String::from_utf8_lossy(bytes).chars().all(|letter| letter == '\n' || !letter.is_control())
}

#[test]
fn no_name_reaches_a_terminal_as_a_command() {
    let folder = folder("control");
    let name = OsStr::from_bytes(b"a\x1b[2J\xc2\x9b31m\r\nb\xff.sdd");
    let blank = |words: &[&str]| rinzo(&folder).arg("blank").arg(name).args(words).output().unwrap();
    let on = |words: &[&str]| rinzo(&folder).arg(words[0]).arg(name).args(&words[1..]).output().unwrap();
    let scan = scan_file(&folder, 512, 1);
    let source = OsStr::from_bytes(b"\x1b[31m\x9b\xc2\x9b\x07");
    let keep = || rinzo(&folder).arg("keep").arg(name).args([&scan, "--source"]).arg(source).output().unwrap();
    let mut outputs = vec![on(&["list"]), blank(&["--l", "512", "--room", "200"]), blank(&[])];
    outputs.push(keep());
    for words in [&["list", "--long"][..], &["list", "--long", "--json"], &["entry", "1"], &["entry", "1", "--json"]] {
        outputs.push(on(words));
    }
    for words in [&["clear", "1"][..], &["entry", "9999"], &["entry", "9999", "--json"], &["keep", &scan, "x"]] {
        outputs.push(on(words));
    }
    outputs.push(rinzo(&folder).arg(name).output().unwrap());
    outputs.push(rinzo(&folder).args(["entry", "f.sdd"]).arg(name).output().unwrap());
    outputs.push(rinzo(&folder).args(["list"]).arg(name).arg(name).output().unwrap());
    outputs.push(rinzo(&folder).arg("read").arg(name).args(["1", "--out"]).arg(name).output().unwrap());
    for output in &outputs {
        assert!(is_harmless(&output.stdout) && is_harmless(&output.stderr), "{output:?}");
        assert!(!output.stdout.is_empty() || !output.stderr.is_empty());
    }
    assert!(
        said(&outputs[0]).contains("a\\u{1b}[2J\\u{9b}31m\\u{d}\\u{a}b\\xff.sdd is not there"),
        "{}",
        said(&outputs[0])
    );
    let json = String::from_utf8_lossy(&outputs[7].stdout).into_owned();
    assert!(json.contains("\"source\":\".[31m....\",\"source-bytes\":\"1b5b33316d9bc29b0720202020202020\""), "{json}");
}

#[test]
fn a_source_is_any_sixteen_bytes_or_says_why_not() {
    let folder = folder("source");
    paper_file(&folder);
    let scan = scan_file(&folder, 512, 1);
    let keep = |slot: &str, source: &[u8]| {
        rinzo(&folder).args(["save", "f.sdd", slot, &scan, "--source"]).arg(OsStr::from_bytes(source)).output().unwrap()
    };
    assert!(keep("1", &[0xff; 16]).status.success());
    assert!(keep("2", b"0x000102030405060708090a0b0c0d0e0f").status.success());
    let long = keep("3", b"seventeen letters");
    assert_eq!(long.status.code(), Some(64));
    assert!(said(&long).contains("a source name has at most 16 bytes, and this one has 17"), "{}", said(&long));
    let hex = |slot: &str| wrote(&folder, &["entry", "f.sdd", slot, "--json"]);
    assert!(hex("1").contains("\"source-bytes\":\"ffffffffffffffffffffffffffffffff\""));
    assert!(hex("2").contains("\"source-bytes\":\"000102030405060708090a0b0c0d0e0f\""));
    assert!(wrote(&folder, &["list", "f.sdd", "--long", "--json"]).contains("\"source-bytes\":\"ffff"));
}

#[test]
fn a_number_that_does_not_fit_is_refused() {
    let folder = folder("numbers");
    paper_file(&folder);
    let scan = scan_file(&folder, 512, 1);
    for (option, value) in [
        ("--lst", "1e40"),
        ("--lst", "1e-60"),
        ("--horizontal", "inf"),
        ("--scan-number", "0x1"),
        ("--scan-number", "0x7fc000010"),
        ("--rest", "1e400"),
        ("--rest", "0x7fc00001"),
    ] {
        let (status, said) = refused(&folder, &["keep", "f.sdd", &scan, option, value]);
        assert_eq!(status, 64, "{option} {value}");
        assert!(said.contains(&format!("and {value} is none")) && said.contains(option), "{said}");
    }
    assert!(run(&folder, &["keep", "f.sdd", &scan, "--rest", "1e40", "--lst", "0x00000001"]).status.success());
}
