//! What a hand may do by mistake: a scan kept twice, a scan saved over another, a slot cleared that was not meant.

mod common;

use common::{folder, paper_file, refused, rinzo, run, scan_file, wrote};
use sample::scan;
use std::fs;
use std::io::{Read, Write};
use std::path::Path;
use std::process::{Output, Stdio};

#[test]
fn a_keep_done_again_does_not_put_the_scan_into_two_slots() {
    let folder = folder("again");
    paper_file(&folder);
    let name = scan_file(&folder, 1_000, 1);
    // the index record is written, and the power goes before `saved`
    let words = ["keep", "f.sdd", &name, "--source", "ORION A"];
    rinzo(&folder).args(words).env("RINZO_DRILL", "stop:4").output().unwrap();
    assert_eq!(wrote(&folder, &["list", "f.sdd"]), "slots 16 used 1 scans 1\n1 4 5\n");

    let (status, said) = refused(&folder, &words);
    assert_eq!(status, 73);
    assert!(said.contains("f.sdd: slot 1 has this very scan already: give --again"), "{said}");
    assert_eq!(wrote(&folder, &["list", "f.sdd"]), "slots 16 used 1 scans 1\n1 4 5\n");
    // what the message after a dropped keep says: save it to the slot named, which needs no more words
    wrote(&folder, &["save", "f.sdd", "1", &name, "--source", "ORION A"]);
    assert!(wrote(&folder, &["list", "f.sdd"]).contains("scans 1"));

    wrote(&folder, &[&words[..], &["--again"]].concat());
    assert!(wrote(&folder, &["list", "f.sdd"]).contains("scans 2"));
}

#[test]
fn another_entry_or_another_scan_is_not_the_same() {
    let folder = folder("not_the_same");
    wrote(&folder, &["blank", "f.sdd", "--l", "512", "--room", "200"]);
    let (one, two) = (scan_file(&folder, 1_000, 1), scan_file(&folder, 1_000, 2));
    let longer = scan_file(&folder, 1_004, 1);
    for words in [&[&one, "--lst", "1"][..], &[&one, "--lst", "2"], &[&two, "--lst", "1"], &[&longer, "--lst", "1"]] {
        wrote(&folder, &[&["keep", "f.sdd"], words].concat());
    }
    assert!(wrote(&folder, &["list", "f.sdd"]).contains("scans 4"));
    assert_eq!(refused(&folder, &["keep", "f.sdd", &longer, "--lst", "1"]).0, 73);
}

#[test]
fn a_dropped_keep_says_what_to_do() {
    let folder = folder("dropped_keep");
    paper_file(&folder);
    let name = scan_file(&folder, 1_000, 1);
    // the device fails at the third flush, and at the fourth, which is the index record's
    for (flush, part) in [(3, "slot 1 is empty as before: do it again"), (4, "save the scan to slot 1 once more")] {
        let shim = common::shim(&folder, &common::failing("fdatasync", flush));
        let ended = rinzo(&folder).args(["keep", "f.sdd", &name]).env("LD_PRELOAD", shim).output().unwrap();
        assert_eq!(ended.status.code(), Some(74));
        let said = common::said(&ended);
        assert!(said.contains("The job is dropped; ") && said.contains(part), "{said}");
    }
    let help = wrote(&folder, &["keep", "--help"]);
    assert!(help.contains("list the file first") && help.contains("--again"), "{help}");
}

#[test]
fn a_scan_is_replaced_only_where_that_is_asked_for() {
    let folder = folder("replaced");
    paper_file(&folder);
    let (one, two) = (scan_file(&folder, 1_000, 1), scan_file(&folder, 512, 2));
    wrote(&folder, &["save", "f.sdd", "1", &one, "--source", "ORION A"]);
    let before = fs::read(folder.join("f.sdd")).unwrap();

    let (status, said) = refused(&folder, &["save", "f.sdd", "1", &two]);
    assert_eq!(status, 73);
    assert!(said.contains("f.sdd: slot 1 has the scan of ORION A in records 4 to 5: give --replace"), "{said}");
    assert!(fs::read(folder.join("f.sdd")).unwrap() == before);

    let saved = wrote(&folder, &["save", "f.sdd", "1", &two, "--replace"]);
    assert!(
        saved.ends_with("saved: slot 1 first 6 last 6, replaced the scan of ORION A in records 4 to 5\n"),
        "{saved}"
    );
    let saved = wrote(&folder, &["save", "f.sdd", "1", &one, "--replace", "--json"]);
    let replaced = "\"replaced\":{\"source\":\"\",\"source-bytes\":\"00000000000000000000000000000000\",\"first\":6,\"last\":6}}\n";
    assert!(saved.ends_with(replaced), "{saved}");
    // an empty slot needs no such word, and the library's refusals come first
    assert!(wrote(&folder, &["save", "f.sdd", "2", &two]).ends_with("saved: slot 2 first 6 last 6\n"));
    assert_eq!(refused(&folder, &["save", "f.sdd", "17", &two]).0, 9);
}

/// Runs the program with a terminal as its standard input, on which a person answers.
fn answered(folder: &Path, words: &[&str], answer: &str) -> Output {
    let (mut ours, theirs) = common::terminal();
    let mut command = rinzo(folder);
    let child = command.args(words).stdin(theirs).stdout(Stdio::piped()).stderr(Stdio::piped()).spawn().unwrap();
    drop(command);
    ours.write_all(answer.as_bytes()).unwrap();
    let output = child.wait_with_output().unwrap();
    let _ = ours.read(&mut [0; 64]);
    output
}

#[test]
fn a_slot_is_cleared_only_after_a_yes() {
    let folder = folder("cleared");
    paper_file(&folder);
    let name = scan_file(&folder, 700, 1);
    wrote(&folder, &["keep", "f.sdd", &name, "--source", "BOOM 7"]);

    let (status, said) = refused(&folder, &["clear", "f.sdd", "1"]);
    assert_eq!(status, 73);
    assert!(said.contains("f.sdd: slot 1 has the scan of BOOM 7 in records 4 to 5: give --yes to clear it"), "{said}");

    for answer in ["no\n", "\n", "x\n"] {
        let output = answered(&folder, &["clear", "f.sdd", "1"], answer);
        assert_eq!(output.status.code(), Some(73));
        let said = common::said(&output);
        assert!(
            said.starts_with("f.sdd: slot 1 has the scan of BOOM 7 in records 4 to 5. Clear it? (yes/no) "),
            "{said}"
        );
        assert_eq!(run(&folder, &["read", "f.sdd", "1"]).stdout, scan(700, 1));
    }
    let output = answered(&folder, &["clear", "f.sdd", "1"], "yes\n");
    let out = String::from_utf8_lossy(&output.stdout);
    assert!(out.ends_with("cleared: slot 1, held the scan of BOOM 7 in records 4 to 5\n"), "{out}");

    wrote(&folder, &["keep", "f.sdd", &name]);
    wrote(&folder, &["clear", "f.sdd", "1", "--yes"]);
    assert_eq!(refused(&folder, &["clear", "f.sdd", "1"]).0, 10);
}
