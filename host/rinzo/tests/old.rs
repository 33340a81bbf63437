//! Files of the old form on the command line: what looks at them takes them and says so, what changes a file refuses them.

mod common;

use common::{folder, paper_file, refused, run, said, scan_file, wrote};
use sample::{OldScan, old_file, scan};
use std::fs;
use std::path::Path;

/// The entry of each scan, as the current form has bytes 8 to 61: a spectral line of ORION A, position code 13.
fn about() -> [u8; 54] {
    let mut about = [0; 54];
    about[8..24].copy_from_slice(b"ORION A         ");
    about[32..40].copy_from_slice(&1420.4f64.to_be_bytes());
    about[48..50].copy_from_slice(&513i16.to_be_bytes());
    about[52..54].copy_from_slice(&13i16.to_be_bytes());
    about
}

/// An old file with N 3 and scans in slots 1 (SDD version 1), 2 (IEEE KEEP) and 9 (no known magic number), and a scan
/// file whose name is answered. Slot 2 has bytes that obey the rules, slot 9 some that do not.
fn old(folder: &Path) -> String {
    let one = scan(1_000, 1);
    let scans = [(1, 2, &one[..]), (2, 1, &one), (9, 3, &[7; 300])];
    let scans = scans.map(|(slot, magic, bytes)| OldScan { slot, magic, about: about(), bytes });
    fs::write(folder.join("old.sdd"), old_file(3, 10, &scans)).unwrap();
    scan_file(folder, 512, 5)
}

#[test]
fn check_says_which_form() {
    let folder = folder("old_check");
    old(&folder);
    let checked = wrote(&folder, &["check", "old.sdd"]);
    let wanted = "the index is good: 3 scans in 16 slots; the scans were not read (--scans reads them)
N 3 D 5 L 512 M 64 U 9 counter 65534 type 0 (data), old form
8 of 10 records are in use, 2 are free, at most 2 in a row; 5120 bytes in all
every data record that belongs to no scan is zeros
";
    assert_eq!(checked, wanted);
    let json = wrote(&folder, &["check", "old.sdd", "--json"]);
    assert!(json.starts_with("{\"file\":\"old.sdd\",\"form\":\"old\",\"n\":3,\"d\":5,\"l\":512,"), "{json}");
    assert!(json.ends_with("\"broken\":null,\"not-version-one\":null}\n"), "{json}");
    assert!(json.contains("\"u\":9,") && json.contains("\"highest\":9,"), "{json}");
    paper_file(&folder);
    assert!(wrote(&folder, &["check", "f.sdd"]).contains(" type 0 (data), current form\n"));

    // U above the highest scan is said of an old file too, and nothing sets it right
    let mut bytes = fs::read(folder.join("old.sdd")).unwrap();
    bytes[9] = 12;
    fs::write(folder.join("old.sdd"), bytes).unwrap();
    let checked = wrote(&folder, &["check", "old.sdd"]);
    let told =
        " U 12 counter 65534 type 0 (data), old form\nused 12, highest scan in slot 9: an old file is not changed\n";
    assert!(checked.contains(told), "{checked}");
}

#[test]
fn scans_of_another_version_are_listed_and_are_no_damage() {
    let folder = folder("old_scans");
    old(&folder);
    let checked = wrote(&folder, &["check", "old.sdd", "--scans"]);
    let verdict = "good: 3 scans in 16 slots, 2 not of SDD version 1 and so not judged, and every other scan was read
slot 2: magic 1 (IEEE KEEP, which is shown and not read)
slot 9: magic 3 (of no known meaning, so the scan is shown and not read)
N 3 D 5 ";
    assert!(checked.starts_with(verdict), "{checked}");
    let json = wrote(&folder, &["check", "old.sdd", "--scans", "--json"]);
    let lists = "\"broken\":[],\"not-version-one\":[{\"slot\":2,\"magic\":1},{\"slot\":9,\"magic\":3}]}\n";
    assert!(json.ends_with(lists), "{json}");

    // one of version 1 that breaks a rule is damage, beside them
    let mut bytes = fs::read(folder.join("old.sdd")).unwrap();
    bytes[3 * 512 + 1] = 12;
    fs::write(folder.join("old.sdd"), bytes).unwrap();
    let output = run(&folder, &["check", "old.sdd", "--scans"]);
    let out = String::from_utf8_lossy(&output.stdout);
    assert_eq!(output.status.code(), Some(11));
    let verdict =
        "the index is good: 3 scans in 16 slots, of which 1 cannot be read, 2 not of SDD version 1 and so not judged
slot 1: the scan breaks rule 2, ";
    assert!(out.starts_with(verdict), "{out}");
    assert!(out.contains("\nslot 2: magic 1 ("), "{out}");
}

#[test]
fn its_scans_are_listed() {
    let folder = folder("old_list");
    old(&folder);
    assert_eq!(wrote(&folder, &["list", "old.sdd"]), "slots 16 used 9 scans 3, old form\n1 4 5\n2 6 7\n9 8 8\n");
    assert_eq!(
        wrote(&folder, &["list", "old.sdd", "--long"]),
        "slots 16 used 9 scans 3, old form
1 4 5  1000 bytes  spectral-line  ORION A
2 6 7  magic 1, not read  spectral-line  ORION A
9 8 8  magic 3, not read  spectral-line  ORION A
"
    );
    let json = wrote(&folder, &["list", "old.sdd", "--long", "--json"]);
    assert!(json.starts_with("{\"file\":\"old.sdd\",\"form\":\"old\",\"slots\":16,\"used\":9,\"scans\":["), "{json}");
    assert!(json.contains("{\"slot\":1,\"first\":4,\"last\":5,\"bytes\":1000,\"magic\":2,\"kind\":"), "{json}");
    assert!(json.contains("{\"slot\":9,\"first\":8,\"last\":8,\"bytes\":null,\"magic\":3,\"kind\":"), "{json}");
    // several files, of both forms
    paper_file(&folder);
    let both = wrote(&folder, &["list", "old.sdd", "f.sdd"]);
    assert!(both.starts_with("old.sdd:\nslots 16 used 9 scans 3, old form\n"), "{both}");
    assert!(both.ends_with("f.sdd:\nslots 16 used 0 scans 0\n"), "{both}");
}

#[test]
fn an_entry_has_its_magic_number() {
    let folder = folder("old_entry");
    let name = old(&folder);
    for (slot, magic) in [
        ("1", "2 (SDD version 1)"),
        ("2", "1 (IEEE KEEP, which is shown and not read)"),
        ("9", "3 (of no known meaning, so the scan is shown and not read)"),
    ] {
        let entry = wrote(&folder, &["entry", "old.sdd", slot]);
        let lines: Vec<&str> = entry.lines().collect();
        assert_eq!(lines[1], "form             old");
        assert_eq!(lines[lines.len() - 2..], ["position         13", &format!("magic            {magic}")]);
        assert!(
            entry.contains("\nsource           ORION A\n") && entry.contains("\nrest-frequency   1420.4\n"),
            "{entry}"
        );
    }
    let json = wrote(&folder, &["entry", "old.sdd", "2", "--json"]);
    assert!(json.starts_with("{\"slot\":2,\"form\":\"old\",\"first\":6,\"last\":7,"), "{json}");
    assert!(json.ends_with("\"position\":13,\"magic\":1}\n"), "{json}");
    // the current form says so too, and has no such number
    paper_file(&folder);
    wrote(&folder, &["keep", "f.sdd", &name, "--position", "13"]);
    let entry = wrote(&folder, &["entry", "f.sdd", "1"]);
    assert!(entry.contains("\nform             current\n") && entry.ends_with("\nposition         13\n"), "{entry}");
    let json = wrote(&folder, &["entry", "f.sdd", "1", "--json"]);
    assert!(json.contains("\"form\":\"current\"") && json.ends_with("\"position\":13,\"magic\":null}\n"), "{json}");
}

#[test]
fn version_one_is_read_and_every_scan_is_shown() {
    let folder = folder("old_read");
    old(&folder);
    assert_eq!(run(&folder, &["read", "old.sdd", "1"]).stdout, scan(1_000, 1));
    let shown = run(&folder, &["show", "old.sdd", "9"]).stdout;
    assert!(shown.len() == 512 && shown[..300].iter().all(|byte| *byte == 7));
    assert_eq!(wrote(&folder, &["show", "old.sdd", "2", "--out", "two"]), "1024 bytes written to two, old form\n");
    assert_eq!(fs::read(folder.join("two")).unwrap()[..1_000], scan(1_000, 1));
    let json = wrote(&folder, &["read", "old.sdd", "1", "--out", "one", "--json"]);
    assert_eq!(json, "{\"written\":\"one\",\"form\":\"old\",\"from\":1536,\"to\":2536}\n");
    let classes = wrote(&folder, &["classes", "old.sdd", "1"]);
    assert!(classes.starts_with("old form    from     to  bytes\nclass 1       32    160    128\n"), "{classes}");
    assert!(wrote(&folder, &["classes", "old.sdd", "1", "--json"]).starts_with("{\"form\":\"old\",\"classes\":["));
}

#[test]
fn another_version_is_refused_with_18() {
    let folder = folder("old_refused");
    old(&folder);
    for slot in ["2", "9"] {
        for words in [&["read", "old.sdd", slot, "--out", "out"][..], &["classes", "old.sdd", slot]] {
            let (status, said) = refused(&folder, words);
            assert_eq!(status, 18);
            let sentence =
                format!("rinzo: refused 18: old.sdd: slot {slot}: the old file says that this scan is not of");
            assert!(said.starts_with(&sentence) && said.contains(": show its records as they stand"), "{said}");
            let output = run(&folder, &[words, &["--json"]].concat());
            let json = format!("{{\"refused\":18,\"slot\":{slot},\"file\":\"old.sdd\",\"sentence\":");
            assert!(String::from_utf8_lossy(&output.stdout).starts_with(&json), "{output:?}");
        }
    }
    assert!(!folder.join("out").exists());
    assert_eq!(refused(&folder, &["read", "old.sdd", "3", "--out", "out"]).0, 10);
    assert_eq!(refused(&folder, &["read", "old.sdd", "17", "--out", "out"]).0, 9);
}

#[test]
fn save_keep_and_clear_leave_it_as_it_is() {
    let folder = folder("old_unchanged");
    let name = old(&folder);
    let good = fs::read(folder.join("old.sdd")).unwrap();
    // the file as it is, one with D of FFFF, one whose first entry is damaged
    for at in [None, Some(2), Some(512)] {
        let mut bytes = good.clone();
        at.into_iter().for_each(|at| bytes[at..at + 2].fill(0xff));
        fs::write(folder.join("old.sdd"), &bytes).unwrap();
        for words in [
            &["save", "old.sdd", "1", &name, "--replace"][..],
            &["save", "old.sdd", "3", &name],
            &["save", "old.sdd", "99", &name],
            &["keep", "old.sdd", &name],
            &["keep", "old.sdd", &name, "--again"],
            &["clear", "old.sdd", "1"],
            &["clear", "old.sdd", "1", "--yes"],
        ] {
            let output = run(&folder, words);
            assert_eq!(output.status.code(), Some(2), "{words:?}: {}", said(&output));
            let sentence = "rinzo: refused 2: old.sdd: the file has the old form from before 1993, ";
            let said = said(&output);
            assert!(
                said.starts_with(sentence) && said.contains(": convert it into a second file, of the current form"),
                "{said}"
            );
            assert!(fs::read(folder.join("old.sdd")).unwrap() == bytes, "{words:?}");
        }
    }
    let output = run(&folder, &["keep", "old.sdd", &name, "--json"]);
    assert!(output.stdout.starts_with(b"{\"refused\":2,\"file\":\"old.sdd\","), "{output:?}");
}

#[test]
fn a_scan_goes_from_an_old_file_into_a_current_one() {
    let folder = folder("old_to_current");
    old(&folder);
    paper_file(&folder);
    wrote(&folder, &["read", "old.sdd", "1", "--out", "one"]);
    fs::write(folder.join("about"), about()).unwrap();
    wrote(&folder, &["save", "f.sdd", "1", "one", "--about", "about"]);
    assert_eq!(run(&folder, &["read", "f.sdd", "1"]).stdout, scan(1_000, 1));
    let fields = |file: &str| {
        let entry = wrote(&folder, &["entry", file, "1"]);
        let lines = entry.lines().filter(|line| !line.starts_with("form") && !line.starts_with("magic"));
        lines.map(str::to_string).collect::<Vec<_>>()
    };
    assert_eq!(fields("old.sdd"), fields("f.sdd"));
}

#[test]
fn damage_in_it_has_the_current_forms_numbers() {
    let folder = folder("old_damage");
    old(&folder);
    let good = fs::read(folder.join("old.sdd")).unwrap();
    for (at, word, part) in [
        (2, [0xff, 0xff], "refused 4: bad.sdd: "),
        (2, [0, 9], "refused 5: bad.sdd: "),
        (512, [0x80, 0], "refused 6 slot 1: bad.sdd: "),
        (512 + 9 * 64, [0x80, 0], "refused 7 slot 10: bad.sdd: "),
        (512 + 64, [0, 5], "refused 8 slot 2: bad.sdd: "),
        (30, [0, 2], "refused 3: bad.sdd: "),
    ] {
        let mut bytes = good.clone();
        bytes[at..at + 2].copy_from_slice(&word);
        fs::write(folder.join("bad.sdd"), bytes).unwrap();
        for words in [&["list", "bad.sdd"][..], &["check", "bad.sdd"], &["show", "bad.sdd", "1", "--out", "x"]] {
            let (status, said) = refused(&folder, words);
            assert!(said.starts_with(&format!("rinzo: {part}")), "{words:?}: {said}");
            assert_eq!(said[15..].split([':', ' ']).next(), Some(status.to_string().as_str()), "{said}");
        }
    }
}

#[test]
fn blank_makes_the_current_form_of_it() {
    let folder = folder("old_blanked");
    old(&folder);
    assert_eq!(refused(&folder, &["blank", "old.sdd"]).0, 73);
    wrote(&folder, &["blank", "old.sdd", "--n", "3", "--l", "512", "--room", "10", "--force"]);
    assert!(wrote(&folder, &["check", "old.sdd"]).contains("0 scans in 16 slots"));
    assert!(wrote(&folder, &["check", "old.sdd"]).contains(", current form\n"));
}

#[test]
fn help_and_the_man_page_tell_of_it() {
    let folder = folder("old_help");
    let sentence = "Files of the old form, from before 1993, are looked at like any other, and not changed.";
    assert!(wrote(&folder, &["--help"]).contains(sentence));
    assert!(wrote(&folder, &["manual"]).contains(sentence));
    assert!(wrote(&folder, &["--help"]).contains("1 to 20 refused with this number"));
    for command in ["save", "keep", "clear"] {
        assert!(wrote(&folder, &[command, "--help"]).contains("is not changed: it is refused with 2."), "{command}");
    }
    for command in ["read", "classes"] {
        assert!(wrote(&folder, &[command, "--help"]).contains("is refused with 18; `rinzo show` writes"), "{command}");
    }
}
