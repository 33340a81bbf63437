//! True words: what `check` has looked at, what a refusal is about, several files, and small things on the command line.

mod common;

use common::{folder, held, paper_file, refused, rinzo, run, said, scan_file, wrote};
use std::fs;
use std::path::Path;
use std::process::Stdio;

#[test]
fn check_counts_records_and_says_what_it_has_looked_at() {
    let folder = folder("check");
    wrote(&folder, &["blank", "f.sdd", "--n", "3", "--l", "512", "--room", "20"]);
    for (slot, len) in [("1", 1_000), ("2", 512), ("3", 1_500)] {
        let name = scan_file(&folder, len, slot.as_bytes()[0]);
        wrote(&folder, &["save", "f.sdd", slot, &name]);
    }
    wrote(&folder, &["clear", "f.sdd", "2", "--yes"]);
    // 3 of the index, 2 and 3 of scans; record 6 is free between them, and 10 to 20 after them
    let checked = wrote(&folder, &["check", "f.sdd"]);
    assert!(
        checked.starts_with("the index is good: 2 scans in 16 slots; the scans were not read (--scans"),
        "{checked}"
    );
    assert!(checked.contains("8 of 20 records are in use, 12 are free, at most 11 in a row"), "{checked}");
    assert!(
        wrote(&folder, &["check", "f.sdd", "--scans"])
            .starts_with("good: 2 scans in 16 slots, and every scan was read\n")
    );
    let json = wrote(&folder, &["check", "f.sdd", "--json"]);
    assert!(
        json.contains("\"in-use\":8,\"free\":12,\"longest-free\":11,") && json.contains("\"broken\":null"),
        "{json}"
    );
    assert!(wrote(&folder, &["check", "f.sdd", "--scans", "--json"]).contains("\"broken\":[]"));
}

/// Sets U in record 1, as a cut may leave it.
fn put_used(folder: &Path, used: u8) {
    let mut bytes = fs::read(folder.join("f.sdd")).unwrap();
    bytes[19] = used;
    fs::write(folder.join("f.sdd"), bytes).unwrap();
}

#[test]
fn check_says_where_the_used_number_is_too_high() {
    let folder = folder("check_used");
    paper_file(&folder);
    let name = scan_file(&folder, 512, 1);
    let check = |wanted: &str, highest: u64| {
        let checked = wrote(&folder, &["check", "f.sdd"]);
        let told: Vec<&str> = checked.lines().filter(|line| line.starts_with("used ")).collect();
        assert_eq!(told.concat(), wanted, "{checked}");
        let json = wrote(&folder, &["check", "f.sdd", "--json"]);
        assert!(json.contains(&format!("\"highest\":{highest},")), "{json}");
    };
    check("", 0);
    // there is nothing to clear
    put_used(&folder, 9);
    check("used 9, no scan: the next save sets it right", 0);
    wrote(&folder, &["save", "f.sdd", "2", &name]);
    check("", 2);
    put_used(&folder, 16);
    check("used 16, highest scan in slot 2: the next save or clear sets it right", 2);
    assert!(wrote(&folder, &["check", "f.sdd", "--json"]).contains("\"u\":16,"));
    wrote(&folder, &["clear", "f.sdd", "2", "--yes"]);
    check("", 0);
    for (command, part) in
        [("check", "Then a line says so; it is no\ndamage"), ("clear", "did not say `cleared`: list")]
    {
        assert!(wrote(&folder, &[command, "--help"]).contains(part), "{command}");
    }
}

#[test]
fn check_lists_every_broken_scan() {
    let folder = folder("broken");
    paper_file(&folder);
    for slot in ["1", "2", "3"] {
        let name = scan_file(&folder, 512, slot.as_bytes()[0]);
        wrote(&folder, &["save", "f.sdd", slot, &name]);
    }
    // scans 1 and 3 lie in records 4 and 6: a count of classes, and a DATALEN
    let mut bytes = fs::read(folder.join("f.sdd")).unwrap();
    bytes[3 * 512 + 1] = 12;
    bytes[5 * 512 + 40] = 0xff;
    fs::write(folder.join("f.sdd"), bytes).unwrap();
    assert!(wrote(&folder, &["check", "f.sdd"]).starts_with("the index is good: "));
    let output = run(&folder, &["check", "f.sdd", "--scans"]);
    let out = String::from_utf8_lossy(&output.stdout).into_owned();
    assert_eq!(output.status.code(), Some(11));
    assert!(out.starts_with("the index is good: 3 scans in 16 slots, of which 2 cannot be read\n"), "{out}");
    assert!(
        out.contains("\nslot 1: the scan breaks rule 2, ") && out.contains("\nslot 3: the scan breaks rule 5, "),
        "{out}"
    );
    let output = run(&folder, &["check", "f.sdd", "--scans", "--json"]);
    let out = String::from_utf8_lossy(&output.stdout).into_owned();
    assert_eq!(output.status.code(), Some(11));
    assert!(out.contains("\"broken\":[{\"slot\":1,\"rule\":2},{\"slot\":3,\"rule\":5}]"), "{out}");
}

/// A file with a scan in slot 1 and no room for another of 3,000 bytes, two damaged ones, half a scan, and a whole one.
fn refusable(folder: &Path) -> String {
    paper_file(folder);
    let good = fs::read(folder.join("f.sdd")).unwrap();
    let mut bad = good.clone();
    bad[512 + 3] = 4;
    fs::write(folder.join("bad.sdd"), bad).unwrap();
    fs::write(folder.join("short.sdd"), &good[..100]).unwrap();
    fs::write(folder.join("half.scan"), &sample::scan(512, 1)[..500]).unwrap();
    wrote(folder, &["save", "f.sdd", "1", &scan_file(folder, 700, 2)]);
    scan_file(folder, 3_000, 1)
}

#[test]
fn every_refusal_names_its_file_and_only_its_own_slot() {
    let folder = folder("names");
    let name = refusable(&folder);
    let cases: [(&[&str], &str, &str); 8] = [
        (&["list", "short.sdd"], "refused 1: short.sdd: the file has fewer", "{\"refused\":1,\"file\":\"short.sdd\","),
        (&["list", "bad.sdd"], "refused 7 slot 1: bad.sdd: ", "{\"refused\":7,\"slot\":1,\"file\":\"bad.sdd\","),
        (
            &["entry", "f.sdd", "17"],
            "refused 9: f.sdd has slots 1 to 16, and 17 is none",
            "{\"refused\":9,\"slot\":17,",
        ),
        (
            &["save", "f.sdd", "0", &name],
            "refused 9: f.sdd has slots 1 to 16, and 0 is none",
            "{\"refused\":9,\"slot\":0,",
        ),
        (
            &["read", "f.sdd", "2", "--out", "x"],
            "refused 10: f.sdd: slot 2: the slot is empty",
            "{\"refused\":10,\"slot\":2,",
        ),
        (
            &["keep", "f.sdd", "half.scan"],
            "refused 11: half.scan: the scan breaks rule 5",
            "{\"refused\":11,\"rule\":5,\"file\":\"half.scan\",",
        ),
        (&["keep", "f.sdd", &name], "refused 13: f.sdd: there are not enough", "{\"refused\":13,\"file\":\"f.sdd\","),
        (&["blank", "g.sdd", "--n", "1"], "refused 16: g.sdd: these sizes", "{\"refused\":16,\"file\":\"g.sdd\","),
    ];
    for (words, sentence, json) in cases {
        let (_, said) = refused(&folder, words);
        assert!(said.starts_with(&format!("rinzo: {sentence}")), "{words:?}: {said}");
        let output = run(&folder, &[words, &["--json"]].concat());
        assert!(String::from_utf8_lossy(&output.stdout).starts_with(json), "{words:?}: {output:?}");
    }
    assert!(refused(&folder, &["keep", "f.sdd", "half.scan"]).1.contains(": take the scan again"));
}

#[test]
fn list_and_check_take_several_files() {
    let folder = folder("several");
    for name in ["a.sdd", "b.sdd"] {
        wrote(&folder, &["blank", name, "--n", "3", "--l", "512", "--room", "8"]);
    }
    wrote(&folder, &["keep", "b.sdd", &scan_file(&folder, 512, 1)]);
    let listed = wrote(&folder, &["list", "a.sdd", "b.sdd"]);
    assert_eq!(listed, "a.sdd:\nslots 16 used 0 scans 0\nb.sdd:\nslots 16 used 1 scans 1\n1 4 4\n");
    let json = wrote(&folder, &["list", "a.sdd", "b.sdd", "--json"]);
    let files: Vec<&str> = json.lines().map(|line| &line[..16]).collect();
    assert_eq!(files, ["{\"file\":\"a.sdd\",", "{\"file\":\"b.sdd\","]);
    // one that fails keeps no other back, and the status is that of the first
    let output = run(&folder, &["check", "nothing", "a.sdd", "f.sdd", "b.sdd"]);
    assert_eq!(output.status.code(), Some(66));
    assert_eq!(String::from_utf8_lossy(&output.stdout).matches("the index is good").count(), 2);
    assert!(said(&output).contains("nothing is not there") && said(&output).contains("f.sdd is not there"));
}

#[test]
fn json_may_stand_before_the_command() {
    let folder = folder("json_before");
    paper_file(&folder);
    assert_eq!(wrote(&folder, &["--json", "list", "f.sdd"]), wrote(&folder, &["list", "f.sdd", "--json"]));
    let output = run(&folder, &["--json", "list", "nothing"]);
    assert_eq!(output.status.code(), Some(66));
    assert!(output.stdout.starts_with(b"{\"failed\":66,"));
}

#[test]
fn numbers_that_are_none_get_a_true_sentence() {
    let folder = folder("true_numbers");
    paper_file(&folder);
    let cases: [(&[&str], &str); 6] = [
        (&["entry", "f.sdd", "-1"], "SLOT is a whole number from 1 on, and -1 is below zero"),
        (&["entry", "f.sdd", "18446744073709551616"], "18446744073709551616 is larger than any number"),
        (&["entry", "f.sdd", "1.5"], "SLOT is a whole number from 1 on, and 1.5 is none"),
        (&["entry", "f.sdd", "+1"], "and +1 is none"),
        (&["blank", "g.sdd", "--n", "-1"], "--n wants a whole number, and -1 is below zero"),
        (&["blank", "g.sdd", "--l", "99999999999999999999"], "99999999999999999999 is larger than any number"),
    ];
    for (words, part) in cases {
        let (status, said) = refused(&folder, words);
        assert!(status == 64 && said.contains(part), "{words:?}: {said}");
    }
    assert_eq!(refused(&folder, &["entry", "f.sdd", "18446744073709551615"]).0, 9);
}

#[test]
fn a_reader_that_waits_says_so() {
    let folder = folder("waits");
    paper_file(&folder);
    let name = scan_file(&folder, 512, 1);
    let job = held(&folder, &["keep", "f.sdd", &name], 1);
    let mut reader = rinzo(&folder);
    let reader = reader.args(["list", "f.sdd"]).stdout(Stdio::piped()).stderr(Stdio::piped()).spawn().unwrap();
    std::thread::sleep(std::time::Duration::from_millis(900));
    job.cut();
    let output = reader.wait_with_output().unwrap();
    assert!(output.status.success());
    assert_eq!(said(&output), "rinzo: another program works on f.sdd: waiting up to 10 seconds for its end\n");
    // one that need not wait says nothing
    assert!(run(&folder, &["list", "f.sdd"]).stderr.is_empty());
}
