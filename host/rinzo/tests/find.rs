//! `rinzo find`: scans by their own bytes, where the index is lost; and how they get into a file again.

mod common;

use common::{failing, folder, paper_file, refused, rinzo, run, said, scan_file, shim, wrote};
use sample::{OldScan, old_file, scan};
use std::fs;
use std::os::unix::fs::{FileExt, symlink};
use std::os::unix::process::ExitStatusExt;
use std::path::Path;

/// A scan with a number.
fn numbered(len: usize, number: f64) -> Vec<u8> {
    let mut scan = scan(len, 0xa5);
    scan[48..56].copy_from_slice(&number.to_be_bytes());
    scan
}

/// Keeps three scans in a file of 20 records: 4 to 5, 6, and 7 to 9. Answers them.
fn three_scans(folder: &Path) -> [Vec<u8>; 3] {
    wrote(folder, &["blank", "f.sdd", "--n", "3", "--l", "512", "--room", "20"]);
    let scans = [numbered(1_000, 1234.01), numbered(512, 77.0), numbered(1_028, -2.5)];
    for (scan, slot) in scans.iter().zip(["5", "1", "9"]) {
        fs::write(folder.join("scan"), scan).unwrap();
        wrote(folder, &["save", "f.sdd", slot, "scan", "--source", "ORION A"]);
    }
    scans
}

const LINES: &str = "4 5  2 records  1000 bytes  scan 1234.01\n6 6  1 record  512 bytes  scan 77\n7 9  3 records  1028 bytes  scan -2.5\n";
const WRITES: &str =
    "`rinzo find f.sdd --out DIR` writes each to a file, which `rinzo keep NEW SCAN` puts into another SDD file\n";

/// What is found of three scans, in words.
fn three_found() -> String {
    format!("{LINES}3 scans found in records 4 to 9; {WRITES}")
}

/// Puts bytes into a file.
fn put(folder: &Path, at: usize, bytes: &[u8]) {
    let file = fs::OpenOptions::new().write(true).open(folder.join("f.sdd")).unwrap();
    file.write_all_at(bytes, at as u64).unwrap();
}

/// First and last of every scan that a file lists, in record order.
fn listed(folder: &Path) -> Vec<String> {
    let list = wrote(folder, &["list", "f.sdd"]);
    let mut runs: Vec<String> = list.lines().skip(1).map(|line| line.split_once(' ').unwrap().1.to_string()).collect();
    runs.sort();
    runs
}

#[test]
fn what_was_listed_is_found_when_the_index_is_junk() {
    let folder = folder("find_junk");
    three_scans(&folder);
    let listed = listed(&folder);
    let found = wrote(&folder, &["find", "f.sdd"]);
    assert_eq!(found, three_found());
    let runs: Vec<&str> = found.lines().take(3).map(|line| line.split_once("  ").unwrap().0).collect();
    assert_eq!(runs, listed);
    let text = b"rinzomekuto ".repeat(90);
    for junk in [&[0; 1024][..], &[0xa5; 1024], &[0xff; 1024], &[0, 0, 0, 6].repeat(256), &text[..1024]] {
        put(&folder, 512, junk);
        let before = fs::read(folder.join("f.sdd")).unwrap();
        assert_eq!(run(&folder, &["list", "f.sdd"]).status.success(), junk[3] == 0, "zeros are an empty index");
        assert_eq!(wrote(&folder, &["find", "f.sdd"]), three_found());
        assert!(fs::read(folder.join("f.sdd")).unwrap() == before, "the file stays");
    }
    let json = wrote(&folder, &["find", "f.sdd", "--json"]);
    let find = |first, last, bytes, bits, value| {
        let number = format!("\"scan-number\":{{\"bits\":\"{bits}\",\"value\":{value}}}");
        let records = last - first + 1;
        format!("{{\"first\":{first},\"last\":{last},\"records\":{records},\"bytes\":{bytes},{number}}}")
    };
    let finds = [
        find(4, 5, 1_000, "4093480a3d70a3d7", "1234.01"),
        find(6, 6, 512, "4053400000000000", "77.0"),
        find(7, 9, 1_028, "c004000000000000", "-2.5"),
    ];
    let fields = "\"file\":\"f.sdd\",\"form\":\"current\",\"from\":4,\"to\":9,\"found\":3";
    assert_eq!(json, format!("{{{fields},\"finds\":[{}]}}\n", finds.join(",")));
}

#[test]
fn an_index_that_is_refused_names_the_search() {
    let folder = folder("find_named");
    three_scans(&folder);
    let good = fs::read(folder.join("f.sdd")).unwrap();
    let hint = "; without one, `rinzo find f.sdd` looks for the scans without the index\n";
    // slot 1 out of range; U below slot 9; slot 5 has slot 1's record
    for (at, words, status) in [(512, [1, 6], 6), (16, [8, 0], 7), (512 + 4 * 64, [6, 6], 8)] {
        fs::write(folder.join("f.sdd"), &good).unwrap();
        put(&folder, at, &words.map(u32::to_be_bytes).concat()[..if at == 16 { 4 } else { 8 }]);
        for command in ["list", "check"] {
            let (number, said) = refused(&folder, &[command, "f.sdd"]);
            assert!(number == status && said.ends_with(hint), "{command}: {said}");
            assert!(said.contains(": the index is damaged, take the file from a backup; "), "{said}");
        }
        let said = run(&folder, &["list", "f.sdd", "--json"]);
        assert!(String::from_utf8_lossy(&said.stdout).contains("`rinzo find f.sdd`"), "{said:?}");
        assert_eq!(wrote(&folder, &["find", "f.sdd"]), three_found());
    }
}

#[test]
fn what_is_left_in_gaps_is_found_too_and_the_help_says_so() {
    let folder = folder("find_gaps");
    paper_file(&folder);
    fs::write(folder.join("old"), numbered(1_000, 1.0)).unwrap();
    wrote(&folder, &["save", "f.sdd", "1", "old"]);
    fs::write(folder.join("new"), numbered(700, 1.0)).unwrap();
    // records 6, 7, 1 and 2 are written, and no zeros over the old scan in 4 and 5
    let mut command = rinzo(&folder);
    let cut = command.args(["save", "f.sdd", "1", "new", "--replace"]).env("RINZO_DRILL", "stop:4").output().unwrap();
    assert_eq!(cut.status.signal(), Some(libc::SIGKILL));
    assert_eq!(wrote(&folder, &["list", "f.sdd"]), "slots 16 used 1 scans 1\n1 6 7\n");
    let (old, new) = ("4 5  2 records  1000 bytes  scan 1\n", "6 7  2 records  700 bytes  scan 1\n");
    let found = wrote(&folder, &["find", "f.sdd"]);
    assert_eq!(found, format!("{old}{new}2 scans found in records 4 to 7; {WRITES}"));
    // a scan that somebody left in a gap, and one of which the first record is gone
    put(&folder, 4 * 512, &numbered(300, 3.0));
    put(&folder, 3 * 512, &[0; 512]);
    let found = wrote(&folder, &["find", "f.sdd"]);
    assert!(found.starts_with(&format!("5 5  1 record  300 bytes  scan 3\n{new}")), "{found}");
    // a sweep takes away what is in no slot
    wrote(&folder, &["sweep", "f.sdd", "g.sdd"]);
    assert!(wrote(&folder, &["find", "g.sdd"]).starts_with(&format!("{new}1 scan found in records 4 to 7; ")));
    let help = wrote(&folder, &["find", "--help"]);
    for part in [
        "More may be found than the list showed: a scan that was replaced, cleared or cut off",
        "Two with one number may be an old and a new one",
        "it needs a good record 1, and reads no index",
        "`rinzo keep NEW DIR/FIRST.scan`",
    ] {
        assert!(help.replace('\n', " ").contains(part), "{part}: {help}");
    }
}

#[test]
fn scans_that_are_found_are_written_out_and_kept_in_another_file() {
    let folder = folder("find_out");
    let scans = three_scans(&folder);
    put(&folder, 512, &[0xa5; 1024]);
    let told = wrote(&folder, &["find", "f.sdd", "--out", "found"]);
    let lines: String =
        LINES.lines().zip(["4", "6", "7"]).map(|(line, first)| format!("{line}  found/{first}.scan\n")).collect();
    let rest = "`rinzo blank NEW` makes an SDD file, and `rinzo keep NEW found/4.scan` puts the first into it\n";
    assert_eq!(told, format!("{lines}3 scans found in records 4 to 9; {rest}"));
    wrote(&folder, &["blank", "new.sdd", "--n", "3", "--l", "512", "--room", "20"]);
    for (slot, (first, scan)) in (1..).zip([4, 6, 7].iter().zip(&scans)) {
        let name = format!("found/{first}.scan");
        assert!(fs::read(folder.join(&name)).unwrap() == *scan, "{name}");
        wrote(&folder, &["keep", "new.sdd", &name]);
        assert!(run(&folder, &["read", "new.sdd", &slot.to_string()]).stdout == *scan);
    }
    assert!(wrote(&folder, &["check", "new.sdd", "--scans"]).starts_with("good: 3 scans in 16 slots, "));
    let json = wrote(&folder, &["find", "f.sdd", "--out", "again", "--json"]);
    assert!(json.contains("},\"written\":\"again/4.scan\"},{\"first\":6,"), "{json}");
}

#[test]
fn nothing_that_is_there_is_overwritten() {
    let folder = folder("find_there");
    three_scans(&folder);
    let names = |name: &str| {
        let mut names: Vec<_> = fs::read_dir(folder.join(name)).unwrap().map(|it| it.unwrap().file_name()).collect();
        names.sort();
        names
    };
    // a folder that has something else in it is taken, and what is in it stays
    fs::create_dir(folder.join("mine")).unwrap();
    fs::write(folder.join("mine/5.scan"), "mine").unwrap();
    wrote(&folder, &["find", "f.sdd", "--out", "mine"]);
    assert_eq!(names("mine"), ["4.scan", "5.scan", "6.scan", "7.scan"]);
    assert_eq!(fs::read(folder.join("mine/5.scan")).unwrap(), b"mine");
    // a file of that name, or a link to nowhere: then no scan is written at all
    for (at, place) in ["one", "two"].into_iter().enumerate() {
        fs::create_dir(folder.join(place)).unwrap();
        let there = folder.join(place).join("7.scan");
        if at == 0 {
            fs::write(&there, "mine").unwrap()
        } else {
            symlink("nowhere", &there).unwrap()
        }
        let (status, said) = refused(&folder, &["find", "f.sdd", "--out", place]);
        assert!(status == 73 && said.contains("7.scan is there already: give another folder"), "{said}");
        assert_eq!(names(place), ["7.scan"]);
    }
    let (status, said) = refused(&folder, &["find", "f.sdd", "--out", "scan"]);
    assert!(status == 73 && said.contains("scan is a file: give the name of a folder"), "{said}");
    let (status, said) = refused(&folder, &["find", "f.sdd", "--out", "nowhere/found"]);
    assert!(status == 66 && said.contains("the folder nowhere is not there: make it first"), "{said}");
    // where nothing is found no folder is made
    put(&folder, 3 * 512, &[0; 6 * 512]);
    let told = wrote(&folder, &["find", "f.sdd", "--out", "none"]);
    assert_eq!(told, "no scan found in records 4 to 9; if it had scans, take it from a backup\n");
    assert!(!folder.join("none").exists());
}

#[test]
fn a_scan_that_cannot_be_written_whole_does_not_stay() {
    let folder = folder("find_fails");
    three_scans(&folder);
    // the folder's name is made durable first, then each scan
    let shim = shim(&folder, &failing("fsync", 3));
    let mut command = rinzo(&folder);
    let output = command.args(["find", "f.sdd", "--out", "found"]).env("LD_PRELOAD", shim).output().unwrap();
    let part = "found/6.scan: it could not be written, and nothing of it is left: ";
    assert!(output.status.code() == Some(74) && said(&output).contains(part), "{}", said(&output));
    assert!(output.stdout.is_empty() && folder.join("found/4.scan").exists() && !folder.join("found/6.scan").exists());
}

#[test]
fn a_bad_record_1_is_refused_with_its_number() {
    let folder = folder("find_refused");
    three_scans(&folder);
    let good = fs::read(folder.join("f.sdd")).unwrap();
    for (at, word, status) in [(28, 2u32, 3), (0, 1, 4), (12, 96, 4), (4, 18, 5)] {
        fs::write(folder.join("f.sdd"), &good).unwrap();
        put(&folder, at, &word.to_be_bytes());
        for words in [&["find", "f.sdd"][..], &["find", "f.sdd", "--out", "found"]] {
            let (number, said) = refused(&folder, words);
            assert!(number == status && said.starts_with(&format!("rinzo: refused {status}: f.sdd: ")), "{said}");
        }
        assert!(!folder.join("found").exists());
    }
    fs::write(folder.join("f.sdd"), &good[..511]).unwrap();
    assert_eq!(refused(&folder, &["find", "f.sdd"]).0, 1);
    fs::write(folder.join("f.sdd"), &good[..9 * 512 - 1]).unwrap();
    assert_eq!(refused(&folder, &["find", "f.sdd"]).0, 5);
    fs::write(folder.join("f.sdd"), [0; 4096]).unwrap();
    let (status, said) = refused(&folder, &["find", "f.sdd"]);
    assert!(status == 4 && said.contains("f.sdd is empty, all its bytes are zeros"), "{said}");
    assert_eq!(refused(&folder, &["find", "nothing"]).0, 66);
    for (words, part) in [(&["find"][..], "FILE is missing"), (&["find", "f.sdd", "5"], "5 is one word too many")] {
        let (status, said) = refused(&folder, words);
        assert!(status == 64 && said.contains(part), "{words:?}: {said}");
    }
}

#[test]
fn an_old_file_and_files_of_every_shape_are_searched() {
    let folder = folder("find_shapes");
    // scans of another version too, where their bytes keep the rules
    let (one, two) = (numbered(1_000, 1.0), numbered(512, f64::NAN));
    let scans = [(1, 2, &one[..]), (2, 1, &two), (9, 3, &[7; 300])];
    let mut bytes = old_file(3, 10, &scans.map(|(slot, magic, bytes)| OldScan { slot, magic, about: [7; 54], bytes }));
    bytes[512..3 * 512].fill(0x5a);
    fs::write(folder.join("old.sdd"), &bytes).unwrap();
    assert_eq!(refused(&folder, &["check", "old.sdd"]).0, 6);
    let found = wrote(&folder, &["find", "old.sdd"]);
    let lines = "4 5  2 records  1000 bytes  scan 1\n6 6  1 record  512 bytes  scan not a number (bits 7ff8000000000000)\n2 scans found in records 4 to 7, old form; `rinzo find old.sdd --out DIR` ";
    assert!(found.starts_with(lines), "{found}");
    let json = wrote(&folder, &["find", "old.sdd", "--json"]);
    let fields = "{\"file\":\"old.sdd\",\"form\":\"old\",\"from\":4,\"to\":7,\"found\":2,";
    assert!(json.starts_with(fields) && json.contains("\"value\":null"), "{json}");
    // no data records
    paper_file(&folder);
    let told =
        "no scan found: record 1 says that the file has no data records; if it had scans, take it from a backup\n";
    assert_eq!(wrote(&folder, &["find", "f.sdd"]), told);
    assert!(wrote(&folder, &["find", "f.sdd", "--json"]).ends_with("\"from\":4,\"to\":3,\"found\":0,\"finds\":[]}\n"));
    // records of 4,096 bytes, and a scan of the longest lengths that the rules let pass, which no save takes
    wrote(&folder, &["blank", "wide.sdd", "--n", "2", "--l", "4096", "--m", "4096", "--room", "60"]);
    wrote(&folder, &["keep", "wide.sdd", &scan_file(&folder, 8_192, 9)]);
    let file = fs::OpenOptions::new().write(true).open(folder.join("wide.sdd")).unwrap();
    let mut longest = numbered(65_536, 5.0);
    longest[32..48].copy_from_slice(&[65_536f64; 2].map(f64::to_be_bytes).concat());
    file.write_all_at(&longest, 4 * 4_096).unwrap();
    file.write_all_at(&40u32.to_be_bytes(), 4).unwrap();
    let found = wrote(&folder, &["find", "wide.sdd", "--out", "found"]);
    let lines = "5 36  32 records  131072 bytes  scan 5  found/5.scan\n2 scans found in records 3 to 42; ";
    assert!(found.starts_with("3 4  2 records  8192 bytes  scan ") && found.contains(lines), "{found}");
    assert_eq!(fs::metadata(folder.join("found/5.scan")).unwrap().len(), 131_072);
}

/// The system keeps a table of the parts of memory that are open, some 65,000, and here it would not be long enough: between
/// two scans there is a page that has none.
#[test]
fn more_scans_than_parts_of_memory_are_found() {
    const SCANS: u64 = 33_000;
    let folder = folder("find_many");
    wrote(&folder, &["blank", "f.sdd", "--n", "3", "--l", "512", "--room", "528003"]);
    let file = fs::OpenOptions::new().write(true).open(folder.join("f.sdd")).unwrap();
    file.write_all_at(&528_000u32.to_be_bytes(), 4).unwrap();
    file.write_all_at(&[0x77; 1024], 512).unwrap();
    for number in 0..SCANS {
        file.write_all_at(&numbered(512, number as f64), (5 + 16 * number) * 512).unwrap();
    }
    let found = wrote(&folder, &["find", "f.sdd"]);
    let lines: Vec<&str> = found.lines().collect();
    assert_eq!(lines.len() as u64, SCANS + 1);
    for number in 0..SCANS {
        let first = 6 + 16 * number;
        assert_eq!(lines[number as usize], format!("{first} {first}  1 record  512 bytes  scan {number}"));
    }
    assert!(lines[SCANS as usize].starts_with("33000 scans found in records 4 to 528003; "));
    fs::remove_dir_all(&folder).unwrap();
}
