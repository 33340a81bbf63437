//! Long work says how far it has come on a terminal, and nothing in a pipe.

mod common;

use common::{folder, rinzo, run, said, terminal, wrote};
use std::fs::{self, File};
use std::io::Read;
use std::os::unix::fs::FileExt;
use std::path::Path;
use std::process::Stdio;

/// What the program says on a terminal, as standard error, while standard output is a pipe.
fn said_on_terminal(folder: &Path, words: &[&str]) -> String {
    said_with_input(folder, words, Stdio::null())
}

/// The same with something on standard input. What it says is taken while it runs: a terminal that nobody reads is full at some time.
fn said_with_input(folder: &Path, words: &[&str], input: Stdio) -> String {
    let (mut person, program) = terminal();
    let reader = std::thread::spawn(move || {
        let mut said = Vec::new();
        // once the program's end is closed the terminal ends, which Linux calls an error
        let _ = person.read_to_end(&mut said);
        String::from_utf8(said).unwrap()
    });
    let mut command = rinzo(folder);
    command.stdin(input);
    let child = command.args(words).stdout(Stdio::piped()).stderr(Stdio::from(program)).spawn().unwrap();
    drop(command); // and with it the last hand on the program's end
    assert!(child.wait_with_output().unwrap().status.success());
    reader.join().unwrap()
}

/// A file with 1,024 scans.
fn many_scans(folder: &Path) {
    wrote(folder, &["blank", "f.sdd", "--n", "129", "--l", "512", "--room", "2000"]);
    let file = fs::OpenOptions::new().write(true).open(folder.join("f.sdd")).unwrap();
    for slot in 0..1_024u64 {
        file.write_all_at(&[(130 + slot as u32).to_be_bytes(); 2].concat(), 512 + 64 * slot).unwrap();
        file.write_all_at(&sample::scan(512, 7), (129 + slot) * 512).unwrap();
    }
    for (at, word) in [(4, 1_024u32), (16, 1_024)] {
        file.write_all_at(&word.to_be_bytes(), at).unwrap();
    }
}

/// Writes an entry by hand: a station's file may have scans longer than any that is saved here.
fn one_long_run(folder: &Path, records: u32) {
    wrote(folder, &["blank", "long.sdd", "--n", "3", "--l", "512", "--room", "10000"]);
    let file = fs::OpenOptions::new().write(true).open(folder.join("long.sdd")).unwrap();
    for (at, word) in [(4, records), (16, 1), (512, 4), (516, 3 + records)] {
        file.write_all_at(&word.to_be_bytes(), at).unwrap();
    }
}

/// A file with no scan and so many data records, all of them one gap.
fn one_long_gap(folder: &Path, records: u32) {
    wrote(folder, &["blank", "gap.sdd", "--n", "3", "--l", "512", "--room", "10000"]);
    let file = fs::OpenOptions::new().write(true).open(folder.join("gap.sdd")).unwrap();
    file.write_all_at(&records.to_be_bytes(), 4).unwrap();
}

#[test]
fn progress_is_shown_on_a_terminal_and_wiped_away() {
    let folder = folder("terminal");
    many_scans(&folder);
    one_long_run(&folder, 9_000);
    one_long_gap(&folder, 9_000);
    for (words, part) in [
        (&["check", "f.sdd", "--scans"][..], "reading scan 1 of 1024"),
        (&["list", "f.sdd", "--long"], "looking into scan 1 of 1024"),
        (&["show", "long.sdd", "1"], "written: 1.0 MB"),
        (&["convert", "long.sdd", "--to", "old", "--out", "1"], "converting: 1.0 MB"),
        (&["convert", "long.sdd", "--to", "old", "--out", "2"], "comparing: 1.0 MB"),
        (&["convert", "f.sdd", "--to", "old", "--out", "3"], "comparing slot 1 of 1024"),
        (&["check", "gap.sdd"], "looking into records of no scan: 1.0 MB"),
        (&["sweep", "gap.sdd", "4"], "sweeping: 1.0 MB"),
        (&["sweep", "gap.sdd", "5"], "looking into records of no scan: 1.0 MB"),
        (&["sweep", "f.sdd", "6"], "comparing slot 1 of 1024"),
        (&["find", "gap.sdd"], "looking for scans: 1.0 MB"),
        (&["find", "f.sdd", "--out", "7"], "writing scan 1 of 1024"),
    ] {
        let said = said_on_terminal(&folder, words);
        assert!(said.contains(part), "{words:?}: {said:?}");
        assert!(said.ends_with("\r\x1b[K"), "{words:?}: {said:?}");
    }
    // what is short says nothing
    assert_eq!(said_on_terminal(&folder, &["list", "f.sdd"]), "");
    assert_eq!(said_on_terminal(&folder, &["check", "f.sdd", "--scans", "--json"]), "");
}

#[test]
fn a_file_that_comes_shows_progress() {
    let folder = folder("terminal_input");
    one_long_gap(&folder, 9_000);
    let input = || Stdio::from(File::open(folder.join("gap.sdd")).unwrap());
    let said = said_with_input(&folder, &["check", "-"], input());
    assert!(said.contains("received: 1.0 MB") && said.ends_with("\r\x1b[K"), "{said:?}");
    assert_eq!(said_with_input(&folder, &["check", "-", "--json"], input()), "");
    let output = rinzo(&folder).args(["check", "-"]).stdin(input()).output().unwrap();
    assert!(output.status.success() && output.stderr.is_empty());
}

#[test]
fn the_read_back_of_a_large_index_shows_progress() {
    let folder = folder("terminal_read_back");
    wrote(&folder, &["blank", "f.sdd", "--n", "513", "--l", "4096", "--m", "512", "--room", "600"]);
    let scan = common::scan_file(&folder, 1_000, 1);
    let said = said_on_terminal(&folder, &["keep", "f.sdd", &scan]);
    assert!(said.contains("reading back: 1.0 MB") && said.ends_with("\r\x1b[K"), "{said:?}");
}

#[test]
fn nothing_is_shown_in_a_pipe() {
    let folder = folder("pipe");
    many_scans(&folder);
    one_long_run(&folder, 9_000);
    one_long_gap(&folder, 9_000);
    let sweep = ["sweep", "gap.sdd", "2"];
    let convert = ["convert", "long.sdd", "--to", "old", "--out", "1"];
    for words in [
        &["check", "f.sdd", "--scans"][..],
        &["check", "gap.sdd"],
        &["list", "f.sdd", "--long"],
        &["show", "long.sdd", "1"],
        &["find", "gap.sdd"],
        &["find", "f.sdd", "--out", "3"],
        &convert,
        &sweep,
    ] {
        let output = run(&folder, words);
        assert!(output.status.success());
        assert_eq!(said(&output), "", "{words:?}");
    }
}
