//! `rinzo sweep`: a copy of a file without what is left in records of no scan, and what `check` says of these before and after.

mod common;

use common::{failing, folder, paper_file, refused, rinzo, run, said, scan_file, shim, wrote};
use sample::{OldScan, old_file, scan};
use std::collections::BTreeSet;
use std::fs;
use std::os::unix::fs::symlink;
use std::os::unix::process::ExitStatusExt;
use std::path::Path;

const ZEROS: &str = "\nevery data record that belongs to no scan is zeros\n";

/// A file with scans in slots 1 and 9, records 6 to 7 and 8 to 9, and 20 records in all. Records 4 and 5, the whole gap, are
/// junk, and so is what lies past the data section.
fn junk_file(folder: &Path) -> Vec<u8> {
    wrote(folder, &["blank", "f.sdd", "--n", "3", "--l", "512", "--room", "20"]);
    for (slot, mark) in [("2", 1), ("1", 2), ("9", 3)] {
        let name = scan_file(folder, 700, mark);
        wrote(folder, &["save", "f.sdd", slot, &name, "--source", "ORION A"]);
    }
    wrote(folder, &["clear", "f.sdd", "2", "--yes"]);
    let mut bytes = fs::read(folder.join("f.sdd")).unwrap();
    bytes[3 * 512 + 7] = 1;
    bytes[5 * 512 - 1] = 0x80;
    bytes[9 * 512..].fill(0xa5);
    fs::write(folder.join("f.sdd"), &bytes).unwrap();
    bytes
}

fn names(folder: &Path) -> BTreeSet<String> {
    let names = fs::read_dir(folder).unwrap().map(|entry| entry.unwrap().file_name().into_string().unwrap());
    names.collect()
}

/// Everything that a file shows: its list, its entries and its records.
fn shown(folder: &Path, name: &str) -> Vec<Vec<u8>> {
    let ask = |words: &[&str]| run(folder, words).stdout;
    let mut all = vec![ask(&["list", name])];
    for slot in 1..=16 {
        let slot = slot.to_string();
        all.extend([ask(&["entry", name, &slot]), ask(&["show", name, &slot])]);
    }
    all
}

#[test]
fn a_gap_of_junk_is_told_and_swept() {
    let folder = folder("sweep_junk");
    let bytes = junk_file(&folder);
    let checked = wrote(&folder, &["check", "f.sdd"]);
    let line = "\n2 data records that belong to no scan still hold old bytes, of a scan that was replaced or cleared, or of a save that was cut: to save or clear again does not remove them, and `rinzo sweep f.sdd NEW` makes a copy of the file without them\n";
    assert!(checked.ends_with(line), "{checked}");
    let json = wrote(&folder, &["check", "f.sdd", "--json"]);
    assert!(json.contains(",\"gaps-zero\":false,\"records-not-zero\":2,"), "{json}");

    let told = wrote(&folder, &["sweep", "f.sdd", "g.sdd"]);
    let wanted =
        "swept: what was left in 2 records of no scan is zeros, 2 scans, 10240 bytes written to g.sdd, read back";
    assert!(told.starts_with(wanted), "{told}");
    // zeros in the gap and past the data section, and nothing else differs
    let mut wanted = bytes.clone();
    wanted[3 * 512..5 * 512].fill(0);
    wanted[9 * 512..].fill(0);
    assert!(fs::read(folder.join("g.sdd")).unwrap() == wanted);
    assert!(fs::read(folder.join("f.sdd")).unwrap() == bytes, "the file itself stays");
    assert_eq!(shown(&folder, "g.sdd"), shown(&folder, "f.sdd"));
    assert!(wrote(&folder, &["check", "g.sdd"]).ends_with(ZEROS));
    assert!(wrote(&folder, &["check", "g.sdd", "--json"]).contains(",\"gaps-zero\":true,\"records-not-zero\":0,"));
    // what is swept is a file like any other, and can be swept again
    let json = wrote(&folder, &["sweep", "g.sdd", "h.sdd", "--json"]);
    let fields = "\"event\":\"swept\",\"file\":\"g.sdd\",\"form\":\"current\",\"written\":\"h.sdd\"";
    let rest = "\"records-zeroed\":0,\"scans\":2,\"bytes\":10240,\"read-back\":\"";
    assert!(json.starts_with(&format!("{{{fields},{rest}")), "{json}");
    assert!(
        wrote(&folder, &["sweep", "g.sdd", "i.sdd"]).starts_with("swept: nothing was left in records of no scan, ")
    );
    assert!(fs::read(folder.join("h.sdd")).unwrap() == wanted);
    wrote(&folder, &["save", "h.sdd", "3", &scan_file(&folder, 700, 4)]);
}

#[test]
fn a_job_that_is_cut_leaves_what_a_sweep_takes_away() {
    let folder = folder("sweep_cut");
    paper_file(&folder);
    wrote(&folder, &["save", "f.sdd", "1", &scan_file(&folder, 1_000, 1)]);
    let two = scan_file(&folder, 1_000, 2);
    let job = ["save", "f.sdd", "1", &two, "--replace"];
    // records 6, 7, 1, 2, and zeros to 4: record 5 is left
    let cut = rinzo(&folder).args(job).env("RINZO_DRILL", "stop:5").output().unwrap();
    assert_eq!(cut.status.signal(), Some(libc::SIGKILL));
    let checked = wrote(&folder, &["check", "f.sdd"]);
    assert!(checked.contains("\n1 data record that belongs to no scan still holds old bytes, of a scan"), "{checked}");
    wrote(&folder, &["sweep", "f.sdd", "g.sdd"]);
    assert_eq!(wrote(&folder, &["list", "g.sdd"]), "slots 16 used 1 scans 1\n1 6 7\n");
    assert_eq!(run(&folder, &["read", "g.sdd", "1"]).stdout, scan(1_000, 2));
    assert_eq!(shown(&folder, "g.sdd"), shown(&folder, "f.sdd"));
    assert!(wrote(&folder, &["check", "g.sdd", "--scans"]).ends_with(ZEROS));
}

#[test]
fn an_old_file_is_swept_and_stays_old() {
    let folder = folder("sweep_old");
    let (one, two) = (scan(1_000, 1), scan(512, 2));
    let about = [7; 54];
    let scans = [(1, 2, &one), (2, 1, &two), (9, 2, &one)];
    let mut bytes = old_file(3, 10, &scans.map(|(slot, magic, bytes)| OldScan { slot, magic, about, bytes }));
    // slot 2 is emptied by hand: record 6 is a gap then
    bytes[512 + 64..512 + 128].fill(0);
    fs::write(folder.join("old.sdd"), &bytes).unwrap();
    let checked = wrote(&folder, &["check", "old.sdd"]);
    assert!(checked.contains("\n1 data record that belongs to no scan still holds old bytes, of a scan"), "{checked}");
    let told = wrote(&folder, &["sweep", "old.sdd", "new.sdd"]);
    assert!(told.starts_with("swept: what was left in 1 record of no scan is zeros, 2 scans, 5120 bytes"), "{told}");
    bytes[5 * 512..6 * 512].fill(0);
    assert!(fs::read(folder.join("new.sdd")).unwrap() == bytes);
    let checked = wrote(&folder, &["check", "new.sdd"]);
    assert!(checked.contains(", old form\n") && checked.ends_with(ZEROS), "{checked}");
    assert_eq!(shown(&folder, "new.sdd"), shown(&folder, "old.sdd"));
}

/// A file without gaps, one without data records, and one whose length is no multiple of its records.
#[test]
fn files_of_every_shape_are_swept() {
    let folder = folder("sweep_shapes");
    wrote(&folder, &["blank", "b.sdd", "--n", "3", "--l", "512", "--room", "3"]);
    wrote(&folder, &["sweep", "b.sdd", "b.new"]);
    assert!(wrote(&folder, &["check", "b.sdd"]).ends_with(ZEROS));
    // a gap of many pieces, which begins and ends within one
    wrote(&folder, &["blank", "f.sdd", "--n", "3", "--l", "512", "--room", "3000"]);
    wrote(&folder, &["save", "f.sdd", "1", &scan_file(&folder, 512, 1)]);
    let mut bytes = fs::read(folder.join("f.sdd")).unwrap();
    bytes[4..8].copy_from_slice(&2_990u32.to_be_bytes());
    bytes[4 * 512..].fill(0x77);
    bytes.extend([0x77; 77]);
    fs::write(folder.join("f.sdd"), &bytes).unwrap();
    assert!(wrote(&folder, &["check", "f.sdd", "--json"]).contains(",\"records-not-zero\":2989,"));
    wrote(&folder, &["sweep", "f.sdd", "f.new"]);
    // past the data section too, to the last byte
    bytes[4 * 512..].fill(0);
    assert!(fs::read(folder.join("f.new")).unwrap() == bytes);
}

#[test]
fn a_file_that_does_not_open_has_its_own_number() {
    let folder = folder("sweep_damage");
    let good = junk_file(&folder);
    for (at, word, status) in [(28, 2u32, 3), (0, 1, 4), (4, 99, 5), (512, 1, 6), (16, 8, 7), (512 + 8 * 64, 6, 8)] {
        let mut bytes = good.clone();
        bytes[at..at + 4].copy_from_slice(&word.to_be_bytes());
        fs::write(folder.join("x.sdd"), bytes).unwrap();
        let before = names(&folder);
        for words in [&["sweep", "x.sdd", "new.sdd"][..], &["check", "x.sdd"]] {
            let (number, said) = refused(&folder, words);
            assert!(number == status && said.starts_with(&format!("rinzo: refused {status}")), "{words:?}: {said}");
        }
        assert_eq!(names(&folder), before);
    }
    fs::write(folder.join("x.sdd"), &good[..511]).unwrap();
    assert_eq!(refused(&folder, &["sweep", "x.sdd", "new.sdd"]).0, 1);
    let (status, said) = refused(&folder, &["sweep", "nothing", "new.sdd"]);
    assert!(status == 66 && said.contains("nothing is not there"), "{said}");
    assert!(!folder.join("new.sdd").exists());
}

#[test]
fn it_is_never_done_in_place_and_replaces_a_file_by_force_alone() {
    let folder = folder("sweep_place");
    let bytes = junk_file(&folder);
    symlink("f.sdd", folder.join("soft")).unwrap();
    fs::hard_link(folder.join("f.sdd"), folder.join("hard")).unwrap();
    fs::write(folder.join("mine"), "mine").unwrap();
    let before = names(&folder);
    for new in ["f.sdd", "./f.sdd", "soft", "hard"] {
        for force in [&[][..], &["--force"]] {
            let (status, said) = refused(&folder, &[&["sweep", "f.sdd", new], force].concat());
            let part = format!("{new} is the file that it is made of, which is never done in place: give another name");
            assert!(status == 73 && said.contains(&part), "{said}");
        }
    }
    let (status, said) = refused(&folder, &["sweep", "f.sdd", "mine"]);
    let part = "mine is there already: give another name, or --force to overwrite it";
    assert!(status == 73 && said.contains(part), "{said}");
    assert_eq!(fs::read(folder.join("mine")).unwrap(), b"mine");
    assert!(fs::read(folder.join("f.sdd")).unwrap() == bytes && names(&folder) == before);
    wrote(&folder, &["sweep", "f.sdd", "mine", "--force"]);
    assert!(wrote(&folder, &["check", "mine"]).ends_with(ZEROS));
    for (words, part) in [
        (&["sweep", "f.sdd"][..], "NEW is missing"),
        (&["sweep", "f.sdd", ".."], "NEW is the name of a new file"),
        (&["sweep", "f.sdd", "a", "b"], "b is one word too many"),
    ] {
        let (status, said) = refused(&folder, words);
        assert!(status == 64 && said.contains(part), "{words:?}: {said}");
    }
}

#[test]
fn what_fails_or_lies_leaves_nothing_behind() {
    let folder = folder("sweep_fails");
    junk_file(&folder);
    // a write that fails; and one that changes a byte of the gap, of a scan, and past the data section
    let lying = |at: usize| {
        format!(
            "#define _GNU_SOURCE
#include <dlfcn.h>
#include <string.h>
#include <unistd.h>
typedef ssize_t call(int fd, const void *at, size_t len, off_t from);
ssize_t pwrite64(int fd, const void *at, size_t len, off_t from) {{
  static char other[1 << 20];
  call *own = (call *)dlsym(RTLD_NEXT, \"pwrite64\");
  memcpy(other, at, len);
  if (from <= {at} && {at} < from + (off_t)len) other[{at} - from] ^= 1;
  return own(fd, other, len, from);
}}
"
        )
    };
    let not_written = "new.sdd: it could not be written, and nothing of it is left: ";
    let differs = "new.sdd: what was read back is not what was written, or f.sdd was changed meanwhile; nothing of it is left: check the device, and sweep f.sdd again";
    for (lines, part) in [
        (failing("pwrite64", 2), not_written),
        (failing("fsync", 1), not_written),
        (lying(3 * 512), differs),
        (lying(6 * 512), differs),
        (lying(15 * 512), differs),
        (lying(600), differs),
    ] {
        let shim = shim(&folder, &lines);
        let before = names(&folder);
        let output = rinzo(&folder).args(["sweep", "f.sdd", "new.sdd"]).env("LD_PRELOAD", shim).output().unwrap();
        assert!(output.status.code() == Some(74) && said(&output).contains(part), "{}", said(&output));
        assert_eq!(names(&folder), before);
    }
    // a cut leaves no half file under the name
    for at in [0, 1, 2] {
        let mut command = rinzo(&folder);
        let cut =
            command.args(["sweep", "f.sdd", "new.sdd"]).env("RINZO_DRILL", format!("stop:{at}")).output().unwrap();
        assert_eq!(cut.status.signal(), Some(libc::SIGKILL));
        assert!(!folder.join("new.sdd").exists(), "at {at}");
    }
}
