//! `rinzo convert`: there and home again, what cannot be converted, and what is left where it does not come to its end.

mod common;

use common::{failing, folder, paper_file, refused, rinzo, run, said, scan_file, shim, wrote};
use sample::{OldScan, old_file, scan};
use std::collections::BTreeSet;
use std::fs;
use std::os::unix::fs::{MetadataExt, PermissionsExt, symlink};
use std::path::Path;

/// An old file with N 3 and two scans of this magic number, in slots 1 and 9, and zeros where nothing is said.
fn old(folder: &Path, magic: i16) -> Vec<u8> {
    let about = std::array::from_fn(|i| i as u8 + 1);
    let scan = |slot, bytes| OldScan { slot, magic, about, bytes };
    let mut file = old_file(3, 10, &[scan(1, &scan_of(1_000)), scan(9, &scan_of(512))]);
    file[12..28].fill(0);
    file[32..512].fill(0);
    for slot in [0, 8] {
        file[512 + 64 * slot + 60..][..4].fill(0);
    }
    fs::write(folder.join("old.sdd"), &file).unwrap();
    file
}

fn scan_of(len: usize) -> Vec<u8> {
    scan(len, 3)
}

/// The paper's file with a scan in slots 1 and 9.
fn current(folder: &Path) -> Vec<u8> {
    paper_file(folder);
    for slot in ["1", "9"] {
        let source = format!("BOOM {slot}");
        wrote(folder, &["save", "f.sdd", slot, &scan_file(folder, 700, 1), "--source", &source, "--position", "13"]);
    }
    fs::read(folder.join("f.sdd")).unwrap()
}

/// Converts a file that can be; answers what was said.
fn convert(folder: &Path, file: &str, to: &str, out: &str) -> String {
    wrote(folder, &["convert", file, "--to", to, "--out", out])
}

/// The names in a folder.
fn names(folder: &Path) -> BTreeSet<String> {
    let names = fs::read_dir(folder).unwrap().map(|entry| entry.unwrap().file_name().into_string().unwrap());
    names.collect()
}

/// Every slot's lines but those that hang on the form.
fn entries(folder: &Path, file: &str) -> Vec<String> {
    let entries = ["1", "9"].map(|slot| wrote(folder, &["entry", file, slot]));
    let lines = entries.iter().flat_map(|entry| entry.lines());
    lines.filter(|line| !line.starts_with("form") && !line.starts_with("magic")).map(str::to_string).collect()
}

#[test]
fn an_old_file_goes_there_and_home_again() {
    let folder = folder("convert_old");
    let old = old(&folder, 2);
    let said = convert(&folder, "old.sdd", "current", "new.sdd");
    assert!(
        said.starts_with("converted: old to current form, 2 scans, 5120 bytes written to new.sdd, read back"),
        "{said}"
    );
    assert_eq!(wrote(&folder, &["list", "new.sdd"]), "slots 16 used 9 scans 2\n1 4 5\n9 6 6\n");
    assert_eq!(entries(&folder, "new.sdd"), entries(&folder, "old.sdd"));
    assert_eq!(run(&folder, &["read", "new.sdd", "1"]).stdout, scan_of(1_000));
    assert!(fs::read(folder.join("old.sdd")).unwrap() == old, "the file itself stays");
    convert(&folder, "new.sdd", "old", "home.sdd");
    assert!(fs::read(folder.join("home.sdd")).unwrap() == old);
    assert_eq!(names(&folder), ["old.sdd", "new.sdd", "home.sdd"].map(String::from).into());
    // and now it can be changed
    wrote(&folder, &["keep", "new.sdd", &scan_file(&folder, 512, 5)]);
}

#[test]
fn a_current_file_goes_there_and_home_again() {
    let folder = folder("convert_current");
    let current = current(&folder);
    let said = convert(&folder, "f.sdd", "old", "old.sdd");
    assert!(said.starts_with("converted: current to old form, 2 scans, 4096 bytes written to old.sdd, "), "{said}");
    assert!(wrote(&folder, &["check", "old.sdd", "--scans"]).starts_with("good: 2 scans in 16 slots"));
    assert_eq!(wrote(&folder, &["list", "old.sdd"]), "slots 16 used 9 scans 2, old form\n1 4 5\n9 6 7\n");
    assert_eq!(entries(&folder, "old.sdd"), entries(&folder, "f.sdd"));
    assert!(wrote(&folder, &["entry", "old.sdd", "9"]).ends_with("magic            2 (SDD version 1)\n"));
    convert(&folder, "old.sdd", "current", "home.sdd");
    assert!(fs::read(folder.join("home.sdd")).unwrap() == current);
}

#[test]
fn a_program_gets_json() {
    let folder = folder("convert_json");
    old(&folder, 2);
    let json = wrote(&folder, &["convert", "old.sdd", "--to", "current", "--out", "new.sdd", "--json"]);
    let forms = "\"event\":\"converted\",\"file\":\"old.sdd\",\"from\":\"old\",\"to\":\"current\"";
    let rest = "\"written\":\"new.sdd\",\"scans\":2,\"bytes\":5120,\"read-back\":\"";
    assert!(json.starts_with(&format!("{{{forms},{rest}")), "{json}");
}

/// A file whose length is no multiple of its records, and with bytes behind all of them, keeps every byte.
#[test]
fn bytes_behind_the_records_come_along() {
    let folder = folder("convert_behind");
    let file = [old(&folder, 2), (0..=255).cycle().take(300_001).collect()].concat();
    fs::write(folder.join("old.sdd"), &file).unwrap();
    convert(&folder, "old.sdd", "current", "new.sdd");
    let new = fs::read(folder.join("new.sdd")).unwrap();
    assert!(new[3 * 512..] == file[3 * 512..] && new[..3 * 512] != file[..3 * 512]);
    // a blank file has nothing but records 1 to N
    wrote(&folder, &["blank", "b.sdd", "--n", "3", "--l", "512", "--room", "3"]);
    assert!(convert(&folder, "b.sdd", "old", "b.old").contains(" form, 0 scans, 1536 bytes written to b.old, "));
}

/// A file with this 32-bit word at a place, and so many records.
fn with(folder: &Path, file: &[u8], words: &[(usize, u32)], records: u64) {
    let mut bytes = file.to_vec();
    words.iter().for_each(|(at, word)| bytes[*at..at + 4].copy_from_slice(&word.to_be_bytes()));
    let made = folder.join("x.sdd");
    fs::write(&made, bytes).unwrap();
    fs::OpenOptions::new().write(true).open(made).unwrap().set_len(records * 512).unwrap();
}

#[test]
fn each_cause_of_19_is_named() {
    let folder = folder("convert_19");
    let (old, current) = (old(&folder, 1), current(&folder));
    let nine = 512 + 8 * 64;
    for (file, words, to, slot, part) in [
        (&current, &[][..], "current", None, "it has the current form already: there is nothing to convert"),
        (&old, &[], "old", None, "it has the old form already: there is nothing to convert"),
        (&current, &[(24, 1)], "old", None, "it holds individual records (type 1), which are not converted: "),
        (&current, &[(20, 65_536)], "old", None, "the counter is 65536, and the old form has at most 65535: "),
        (&current, &[(4, 32_768)], "old", None, "D is 32768, and the old form has at most 32767: "),
        (&current, &[(4, 32_767), (nine + 4, 32_768)], "old", Some(9), "slot 9 has a scan that ends in record 32768, "),
        (
            &old,
            &[],
            "current",
            Some(1),
            "slot 1 has magic 1 (IEEE KEEP, which is shown and not read): have the station",
        ),
    ] {
        with(&folder, file, words, 32_771);
        let before = names(&folder);
        let call = ["convert", "x.sdd", "--to", to, "--out", "new.sdd"];
        let (status, said) = refused(&folder, &call);
        assert_eq!(status, 19, "{said}");
        assert!(said.starts_with(&format!("rinzo: refused 19: x.sdd: {part}")), "{said}");
        let output = run(&folder, &[&call[..], &["--json"]].concat());
        let slot = slot.map_or(String::new(), |slot| format!("\"slot\":{slot},"));
        let json = format!("{{\"refused\":19,{slot}\"file\":\"x.sdd\",\"sentence\":\"refused 19: x.sdd: {part}");
        assert!(String::from_utf8_lossy(&output.stdout).starts_with(&json), "{output:?}");
        assert_eq!(names(&folder), before);
    }
    // what is at the limit goes
    with(&folder, &current, &[(4, 32_767), (nine + 4, 32_767), (20, 65_535)], 32_771);
    convert(&folder, "x.sdd", "old", "new.sdd");
}

#[test]
fn a_file_that_does_not_open_has_its_own_number() {
    let folder = folder("convert_damage");
    let current = current(&folder);
    for (words, status) in [(&[(28, 2)][..], 3), (&[(0, 1)], 4), (&[(4, 99)], 5), (&[(512, 1)], 6), (&[(16, 8)], 7)] {
        with(&folder, &current, words, 8);
        for to in ["old", "current"] {
            assert_eq!(refused(&folder, &["convert", "x.sdd", "--to", to, "--out", "new.sdd"]).0, status);
        }
    }
    assert!(!folder.join("new.sdd").exists());
    let (status, said) = refused(&folder, &["convert", "nothing", "--to", "old", "--out", "new.sdd"]);
    assert!(status == 66 && said.contains("nothing is not there"), "{said}");
}

#[test]
fn it_is_never_done_in_place() {
    let folder = folder("convert_in_place");
    let old = old(&folder, 2);
    symlink("old.sdd", folder.join("soft")).unwrap();
    fs::hard_link(folder.join("old.sdd"), folder.join("hard")).unwrap();
    let before = names(&folder);
    for out in ["old.sdd", "./old.sdd", "soft", "hard", "../convert_in_place/old.sdd"] {
        for force in [&[][..], &["--force"]] {
            let words = [&["convert", "old.sdd", "--to", "current", "--out", out], force].concat();
            let (status, said) = refused(&folder, &words);
            assert_eq!(status, 73, "{said}");
            let part = format!("{out} is the file that it is made of, which is never done in place: give another name");
            assert!(said.contains(&part), "{said}");
            assert!(fs::read(folder.join("old.sdd")).unwrap() == old, "{out}");
            assert_eq!(names(&folder), before);
        }
    }
}

#[test]
fn a_file_that_is_there_goes_by_force_alone() {
    let folder = folder("convert_force");
    old(&folder, 2);
    convert(&folder, "old.sdd", "current", "wanted");
    let wanted = fs::read(folder.join("wanted")).unwrap();
    fs::write(folder.join("mine"), "mine").unwrap();
    symlink("mine", folder.join("link")).unwrap();
    fs::create_dir(folder.join("folder")).unwrap();
    let call = |out, force: &[&'static str]| [&["convert", "old.sdd", "--to", "current", "--out", out], force].concat();
    for out in ["mine", "link", "folder"] {
        let (status, said) = refused(&folder, &call(out, &[]));
        let part = format!("{out} is there already: give another name, or --force to overwrite it");
        assert!(status == 73 && said.contains(&part), "{said}");
    }
    assert_eq!(fs::read(folder.join("mine")).unwrap(), b"mine");
    // a link stays a link
    wrote(&folder, &call("link", &["--force"]));
    assert!(fs::read(folder.join("mine")).unwrap() == wanted);
    assert!(folder.join("link").symlink_metadata().unwrap().is_symlink());
    assert!(refused(&folder, &call("folder", &["--force"])).1.contains("folder is a folder: give the path of a file"));
    assert_eq!(refused(&folder, &call("/dev/full", &["--force"])).0, 66);
    // and not one that another program works on
    let busy = fs::File::open(folder.join("mine")).unwrap();
    busy.lock().unwrap();
    assert_eq!(refused(&folder, &call("mine", &["--force"])).0, 75);
    assert_eq!(names(&folder).len(), 5);
}

#[test]
fn nobody_reads_it_who_may_not_read_the_file() {
    let folder = folder("convert_mode");
    old(&folder, 2);
    let mode = |name: &str| fs::metadata(folder.join(name)).unwrap().mode() & 0o777;
    let set = |name: &str, mode| fs::set_permissions(folder.join(name), fs::Permissions::from_mode(mode)).unwrap();
    set("old.sdd", 0o600);
    convert(&folder, "old.sdd", "current", "mine");
    assert_eq!(mode("mine"), 0o600);
    // a copy of a file that is only to be read can be worked on
    set("old.sdd", 0o444);
    convert(&folder, "old.sdd", "current", "again");
    assert_eq!(mode("again") & 0o600, 0o600);
    // and one that replaces another keeps what that one allows
    set("mine", 0o640);
    wrote(&folder, &["convert", "old.sdd", "--to", "current", "--out", "mine", "--force"]);
    assert_eq!(mode("mine"), 0o640);
}

#[test]
fn wrong_words_are_named() {
    let folder = folder("convert_words");
    old(&folder, 2);
    for (words, part) in [
        (&["convert", "old.sdd", "--out", "x"][..], "--to is missing: give --to old or --to current"),
        (&["convert", "old.sdd", "--to", "new", "--out", "x"], "--to wants old or current, and new is none"),
        (&["convert", "old.sdd", "--to", "current"], "--out is missing: give --out and the name of a new file"),
        (&["convert", "old.sdd", "--to", "current", "--out", ""], "--out is missing"),
        (&["convert", "old.sdd", "x", "--to", "current"], "x is one word too many"),
    ] {
        let (status, said) = refused(&folder, words);
        assert!(status == 64 && said.contains(part), "{words:?}: {said}");
    }
    let (status, said) = refused(&folder, &["convert", "old.sdd", "--to", "current", "--out", "no/such/x"]);
    assert!(status == 66 && said.contains("no/such/x: the folder no/such is not there: make it first"), "{said}");
    let help = wrote(&folder, &["convert", "--help"]);
    assert!(help.contains("--to FORM") && help.contains("Refused with 19: "), "{help}");
    assert!(wrote(&folder, &["--help"]).contains("convert FILE"));
    assert!(wrote(&folder, &["manual"]).contains("\\fBconvert\\fR"));
}

#[test]
fn what_fails_leaves_nothing_behind() {
    let folder = folder("convert_fails");
    old(&folder, 2);
    fs::write(folder.join("mine"), "mine").unwrap();
    // record 1 and index, the data, and the flush; and a disk that is full
    for (call, turn) in [("pwrite64", 1), ("pwrite64", 2), ("fsync", 1)] {
        let shim = shim(&folder, &failing(call, turn));
        let before = names(&folder);
        for (out, force) in [("new.sdd", &[][..]), ("mine", &["--force"])] {
            let words = [&["convert", "old.sdd", "--to", "current", "--out", out], force].concat();
            let output = rinzo(&folder).args(words).env("LD_PRELOAD", &shim).output().unwrap();
            assert_eq!(output.status.code(), Some(74), "{call} {turn}: {}", said(&output));
            let part = format!("{out}: it could not be written, and nothing of it is left: ");
            assert!(said(&output).contains(&part), "{}", said(&output));
            assert_eq!(names(&folder), before, "{call} {turn}");
        }
        assert_eq!(fs::read(folder.join("mine")).unwrap(), b"mine");
    }
    let line = "trap '' XFSZ; ulimit -f 4; exec \"$0\" convert old.sdd --to current --out new.sdd";
    let mut shell = std::process::Command::new("sh");
    let output = shell.args(["-c", line, env!("CARGO_BIN_EXE_rinzo")]).current_dir(&folder).output().unwrap();
    assert_eq!(output.status.code(), Some(74), "{}", said(&output));
    assert!(!folder.join("new.sdd").exists() && !names(&folder).iter().any(|name| name.starts_with('.')));
}

/// A shim under which a write loses all of its bytes, or in this case changes the one at a place.
fn lying(when: &str, at: usize) -> String {
    let lose = if when == "1" { "return len;" } else { "" };
    format!(
        "#define _GNU_SOURCE
#include <dlfcn.h>
#include <string.h>
#include <unistd.h>
typedef ssize_t call(int fd, const void *at, size_t len, off_t from);
ssize_t pwrite64(int fd, const void *at, size_t len, off_t from) {{
  static char other[1 << 20];
  call *own = (call *)dlsym(RTLD_NEXT, \"pwrite64\");
  memcpy(other, at, len);
  if ({when}) other[{at}] ^= 1;
  {lose}
  return own(fd, other, len, from);
}}
"
    )
}

/// A system that loses what is written, or changes a byte of it, is not believed.
#[test]
fn what_comes_back_otherwise_is_not_believed() {
    let folder = folder("convert_lies");
    old(&folder, 2);
    let lies = [
        ("1", 0),
        // a byte that is not judged, in record 1; first, source and position code of an entry; one of an empty entry
        ("from == 0", 100),
        ("from == 0", 512 + 3),
        ("from == 0", 512 + 20),
        ("from == 0", 512 + 61),
        ("from == 0", 512 + 64 + 40),
        // a byte of a scan, and the last one of the file
        ("from != 0", 5),
        ("from != 0", 7 * 512 - 1),
    ];
    for (when, at) in lies {
        let shim = shim(&folder, &lying(when, at));
        let before = names(&folder);
        let mut command = rinzo(&folder);
        command.args(["convert", "old.sdd", "--to", "current", "--out", "new.sdd"]).env("LD_PRELOAD", shim);
        let output = command.output().unwrap();
        assert_eq!(output.status.code(), Some(74), "{when} {at}: {}", said(&output));
        let part =
            "new.sdd: what was read back is not what was written, or old.sdd was changed meanwhile; nothing of it";
        assert!(said(&output).contains(part), "{when} {at}: {}", said(&output));
        assert_eq!(names(&folder), before);
    }
}

#[test]
fn what_is_done_is_said_even_where_nobody_reads() {
    let folder = folder("convert_unread");
    old(&folder, 2);
    for (out, end) in [("one", ">/dev/full"), ("two", ">&-")] {
        let line = format!("\"$0\" convert old.sdd --to current --out {out} {end}");
        let mut shell = std::process::Command::new("sh");
        let output = shell.args(["-c", &line, env!("CARGO_BIN_EXE_rinzo")]).current_dir(&folder).output().unwrap();
        assert_eq!(output.status.code(), Some(74));
        let part = format!("rinzo: {out} is converted and was compared, but standard output ");
        assert!(said(&output).starts_with(&part), "{}", said(&output));
        assert!(wrote(&folder, &["list", out]).starts_with("slots 16 used 9 scans 2\n"));
    }
}
