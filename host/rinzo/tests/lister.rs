//! The program `lister`, whose text `rinzo list` prints too: what it says of a file, and that a read that fails is not taken for
//! the end of the input. What a call of the system answers is no part of a proof, so this is tried.
#![cfg(not(feature = "stand-in"))]

use sample::OldScan;
use std::fs::File;
use std::io::Write;
use std::os::fd::OwnedFd;
use std::os::unix::net::UnixStream;
use std::path::{Path, PathBuf};
use std::process::{Command, Output, Stdio};

/// A part of the repository.
fn here(name: &str) -> PathBuf {
    Path::new(env!("CARGO_MANIFEST_DIR")).join("../..").join(name)
}

/// What the lister does with this as its standard input.
fn lister(input: impl Into<OwnedFd>) -> Output {
    let input = Stdio::from(input.into());
    Command::new(here("host/lister_cases/run")).stdin(input).output().unwrap()
}

/// The paper's file.
fn paper_file() -> Vec<u8> {
    std::fs::read(here("crates/lister/stdin")).unwrap()
}

/// A stream that gives these bytes, and then its end or, where `fails`, an error: a socket whose other end is closed with a byte
/// that it has not read.
fn stream(bytes: &[u8], fails: bool) -> UnixStream {
    let (mut ours, mut theirs) = UnixStream::pair().unwrap();
    if fails {
        theirs.write_all(b"x").unwrap();
    }
    ours.write_all(bytes).unwrap();
    theirs
}

fn says(output: &Output, printed: &str, said: &str) {
    assert_eq!(String::from_utf8_lossy(&output.stdout), printed);
    assert_eq!(String::from_utf8_lossy(&output.stderr), said);
}

#[test]
fn a_file_that_ends_has_a_verdict() {
    let list = std::fs::read_to_string(here("crates/lister/stdout")).unwrap();
    let file = paper_file();
    says(&lister(File::open(here("crates/lister/stdin")).unwrap()), &list, "");
    says(&lister(stream(&file, false)), &list, "");
    says(&lister(stream(&file[..511], false)), "refused 1 slot 0\n", "");
}

#[test]
fn an_old_file_is_listed_as_any_other() {
    let scan = sample::scan(700, 1);
    let scans = [(2, 2), (5, 1)].map(|(slot, magic)| OldScan { slot, magic, about: [7; 54], bytes: &scan });
    let file = sample::old_file(3, 8, &scans);
    says(&lister(stream(&file, false)), "slots 16 used 5 scans 2\n2 4 5\n5 6 7\n", "");
}

#[test]
fn a_folder_has_none() {
    says(&lister(File::open("/").unwrap()), "", "cannot read\n");
}

#[test]
fn a_file_that_breaks_off_has_none() {
    let file = paper_file();
    for length in [1, 511, 512, file.len() - 1, file.len()] {
        says(&lister(stream(&file[..length], true)), "", "cannot read\n");
    }
}
