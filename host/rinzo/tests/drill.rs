//! The power-cut drill on a real file, and writes that fail.
//!
//! A job is stopped after each of its records in turn. Until the index record
//! is written the slot shows what it did before; from then on the new scan, or
//! nothing after a clear. Every other slot always shows what it did. The used
//! number U is never below the highest slot with a scan, and is that slot once
//! a job is confirmed. Data records of no scan are zeros after confirmed jobs;
//! after a cut the question of them is answered by what their bytes are.

mod common;

use common::{failing, folder, held, paper_file, refused, rinzo, run, said, scan_file, shim, wrote};
use sample::scan;
use std::fs;
use std::os::unix::process::{CommandExt, ExitStatusExt};
use std::path::Path;
use std::process::Stdio;
use std::time::Duration;

/// A job to be cut: its words, its slot, the records it writes, how many of them up to its index record, and what the
/// slot shows from that one on. The last ones are zeros over the scan that the slot had.
struct Cut {
    words: Vec<String>,
    slot: u64,
    writes: u64,
    reached: u64,
    after: Option<Vec<u8>>,
}

impl Cut {
    /// A save or keep to an empty slot, whose index record is its last.
    fn save(words: &[&str], slot: u64, len: usize, mark: u8) -> Cut {
        let after = padded(len, mark);
        let writes = after.len() as u64 / 512 + 2;
        Cut { words: owned(words), slot, writes, reached: writes, after: Some(after) }
    }

    /// The same over a scan of so many records.
    fn over(self, old: u64) -> Cut {
        Cut { writes: self.writes + old, ..self }
    }

    /// A clear of a scan of so many records. Its index record is its second; that of the highest slot has record 1 with U
    /// lowered then.
    fn clear(slot: u64, lowers: bool, old: u64) -> Cut {
        let words = owned(&["clear", "f.sdd", &slot.to_string(), "--yes"]);
        Cut { words, slot, writes: 2 + u64::from(lowers) + old, reached: 2, after: None }
    }

    fn words(&self) -> Vec<&str> {
        self.words.iter().map(String::as_str).collect()
    }

    /// Runs the job until it stops itself after so many records.
    fn stop_after(&self, folder: &Path, written: u64) {
        let ended = rinzo(folder).args(&self.words).env("RINZO_DRILL", format!("stop:{written}")).output().unwrap();
        assert_eq!(ended.status.signal(), Some(libc::SIGKILL), "{:?} after {written} records", self.words);
        let printed = String::from_utf8_lossy(&ended.stdout).into_owned();
        assert!(!printed.contains("saved") && !printed.contains("cleared"), "{printed}");
    }
}

fn owned(words: &[&str]) -> Vec<String> {
    words.iter().map(|word| word.to_string()).collect()
}

/// A file with scans in slots 1, 2 and 9, and free records between them and after them.
fn busy_file(folder: &Path) {
    wrote(folder, &["blank", "f.sdd", "--n", "3", "--l", "512", "--room", "20"]);
    for (slot, len, mark) in [("1", 1_000, 1), ("2", 512, 2), ("9", 1_536, 3), ("4", 700, 4)] {
        let name = scan_file(folder, len, mark);
        wrote(folder, &["save", "f.sdd", slot, &name]);
    }
    wrote(folder, &["clear", "f.sdd", "4", "--yes"]);
}

/// The jobs that are cut on it. A clear of slot 9 leaves the highest scan in slot 2, with empty slots between; slot 2
/// itself is in the middle.
fn busy_cuts(folder: &Path) -> Vec<Cut> {
    let (one, two, three) = (scan_file(folder, 1_200, 5), scan_file(folder, 2_048, 6), scan_file(folder, 1_200, 7));
    vec![
        Cut::save(&["save", "f.sdd", "16", &one], 16, 1_200, 5),
        Cut::save(&["save", "f.sdd", "1", &two, "--replace"], 1, 2_048, 6).over(2),
        Cut::save(&["keep", "f.sdd", &three], 3, 1_200, 7),
        Cut::clear(9, true, 3),
        Cut::clear(2, false, 1),
    ]
}

/// A file with one scan, in slot 12.
fn lone_file(folder: &Path) {
    wrote(folder, &["blank", "f.sdd", "--n", "3", "--l", "512", "--room", "20"]);
    wrote(folder, &["save", "f.sdd", "12", &scan_file(folder, 1_000, 1)]);
}

/// The jobs that are cut on it: a clear that leaves no scan, and a save below the highest slot.
fn lone_cuts(folder: &Path) -> Vec<Cut> {
    let two = scan_file(folder, 512, 2);
    vec![Cut::clear(12, true, 2), Cut::save(&["save", "f.sdd", "3", &two], 3, 512, 2)]
}

/// A file whose U is 9 and whose highest scan is in slot 2, and that has three records of slot 9's scan left: a clear was
/// cut before it lowered U.
fn high_file(folder: &Path) {
    busy_file(folder);
    Cut::clear(9, true, 3).stop_after(folder, 2);
}

/// The jobs that are cut on it: the highest slot is 2 for them, whatever U says.
fn high_cuts(folder: &Path) -> Vec<Cut> {
    let two = scan_file(folder, 512, 2);
    vec![Cut::clear(2, true, 1), Cut::clear(1, false, 2), Cut::save(&["keep", "f.sdd", &two, "--again"], 3, 512, 2)]
}

/// The files of the drill, each with the jobs that are cut on it.
type Ground = (&'static str, fn(&Path), fn(&Path) -> Vec<Cut>);
const GROUNDS: [Ground; 3] =
    [("busy", busy_file, busy_cuts), ("lone", lone_file, lone_cuts), ("high", high_file, high_cuts)];

/// Cuts every job of the drill after each of its records in turn, on its file as it was made. `cut` cuts it there, and
/// `look` sees what is left, with what the slots showed before.
fn each_cut(name: &str, cut: fn(&Path, &Cut, u64), mut look: impl FnMut(&Path, &Cut, u64, &[Shown])) {
    for (ground, make, cuts) in GROUNDS {
        let folder = folder(&format!("{name}_{ground}"));
        make(&folder);
        let (file, before) = (fs::read(folder.join("f.sdd")).unwrap(), shown(&folder));
        for job in cuts(&folder) {
            for written in 0..=job.writes {
                fs::write(folder.join("f.sdd"), &file).unwrap();
                cut(&folder, &job, written);
                look(&folder, &job, written, &before);
            }
        }
    }
}

fn padded(len: usize, mark: u8) -> Vec<u8> {
    let mut scan = scan(len, mark);
    scan.resize(len.next_multiple_of(512), 0);
    scan
}

/// What a slot shows.
type Shown = Option<Vec<u8>>;

/// What each slot of the file shows.
fn shown(folder: &Path) -> Vec<Shown> {
    let show = |slot: u64| {
        let output = run(folder, &["show", "f.sdd", &slot.to_string()]);
        match output.status.code() {
            Some(0) => Some(output.stdout),
            Some(10) => None,
            other => panic!("slot {slot} ended with {other:?}"),
        }
    };
    (1..=16).map(show).collect()
}

/// The used number and the slots that the program lists.
fn listed(folder: &Path) -> (u64, Vec<u64>) {
    let list = wrote(folder, &["list", "f.sdd"]);
    let (head, scans) = list.split_once('\n').unwrap();
    let slots = scans.lines().map(|line| line.split(' ').next().unwrap().parse().unwrap()).collect();
    (head.split(' ').nth(3).unwrap().parse().unwrap(), slots)
}

/// Holds the file to demand 3 after a cut.
fn demand_three(folder: &Path, cut: &Cut, written: u64, before: &[Shown]) {
    let now = shown(folder);
    for (i, (was, is)) in before.iter().zip(&now).enumerate() {
        let wanted = if i as u64 + 1 == cut.slot && written >= cut.reached { &cut.after } else { was };
        assert!(is == wanted, "{:?} cut after {written} records: slot {} shows something else", cut.words, i + 1);
    }
    let wanted: Vec<u64> = (1..).zip(&now).filter(|(_, scan)| scan.is_some()).map(|(slot, _)| slot).collect();
    let (used, slots) = listed(folder);
    assert_eq!(slots, wanted);
    let highest = slots.last().copied().unwrap_or(0);
    assert!(used >= highest, "{:?} cut after {written} records: U is {used}, slot {highest} has a scan", cut.words);
    let said = wrote(folder, &["check", "f.sdd"]).contains("sets it right");
    assert_eq!(said, used > highest, "{:?} cut after {written} records: U is {used}", cut.words);
    left(folder);
}

/// Which records of the file have bytes and belong to no scan, by its bytes and its list alone: N+1 to N+D are asked about.
fn left_in(folder: &Path, name: &str) -> Vec<usize> {
    let bytes = fs::read(folder.join(name)).unwrap();
    let word = |at: usize| u32::from_be_bytes(bytes[at..at + 4].try_into().unwrap()) as usize;
    let list = wrote(folder, &["list", name]);
    let runs: Vec<Vec<usize>> =
        list.lines().skip(1).map(|line| line.split(' ').map(|number| number.parse().unwrap()).collect()).collect();
    let is_free = |record: &usize| !runs.iter().any(|run| (run[1]..=run[2]).contains(record));
    let is_zeros = |record: &usize| bytes[(record - 1) * 512..record * 512].iter().all(|byte| *byte == 0);
    (word(0) + 1..=word(0) + word(4)).filter(is_free).filter(|record| !is_zeros(record)).collect()
}

/// How many there are. The program has to say that number, and no more than zeros where it is 0.
fn left(folder: &Path) -> usize {
    let left = left_in(folder, "f.sdd").len();
    let json = wrote(folder, &["check", "f.sdd", "--json"]);
    let wanted = format!(",\"gaps-zero\":{},\"records-not-zero\":{left},", left == 0);
    assert!(json.contains(&wanted), "{left} records are left: {json}");
    left
}

/// Holds U to the highest slot with a scan, or 0: so it is after every confirmed job.
fn used_is_highest(folder: &Path, words: &[&str]) {
    let (used, slots) = listed(folder);
    assert_eq!(used, slots.last().copied().unwrap_or(0), "after {words:?}");
}

#[test]
fn a_job_that_stops_itself_after_each_record() {
    each_cut("stops_itself", |folder, cut, written| cut.stop_after(folder, written), demand_three);
}

#[test]
fn a_job_that_is_killed_after_each_record() {
    let kill = |folder: &Path, cut: &Cut, written| {
        assert_eq!(held(folder, &cut.words(), written).cut().signal(), Some(libc::SIGKILL));
    };
    each_cut("is_killed", kill, demand_three);
}

#[test]
fn a_job_that_is_not_cut() {
    for (ground, make, cuts) in GROUNDS {
        let folder = folder(&format!("not_cut_{ground}"));
        make(&folder);
        let (file, before) = (fs::read(folder.join("f.sdd")).unwrap(), shown(&folder));
        for cut in cuts(&folder) {
            fs::write(folder.join("f.sdd"), &file).unwrap();
            let printed = wrote(&folder, &cut.words());
            let records: Vec<&str> = printed.lines().filter(|line| line.starts_with("record ")).collect();
            assert_eq!(records.len() as u64, cut.writes, "{:?}: {printed}", cut.words);
            demand_three(&folder, &cut, cut.writes, &before);
            used_is_highest(&folder, &cut.words());
            // jobs alone that were confirmed leave nothing; what an earlier cut has left they do not take away
            assert!(ground == "high" || left(&folder) == 0, "{:?}", cut.words);
        }
    }
}

#[test]
fn a_job_that_is_killed_at_any_time() {
    let folder = folder("any_time");
    busy_file(&folder);
    let (file, before) = (fs::read(folder.join("f.sdd")).unwrap(), shown(&folder));
    for cut in busy_cuts(&folder).into_iter().filter(|cut| [1, 9].contains(&cut.slot)) {
        for turn in 0..40u64 {
            fs::write(folder.join("f.sdd"), &file).unwrap();
            let mut child = rinzo(&folder).args(&cut.words).stdout(Stdio::null()).spawn().unwrap();
            std::thread::sleep(Duration::from_micros(turn * turn * 23));
            child.kill().unwrap();
            child.wait().unwrap();
            let written = if shown(&folder)[cut.slot as usize - 1] == cut.after { cut.reached } else { 0 };
            demand_three(&folder, &cut, written, &before);
        }
    }
}

#[test]
fn a_cut_job_can_be_done_again() {
    let folder = folder("done_again");
    busy_file(&folder);
    for cut in busy_cuts(&folder) {
        cut.stop_after(&folder, 1);
        wrote(&folder, &cut.words());
        assert_eq!(shown(&folder)[cut.slot as usize - 1], cut.after);
        used_is_highest(&folder, &cut.words());
        // what was written of the scan was written over
        assert_eq!(left(&folder), 0, "{:?}", cut.words);
    }
}

/// How many records are left after 0, 1, 2 .. records of a job on a file of the drill.
fn left_along(name: &str, make: fn(&Path), cuts: fn(&Path) -> Vec<Cut>, which: usize) -> Vec<usize> {
    let folder = folder(&format!("left_{name}_{which}"));
    make(&folder);
    let (file, cut) = (fs::read(folder.join("f.sdd")).unwrap(), cuts(&folder).remove(which));
    let after = |written| {
        fs::write(folder.join("f.sdd"), &file).unwrap();
        cut.stop_after(&folder, written);
        left(&folder)
    };
    (0..=cut.writes).map(after).collect()
}

#[test]
fn what_is_left_along_a_job() {
    // a scan of three records, of which two lie in the data section as it was: the third is asked about once record 1
    // says that it is one; with the index record they are the scan's
    assert_eq!(left_along("busy", busy_file, busy_cuts, 0), [0, 1, 2, 2, 3, 0]);
    assert_eq!(left_along("busy", busy_file, busy_cuts, 2), [0, 1, 2, 2, 3, 0]);
    // over a scan of two: these are left from the index record on, and become zeros one by one
    assert_eq!(left_along("busy", busy_file, busy_cuts, 1), [0, 1, 2, 2, 2, 4, 2, 1, 0]);
    // clears: of three records with U lowered before the zeros, and of one
    assert_eq!(left_along("busy", busy_file, busy_cuts, 3), [0, 0, 3, 3, 2, 1, 0]);
    assert_eq!(left_along("busy", busy_file, busy_cuts, 4), [0, 0, 1, 0]);
    assert_eq!(left_along("lone", lone_file, lone_cuts, 0), [0, 0, 2, 2, 1, 0]);
    // what another cut has left stays, but where a scan is written over it
    assert_eq!(left_along("high", high_file, high_cuts, 0), [3, 3, 4, 4, 3]);
    assert_eq!(left_along("high", high_file, high_cuts, 1), [3, 3, 5, 4, 3]);
    assert_eq!(left_along("high", high_file, high_cuts, 2), [3, 3, 3, 2]);
}

#[test]
fn no_later_job_removes_what_is_left_and_a_sweep_does() {
    let folder = folder("left_stays");
    busy_file(&folder);
    let cut = busy_cuts(&folder).remove(1);
    cut.stop_after(&folder, cut.reached);
    assert_eq!(left_in(&folder, "f.sdd"), [4, 5]);
    wrote(&folder, &cut.words());
    assert_eq!(left_in(&folder, "f.sdd"), [4, 5]);
    wrote(&folder, &["clear", "f.sdd", "1", "--yes"]);
    assert_eq!(left_in(&folder, "f.sdd"), [4, 5]);
    wrote(&folder, &["sweep", "f.sdd", "g.sdd"]);
    assert!(left_in(&folder, "g.sdd").is_empty() && left(&folder) == 2);
}

#[test]
fn what_a_cut_leaves_is_swept() {
    each_cut(
        "swept",
        |folder, cut, written| cut.stop_after(folder, written),
        |folder, cut, written, _| {
            let (mut wanted, left) = (fs::read(folder.join("f.sdd")).unwrap(), left_in(folder, "f.sdd"));
            let said = wrote(folder, &["sweep", "f.sdd", "g.sdd", "--force", "--json"]);
            assert!(said.contains(&format!("\"records-zeroed\":{},", left.len())), "{said}");
            for record in left {
                wanted[(record - 1) * 512..record * 512].fill(0);
            }
            // and all past the data section, where a save that is cut before its record 1 leaves its scan
            let word = |at: usize| u32::from_be_bytes(wanted[at..at + 4].try_into().unwrap()) as usize;
            let end = (word(0) + word(4)) * 512;
            wanted[end..].fill(0);
            let swept = fs::read(folder.join("g.sdd")).unwrap();
            assert!(swept == wanted, "{:?} cut after {written} records, and swept", cut.words);
            let json = wrote(folder, &["check", "g.sdd", "--json"]);
            assert!(json.contains(",\"gaps-zero\":true,\"records-not-zero\":0,"), "{json}");
        },
    );
}

/// U after 0, 1, 2 .. records of a job on a file of the drill.
fn used_along(name: &str, make: fn(&Path), cut: &Cut) -> Vec<u64> {
    let folder = folder(&format!("used_{name}_{}", cut.slot));
    make(&folder);
    scan_file(&folder, 512, 2);
    let file = fs::read(folder.join("f.sdd")).unwrap();
    let after = |written| {
        fs::write(folder.join("f.sdd"), &file).unwrap();
        cut.stop_after(&folder, written);
        listed(&folder).0
    };
    (0..=cut.writes).map(after).collect()
}

#[test]
fn the_used_number_along_a_job() {
    // of the highest slot it is lowered last, once the entry is empty: to what is left, or to 0
    assert_eq!(used_along("busy", busy_file, &Cut::clear(9, true, 3)), [9, 9, 9, 2, 2, 2, 2]);
    assert_eq!(used_along("lone", lone_file, &Cut::clear(12, true, 2)), [12, 12, 12, 0, 0, 0]);
    // of another slot it stays
    assert_eq!(used_along("busy", busy_file, &Cut::clear(2, false, 1)), [9, 9, 9, 9]);
    // one that is too high is lowered by the first record 1 already
    assert_eq!(used_along("high", high_file, &Cut::clear(2, true, 1)), [9, 2, 2, 1, 1]);
    assert_eq!(used_along("high", high_file, &Cut::clear(1, false, 2)), [9, 2, 2, 2, 2]);
    let save = |slot: u64| Cut::save(&["save", "f.sdd", &slot.to_string(), "scan-512-2"], slot, 512, 2);
    assert_eq!(used_along("high", high_file, &save(4)), [9, 9, 4, 4]);
    assert_eq!(used_along("busy", busy_file, &save(4)), [9, 9, 9, 9]);
}

#[test]
fn the_third_write_of_a_clear_changes_the_used_number_alone() {
    let folder = folder("third_write");
    busy_file(&folder);
    let mut file = fs::read(folder.join("f.sdd")).unwrap();
    // what follows word 8 is kept by every write
    file[32..512].fill(0xa5);
    let after = |written| {
        fs::write(folder.join("f.sdd"), &file).unwrap();
        Cut::clear(9, true, 3).stop_after(&folder, written);
        fs::read(folder.join("f.sdd")).unwrap()
    };
    let (first, second, mut third) = (after(1), after(2), after(3));
    assert_eq!(third[16..20], 2u32.to_be_bytes());
    third[16..20].copy_from_slice(&second[16..20]);
    assert!(third == second, "more than U differs");
    // the first write is the one that counts
    assert_eq!(u32::from(first[23]), u32::from(file[23]) + 1);
    assert!(second[..512] == first[..512] && second[32..512] == file[32..512]);
}

#[test]
fn another_job_after_a_cut_sets_the_used_number_right() {
    each_cut(
        "set_right",
        |folder, cut, written| cut.stop_after(folder, written),
        |folder, cut, written, _| {
            let (left, slots) = (fs::read(folder.join("f.sdd")).unwrap(), listed(folder).1);
            let name = scan_file(folder, 512, 8);
            let mut jobs = vec![owned(&["save", "f.sdd", "5", &name]), owned(&["keep", "f.sdd", &name])];
            // the lowest and the highest scan that is left, which may be the same
            let ends = [slots.first(), slots.last()].into_iter().flatten();
            jobs.extend(ends.map(|slot| owned(&["clear", "f.sdd", &slot.to_string(), "--yes"])));
            for job in jobs {
                fs::write(folder.join("f.sdd"), &left).unwrap();
                let words: Vec<&str> = job.iter().map(String::as_str).collect();
                wrote(folder, &words);
                used_is_highest(folder, &[&cut.words()[..], &["cut after", &written.to_string()], &words].concat());
            }
        },
    );
}

#[test]
fn a_job_has_the_file_alone() {
    let folder = folder("alone");
    busy_file(&folder);
    let name = scan_file(&folder, 512, 7);
    let job = held(&folder, &["save", "f.sdd", "3", &name], 1);
    for words in [
        &["save", "f.sdd", "5", &name][..],
        &["keep", "f.sdd", &name],
        &["clear", "f.sdd", "1", "--yes"],
        &["blank", "f.sdd", "--force"],
    ] {
        let (status, said) = refused(&folder, words);
        assert_eq!(status, 75, "{words:?}: {said}");
        assert!(said.contains("another program works on"), "{said}");
    }
    // a reader waits for the job's end
    let reader = rinzo(&folder).args(["list", "f.sdd"]).stdout(Stdio::piped()).spawn().unwrap();
    std::thread::sleep(Duration::from_millis(100));
    job.cut();
    let listed = reader.wait_with_output().unwrap();
    assert_eq!(String::from_utf8_lossy(&listed.stdout), "slots 16 used 9 scans 3\n1 4 5\n2 6 6\n9 7 9\n");
}

/// Runs a save under a limit on file sizes: a write that reaches it is short, one past it fails.
fn save_under_limit(folder: &Path, words: &[&str], limit: u64) -> (i32, String) {
    let limits = libc::rlimit { rlim_cur: limit, rlim_max: limit };
    let mut command = rinzo(folder);
    command.args(words);
    // SAFETY: setrlimit may be called between fork and exec.
    unsafe {
        command.pre_exec(move || {
            if libc::setrlimit(libc::RLIMIT_FSIZE, &limits) == 0 {
                Ok(())
            } else {
                Err(std::io::Error::last_os_error())
            }
        });
    }
    let output = command.output().unwrap();
    assert!(!String::from_utf8_lossy(&output.stdout).contains("saved"));
    (output.status.code().unwrap(), common::said(&output))
}

#[test]
fn a_short_write_drops_the_job() {
    let folder = folder("short_write");
    paper_file(&folder);
    let (first, second) = (scan_file(&folder, 1_000, 1), scan_file(&folder, 1_000, 2));
    // record 5 is bytes 2048 to 2560: half of it fits
    let (status, said) = save_under_limit(&folder, &["save", "f.sdd", "1", &first], 2_048 + 256);
    assert_eq!(status, 74);
    assert!(said.contains("record 5 could not be written: 256 of 512 bytes were written"), "{said}");
    assert!(said.contains("The job is dropped; slot 1 is empty as before"), "{said}");
    assert_eq!(wrote(&folder, &["list", "f.sdd"]), "slots 16 used 0 scans 0\n");

    wrote(&folder, &["save", "f.sdd", "1", &first]);
    let (status, said) = save_under_limit(&folder, &["save", "f.sdd", "1", &second, "--replace"], 3_072 - 1);
    assert_eq!(status, 74);
    assert!(said.contains("511 of 512 bytes were written"), "{said}");
    assert!(said.contains("slot 1 shows the scan that it had before"), "{said}");
    assert_eq!(run(&folder, &["read", "f.sdd", "1"]).stdout, scan(1_000, 1));
}

#[test]
fn a_failed_write_drops_the_job() {
    let folder = folder("failed_write");
    paper_file(&folder);
    let name = scan_file(&folder, 512, 1);
    let (status, said) = save_under_limit(&folder, &["keep", "f.sdd", &name], 1_536);
    assert_eq!(status, 74);
    assert!(said.contains("record 4 could not be written"), "{said}");
    assert_eq!(wrote(&folder, &["list", "f.sdd"]), "slots 16 used 0 scans 0\n");
}

/// The words at the end of a job of which two records of the old scan are left.
const OLD_IS_LEFT: &str = "; 2 of 2 records of the old scan can still be read: to save or clear again does not remove them, and `rinzo sweep f.sdd NEW` makes a copy of the file without them";

/// A system under which records of zeros are lost, or one of them fails.
#[test]
fn zeros_that_do_not_come_to_the_device_are_not_believed() {
    let folder = folder("lost_zeros");
    paper_file(&folder);
    wrote(&folder, &["save", "f.sdd", "1", &scan_file(&folder, 1_000, 1)]);
    let (file, two) = (fs::read(folder.join("f.sdd")).unwrap(), scan_file(&folder, 1_000, 2));
    let losing = "#define _GNU_SOURCE
#include <dlfcn.h>
#include <string.h>
#include <unistd.h>
typedef ssize_t call(int fd, const void *at, size_t len, off_t from);
ssize_t pwrite64(int fd, const void *at, size_t len, off_t from) {
  static const char zeros[4096];
  call *own = (call *)dlsym(RTLD_NEXT, \"pwrite64\");
  return len <= sizeof zeros && memcmp(at, zeros, len) == 0 ? (ssize_t)len : own(fd, at, len, from);
}
";
    for (lines, status, why) in [
        (losing.to_string(), 15, "rinzo: refused 15: f.sdd: "),
        (failing("pwrite64", 5), 74, "rinzo: f.sdd: record 4 could not be written: "),
        // its flush, when it is written already
        (failing("fdatasync", 5), 74, "rinzo: f.sdd: record 4 could not be written: "),
    ] {
        fs::write(folder.join("f.sdd"), &file).unwrap();
        let mut command = rinzo(&folder);
        command.args(["save", "f.sdd", "1", &two, "--replace"]).env("LD_PRELOAD", shim(&folder, &lines));
        let output = command.output().unwrap();
        assert_eq!(output.status.code(), Some(status), "{}", said(&output));
        assert!(!String::from_utf8_lossy(&output.stdout).contains("saved"));
        let left =
            if lines.contains("fdatasync") { OLD_IS_LEFT.replacen("2 of", "1 of", 1) } else { OLD_IS_LEFT.into() };
        let said = said(&output);
        assert!(said.starts_with(why) && said.trim_end().ends_with(&left), "{said}");
        assert_eq!(run(&folder, &["read", "f.sdd", "1"]).stdout, scan(1_000, 2));
    }
}
