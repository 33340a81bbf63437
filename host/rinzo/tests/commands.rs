//! The commands on real files: the paper's run, refusals, statuses and forms of output.

mod common;

use common::{folder, paper_file, refused, rinzo, run, said, scan_file, wrote};
use sample::scan;
use std::fs;
use std::io::Write;
use std::path::Path;
use std::process::Stdio;

/// The records that a job says it wrote.
fn records(output: &str) -> Vec<u64> {
    output.lines().filter_map(|line| line.strip_prefix("record ")?.split(' ').next()?.parse().ok()).collect()
}

#[test]
fn the_papers_run() {
    let folder = folder("papers_run");
    paper_file(&folder);
    let (long, short) = (scan_file(&folder, 1_000, 1), scan_file(&folder, 512, 2));
    let again = scan_file(&folder, 1_000, 3);

    let saved = wrote(&folder, &["save", "f.sdd", "1", &long]);
    assert_eq!(records(&saved), [4, 5, 1, 2]);
    assert!(saved.ends_with("saved: slot 1 first 4 last 5\n"), "{saved}");
    assert_eq!(records(&wrote(&folder, &["save", "f.sdd", "9", &short])), [6, 1, 3]);
    assert_eq!(records(&wrote(&folder, &["save", "f.sdd", "1", &again, "--replace"])), [7, 8, 1, 2, 4, 5]);
    assert_eq!(wrote(&folder, &["list", "f.sdd"]), "slots 16 used 9 scans 2\n1 7 8\n9 6 6\n");

    let two = scan_file(&folder, 1_024, 4);
    assert_eq!(records(&wrote(&folder, &["save", "f.sdd", "2", &two])), [4, 5, 1, 2]);
    let (status, said) = refused(&folder, &["save", "f.sdd", "3", &short]);
    assert_eq!(status, 13);
    assert!(said.starts_with("rinzo: refused 13: "), "{said}");
}

#[test]
fn a_clear_of_the_highest_slot_writes_record_1_twice() {
    let folder = folder("clear_writes");
    paper_file(&folder);
    let name = scan_file(&folder, 512, 1);
    for slot in ["1", "3", "9"] {
        wrote(&folder, &["save", "f.sdd", slot, &name]);
    }
    let counter = || wrote(&folder, &["check", "f.sdd"]).split("counter ").nth(1).unwrap().chars().next();
    assert_eq!(counter(), Some('3'));
    let cleared = wrote(&folder, &["clear", "f.sdd", "9", "--yes"]);
    let lines = "record 1 written (1 of 4)\nrecord 3 written (2 of 4)\nrecord 1 written (3 of 4)\n";
    let lines = lines.to_string() + "record 6 written with zeros over the old scan (4 of 4)\n";
    assert!(cleared.starts_with(&lines) && cleared.contains("\ncleared: slot 9, held "), "{cleared}");
    assert_eq!(wrote(&folder, &["list", "f.sdd"]), "slots 16 used 3 scans 2\n1 4 4\n3 5 5\n");
    // the counter goes up once
    assert_eq!(counter(), Some('4'));
    // another slot: two records and the zeros, and U stays
    assert_eq!(records(&wrote(&folder, &["clear", "f.sdd", "1", "--yes"])), [1, 2, 4]);
    assert_eq!(wrote(&folder, &["list", "f.sdd"]), "slots 16 used 3 scans 1\n3 5 5\n");
    // the only one
    let cleared = wrote(&folder, &["clear", "f.sdd", "3", "--yes", "--json"]);
    assert!(
        cleared.contains("\n{\"event\":\"record\",\"record\":1,\"written\":3,\"of\":4,\"zeros\":false}\n"),
        "{cleared}"
    );
    assert!(
        cleared.contains("\n{\"event\":\"record\",\"record\":5,\"written\":4,\"of\":4,\"zeros\":true}\n"),
        "{cleared}"
    );
    assert_eq!(wrote(&folder, &["list", "f.sdd"]), "slots 16 used 0 scans 0\n");
    assert_eq!(counter(), Some('6'));
}

#[test]
fn what_is_saved_is_read_and_shown() {
    let folder = folder("read_and_shown");
    paper_file(&folder);
    let name = scan_file(&folder, 700, 9);
    wrote(&folder, &["keep", "f.sdd", &name]);
    let read = run(&folder, &["read", "f.sdd", "1"]).stdout;
    assert_eq!(read, scan(700, 9));
    let shown = run(&folder, &["show", "f.sdd", "1"]).stdout;
    assert_eq!(shown[..700], read[..]);
    assert_eq!(shown[700..], [0; 324]);

    wrote(&folder, &["read", "f.sdd", "1", "--out", "out"]);
    assert_eq!(fs::read(folder.join("out")).unwrap(), read);
    let classes = wrote(&folder, &["classes", "f.sdd", "1"]);
    assert!(classes.contains("class 13     248    256      8"), "{classes}");
    assert!(classes.contains("data         256    700    444"), "{classes}");
}

#[test]
fn no_file_is_overwritten_by_surprise() {
    let folder = folder("no_surprise");
    paper_file(&folder);
    let name = scan_file(&folder, 512, 1);
    wrote(&folder, &["keep", "f.sdd", &name]);
    let before = fs::read(folder.join("f.sdd")).unwrap();

    assert_eq!(refused(&folder, &["blank", "f.sdd"]).0, 73);
    fs::write(folder.join("old"), "old").unwrap();
    assert_eq!(refused(&folder, &["read", "f.sdd", "1", "--out", "old"]).0, 73);
    assert_eq!(fs::read(folder.join("old")).unwrap(), b"old");
    assert_eq!(refused(&folder, &["read", "f.sdd", "1", "--out", "f.sdd", "--force"]).0, 73);
    assert_eq!(fs::read(folder.join("f.sdd")).unwrap(), before);

    wrote(&folder, &["read", "f.sdd", "1", "--out", "old", "--force"]);
    assert_eq!(fs::read(folder.join("old")).unwrap(), scan(512, 1));
    assert_eq!(refused(&folder, &["demo", "f.sdd"]).0, 73);
}

#[test]
fn blank_by_force_keeps_the_length_and_what_lies_beyond() {
    let folder = folder("by_force");
    fs::write(folder.join("f.sdd"), vec![7; 5_000]).unwrap();
    wrote(&folder, &["blank", "f.sdd", "--n", "2", "--l", "512", "--room", "3", "--force"]);
    let bytes = fs::read(folder.join("f.sdd")).unwrap();
    assert_eq!(bytes.len(), 5_000);
    assert!(bytes[1_024..].iter().all(|byte| *byte == 7));
    assert_eq!(wrote(&folder, &["list", "f.sdd"]), "slots 8 used 0 scans 0\n");
    // a longer room makes it longer
    wrote(&folder, &["blank", "f.sdd", "--n", "2", "--l", "512", "--room", "20", "--force"]);
    assert_eq!(fs::metadata(folder.join("f.sdd")).unwrap().len(), 20 * 512);
}

#[test]
fn a_refused_blank_makes_no_file() {
    let folder = folder("refused_blank");
    for words in [
        ["--n", "514"],
        ["--n", "1"],
        ["--l", "511"],
        ["--m", "63"],
        ["--m", "96"],
        ["--room", "1"],
        ["--l", "18446744073709551615"],
    ] {
        assert_eq!(refused(&folder, &[&["blank", "f.sdd"], &words[..]].concat()).0, 16, "{words:?}");
    }
    assert!(!folder.join("f.sdd").exists());
}

#[test]
fn refusals_are_the_status_and_a_sentence() {
    let folder = folder("refusals");
    paper_file(&folder);
    let good = fs::read(folder.join("f.sdd")).unwrap();
    let name = scan_file(&folder, 512, 1);
    let with = |at: usize, byte: u8| {
        let mut bytes = good.clone();
        bytes[at] = byte;
        bytes
    };
    let files = [(1, good[..511].to_vec()), (3, with(31, 2)), (4, with(27, 2)), (5, with(7, 6)), (7, with(512 + 3, 4))];
    for (number, bytes) in files {
        fs::write(folder.join("bad.sdd"), bytes).unwrap();
        for words in [["list", "bad.sdd"], ["check", "bad.sdd"]] {
            let (status, said) = refused(&folder, &words);
            assert_eq!(status, number);
            assert!(said.starts_with(&format!("rinzo: refused {number}")), "{said}");
        }
    }
    assert!(refused(&folder, &["list", "bad.sdd"]).1.contains("refused 7 slot 1: "));
    assert_eq!(refused(&folder, &["entry", "f.sdd", "17"]).0, 9);
    assert_eq!(refused(&folder, &["entry", "f.sdd", "0"]).0, 9);
    assert_eq!(refused(&folder, &["read", "f.sdd", "1", "--out", "x"]).0, 10);
    assert_eq!(refused(&folder, &["clear", "f.sdd", "1"]).0, 10);
    fs::write(folder.join("half"), &scan(512, 1)[..500]).unwrap();
    let (status, said) = refused(&folder, &["save", "f.sdd", "1", "half"]);
    assert_eq!(status, 11);
    assert!(said.contains("rule 5"), "{said}");
    fs::write(folder.join("long"), vec![0; 70_000]).unwrap();
    assert!(refused(&folder, &["keep", "f.sdd", "long"]).1.contains("rule 1"));
    for _ in 0..5 {
        wrote(&folder, &["keep", "f.sdd", &name, "--again"]);
    }
    assert_eq!(refused(&folder, &["keep", "f.sdd", &name, "--again"]).0, 13);
}

#[test]
fn a_full_index_is_refusal_12() {
    let folder = folder("full_index");
    wrote(&folder, &["blank", "f.sdd", "--n", "2", "--l", "512", "--m", "512", "--room", "8"]);
    let (name, other) = (scan_file(&folder, 512, 1), scan_file(&folder, 512, 2));
    wrote(&folder, &["keep", "f.sdd", &name]);
    assert_eq!(refused(&folder, &["keep", "f.sdd", &other]).0, 12);
}

#[test]
fn wrong_usage_is_64_and_says_what_is_wrong() {
    let folder = folder("usage");
    paper_file(&folder);
    let wrong: [(&[&str], &str); 17] = [
        (&[], "no command"),
        (&["wash"], "wash is no command. `rinzo --help`"),
        (&["lst"], "lst is no command; did you mean list? `rinzo --help`"),
        (&["help", "calsses"], "did you mean classes?"),
        (&["keep", "f.sdd", "scan", "--sorce", "ORION"], "--sorce is no option of keep; did you mean --source?"),
        (&["completion", "bsh"], "bsh is none; did you mean bash?"),
        (&["list", "f.sdd", "-x"], "-x is no option of list"),
        (&["entry", "f.sdd", "--", "--help"], "SLOT is a whole number from 1 on, and --help is none"),
        (&["list"], "FILE is missing"),
        (&["entry", "f.sdd", "1", "2"], "one word too many"),
        (&["list", "f.sdd", "--lon"], "--lon is no option of list; did you mean --long?"),
        (&["entry", "f.sdd", "one"], "SLOT is a whole number from 1 on, and one is none"),
        (&["entry", "f.sdd", "-1"], "-1 is below zero"),
        (&["blank", "g.sdd", "--n"], "--n wants a value"),
        (&["blank", "g.sdd", "--n", "x"], "--n wants a whole number"),
        (&["list", "f.sdd", "--long=1"], "--long takes no value"),
        (&["list", "f.sdd", "--long", "--long"], "given twice"),
    ];
    for (words, part) in wrong {
        let (status, said) = refused(&folder, words);
        assert_eq!(status, 64, "{words:?}");
        assert!(said.contains(part), "{words:?}: {said}");
    }
    assert!(!folder.join("g.sdd").exists());
    let json = run(&folder, &["read", "f.sdd", "1", "--json"]);
    assert_eq!(json.status.code(), Some(64));
    assert!(String::from_utf8_lossy(&json.stdout).contains("give --out FILE"));
}

#[test]
fn wrong_entries_are_wrong_usage() {
    let folder = folder("wrong_entries");
    paper_file(&folder);
    let name = scan_file(&folder, 512, 1);
    fs::write(folder.join("short"), [0; 53]).unwrap();
    fs::write(folder.join("right"), [0; 54]).unwrap();
    let wrong: [&[&str]; 7] = [
        &["--source", "a name of 17 chrs"],
        &["--mode", "40000"],
        &["--lst", "noon"],
        &["--rest", "1420", "--rate", "1"],
        &["--mode", "300", "--resolution", "1"],
        &["--about", "short"],
        &["--about", "right", "--lst", "1"],
    ];
    for words in wrong {
        assert_eq!(refused(&folder, &[&["keep", "f.sdd", &name], words].concat()).0, 64, "{words:?}");
    }
    assert!(wrote(&folder, &["list", "f.sdd"]).contains("scans 0"));
}

#[test]
fn an_entry_is_kept_as_it_was_given() {
    let folder = folder("entry_kept");
    paper_file(&folder);
    let name = scan_file(&folder, 512, 1);
    wrote(
        &folder,
        &[
            "save",
            "f.sdd",
            "1",
            &name,
            "--source",
            "ORION A",
            "--mode=513",
            "--rest",
            "1420.4",
            "--horizontal",
            "0x7fc00001",
            "--number",
            "-1",
        ],
    );
    let entry = wrote(&folder, &["entry", "f.sdd", "1"]);
    for line in [
        "source           ORION A",
        "rest-frequency   1420.4",
        "horizontal       NaN (bits 7fc00001)",
        "number           -1",
    ] {
        assert!(entry.lines().any(|has| has == line), "{entry}");
    }
    let json = wrote(&folder, &["entry", "f.sdd", "1", "--json"]);
    assert!(json.contains("\"horizontal\":{\"bits\":\"7fc00001\",\"value\":null}"), "{json}");
    assert!(json.contains("\"kind\":\"spectral-line\",\"mode\":513,\"source\":\"ORION A\""), "{json}");

    let about: Vec<u8> = (1..=54).collect();
    fs::write(folder.join("about"), &about).unwrap();
    wrote(&folder, &["save", "f.sdd", "2", &name, "--about", "about"]);
    let bytes = fs::read(folder.join("f.sdd")).unwrap();
    assert_eq!(bytes[512 + 64 + 8..][..54], about);
}

#[test]
fn a_scan_comes_from_standard_input_too() {
    let folder = folder("standard_input");
    paper_file(&folder);
    let mut child =
        rinzo(&folder).args(["keep", "f.sdd", "-"]).stdin(Stdio::piped()).stdout(Stdio::null()).spawn().unwrap();
    child.stdin.take().unwrap().write_all(&scan(600, 5)).unwrap();
    assert!(child.wait().unwrap().success());
    assert_eq!(run(&folder, &["read", "f.sdd", "1"]).stdout, scan(600, 5));
}

#[test]
fn programs_get_json() {
    let folder = folder("json");
    paper_file(&folder);
    let name = scan_file(&folder, 512, 1);
    let saved = wrote(&folder, &["save", "f.sdd", "3", &name, "--json"]);
    let lines: Vec<&str> = saved.lines().collect();
    assert_eq!(lines[0], "{\"event\":\"record\",\"record\":4,\"written\":1,\"of\":3,\"zeros\":false}");
    assert_eq!(lines[4], "{\"event\":\"saved\",\"slot\":3,\"first\":4,\"last\":4}");
    assert_eq!(
        wrote(&folder, &["list", "f.sdd", "--json"]),
        "{\"file\":\"f.sdd\",\"form\":\"current\",\"slots\":16,\"used\":3,\"scans\":[{\"slot\":3,\"first\":4,\"last\":4}]}\n"
    );
    let output = run(&folder, &["clear", "f.sdd", "2", "--json"]);
    assert_eq!(output.status.code(), Some(10));
    assert!(
        String::from_utf8(output.stdout)
            .unwrap()
            .starts_with("{\"refused\":10,\"slot\":2,\"file\":\"f.sdd\",\"sentence\":")
    );
    assert!(output.stderr.is_empty());
    assert!(
        wrote(&folder, &["check", "f.sdd", "--json"])
            .starts_with("{\"file\":\"f.sdd\",\"form\":\"current\",\"n\":3,\"d\":1,\"l\":512,")
    );
    let cleared = wrote(&folder, &["clear", "f.sdd", "3", "--yes", "--json"]);
    assert!(cleared.contains("\n{\"event\":\"cleared\",\"slot\":3,\"held\":{\"source\":\"\","), "{cleared}");
}

#[test]
fn help_is_everywhere() {
    let folder = folder("help");
    assert!(wrote(&folder, &["--help"]).contains("usage: rinzo COMMAND"));
    let commands = ["blank", "check", "list", "entry", "classes", "show", "read", "save", "keep", "clear", "demo"];
    for command in commands.into_iter().chain(["completion", "manual", "install", "convert", "sweep"]) {
        for words in [&[command, "--help"][..], &["help", command], &[command, "x", "-h"]] {
            assert!(wrote(&folder, words).starts_with(&format!("usage: rinzo {command} ")));
        }
    }
}

#[test]
fn help_groups_the_commands() {
    let help = wrote(&folder("help_groups"), &["--help"]);
    let groups: Vec<&str> = help.split("\n\n").collect();
    for (heading, commands) in [
        ("look at a file:", &["list", "check", "entry", "classes", "show", "read", "find"][..]),
        ("change a file:", &["save", "keep", "clear"]),
        (
            "make a file, and what goes with the program:",
            &["blank", "convert", "sweep", "demo", "install", "completion", "manual"],
        ),
    ] {
        let group = groups.iter().find(|group| group.starts_with(heading)).unwrap_or_else(|| panic!("{help}"));
        let named: Vec<&str> = group.lines().skip(1).map(|line| line.trim().split(' ').next().unwrap()).collect();
        assert_eq!(named, commands);
    }
}

#[test]
fn two_dashes_end_the_options() {
    let folder = folder("two_dashes");
    wrote(&folder, &["blank", "--n", "3", "--l", "512", "--room", "8", "--", "--force"]);
    assert_eq!(wrote(&folder, &["list", "--", "--force"]), "slots 16 used 0 scans 0\n");
    fs::write(folder.join("--json"), scan(512, 1)).unwrap();
    assert!(wrote(&folder, &["keep", "--", "--force", "--json"]).ends_with("saved: slot 1 first 4 last 4\n"));
}

#[test]
fn the_demonstration_runs() {
    let folder = folder("demonstration");
    let shown = wrote(&folder, &["demo", "d.sdd"]);
    assert_eq!(shown.matches("\nsaved: ").count(), 2);
    assert!(shown.contains("slots 16 used 2 scans 2"), "{shown}");
    assert_eq!(wrote(&folder, &["list", "d.sdd"]), "slots 16 used 2 scans 2\n1 4 7\n2 8 10\n");
    wrote(&folder, &["demo"]);
    wrote(&folder, &["check", "d.sdd", "--scans"]);
}

#[test]
fn files_that_are_none() {
    let folder = folder("none");
    assert_eq!(refused(&folder, &["list", "nothing"]).0, 66);
    assert_eq!(refused(&folder, &["list", "."]).0, 66);
    assert_eq!(refused(&folder, &["save", "nothing", "1", "nothing"]).0, 66);
    assert_eq!(refused(&folder, &["blank", "no/such/folder"]).0, 66);
    assert!(!folder.join("nothing").exists());
    let made = std::process::Command::new("mkfifo").arg(folder.join("pipe")).status();
    assert!(made.unwrap().success());
    assert_eq!(refused(&folder, &["list", "pipe"]).0, 66);
}

#[test]
fn a_read_only_file_is_read_and_not_changed() {
    use std::os::unix::fs::PermissionsExt;
    use std::os::unix::process::CommandExt;
    let own = folder("read_only");
    paper_file(&own);
    let name = scan_file(&own, 512, 1);
    wrote(&own, &["keep", "f.sdd", &name]);
    // nobody may read it, and root, who may do anything, becomes nobody; the folder and the
    // program are where nobody can reach them
    let reached = std::env::temp_dir().join(format!("rinzo-read-only-{}", std::process::id()));
    fs::create_dir_all(&reached).unwrap();
    for name in ["f.sdd", &name] {
        fs::copy(own.join(name), reached.join(name)).unwrap();
        fs::set_permissions(reached.join(name), fs::Permissions::from_mode(0o444)).unwrap();
    }
    fs::copy(env!("CARGO_BIN_EXE_rinzo"), reached.join("rinzo")).unwrap();
    let as_nobody = |words: &[&str]| {
        let mut command = std::process::Command::new(reached.join("rinzo"));
        command.current_dir(&reached).args(words);
        if fs::metadata("/proc/self").is_ok_and(|about| std::os::unix::fs::MetadataExt::uid(&about) == 0) {
            command.gid(65_534).uid(65_534);
        }
        // a copy that was just written is busy while another test starts a program
        let began = std::time::Instant::now();
        loop {
            match command.output() {
                Err(error)
                    if error.kind() == std::io::ErrorKind::ExecutableFileBusy && began.elapsed().as_secs() < 60 =>
                {
                    std::thread::yield_now()
                }
                other => return other.unwrap(),
            }
        }
    };
    let listed = as_nobody(&["list", "f.sdd"]);
    let changed = as_nobody(&["save", "f.sdd", "2", &name]);
    let now = fs::read(reached.join("f.sdd")).unwrap();
    fs::remove_dir_all(&reached).unwrap();
    assert_eq!(String::from_utf8_lossy(&listed.stdout), "slots 16 used 1 scans 1\n1 4 4\n", "{}", said(&listed));
    assert_eq!(changed.status.code(), Some(77), "{}", said(&changed));
    assert_eq!(now, fs::read(own.join("f.sdd")).unwrap());
}

#[test]
fn a_file_longer_than_what_is_used_keeps_its_tail() {
    let folder = folder("tail");
    paper_file(&folder);
    let mut bytes = fs::read(folder.join("f.sdd")).unwrap();
    bytes.extend([9; 300]);
    fs::write(folder.join("f.sdd"), &bytes).unwrap();
    let name = scan_file(&folder, 2_000, 1);
    wrote(&folder, &["save", "f.sdd", "16", &name]);
    let now = fs::read(folder.join("f.sdd")).unwrap();
    assert_eq!(now.len(), 4_396);
    assert!(now[4_096..].iter().all(|byte| *byte == 9));
}

#[test]
fn where_there_is_no_way_past_memory_it_says_so() {
    let memory = Path::new("/dev/shm");
    if !memory.is_dir() {
        return;
    }
    let folder = memory.join(format!("rinzo-test-{}", std::process::id()));
    fs::create_dir_all(&folder).unwrap();
    let shown = wrote(&folder, &["demo", "d.sdd"]);
    fs::remove_dir_all(&folder).unwrap();
    assert!(shown.contains("the device itself was not seen"), "{shown}");
    assert!(shown.contains("\nsaved: slot 2"), "{shown}");
}

#[test]
fn nobody_reading_the_progress_stops_no_save() {
    let folder = folder("closed_output");
    paper_file(&folder);
    let name = scan_file(&folder, 1_500, 1);
    let mut child = rinzo(&folder).args(["keep", "f.sdd", &name]).stdout(Stdio::piped()).spawn().unwrap();
    drop(child.stdout.take());
    assert!(child.wait().unwrap().success());
    assert_eq!(wrote(&folder, &["list", "f.sdd"]), "slots 16 used 1 scans 1\n1 4 6\n");
}
