//! Blank files: their sectors, their room, and a device that has none.

mod common;

use common::{failing, folder, refused, rinzo, run, said, scan_file, shim, wrote};
use std::fs;

#[test]
fn a_record_is_as_long_as_the_sector_where_that_can_be() {
    let folder = folder("sectors");
    let blanked = wrote(&folder, &["blank", "a.sdd", "--sector", "4096", "--room", "200"]);
    assert!(
        blanked.starts_with("blanked: 1024 slots, 200 records of 4096 bytes on a device with sectors of 4096 bytes, ")
    );
    let blanked = wrote(&folder, &["blank", "b.sdd", "--sector", "512", "--room", "200"]);
    assert!(
        blanked.starts_with("blanked: 1024 slots, 200 records of 512 bytes on a device with sectors of 512 bytes, ")
    );
    // what the system says of the device decides where nothing else does
    let json = wrote(&folder, &["blank", "c.sdd", "--room", "200", "--json"]);
    let is_long = json.contains("\"sector\":4096");
    assert!(json.contains(if is_long { "\"l\":4096" } else { "\"l\":512" }), "{json}");
    assert!(json.contains("\"shares-sectors\":false"), "{json}");
    // an N that makes too many slots of such records says that shorter ones are meant
    let output = run(&folder, &["blank", "d.sdd", "--n", "129", "--sector", "4096", "--room", "200"]);
    assert!(String::from_utf8_lossy(&output.stdout).starts_with("blanked: 1024 slots, 200 records of 512 bytes"));
    assert!(said(&output).contains("give --l 4096 and no --n"), "{}", said(&output));
    assert_eq!(fs::metadata(folder.join("a.sdd")).unwrap().len(), 200 * 4_096);
    wrote(&folder, &["keep", "a.sdd", &scan_file(&folder, 1_000, 1)]);
    assert!(wrote(&folder, &["check", "a.sdd", "--scans"]).contains("\nN 17 D 1 L 4096 M 64 U 1 "));
}

#[test]
fn records_that_share_a_sector_get_a_warning() {
    let folder = folder("shared_sectors");
    for (l, sector, name) in [("512", "4096", "a.sdd"), ("600", "512", "b.sdd"), ("2048", "4096", "c.sdd")] {
        let m = if l == "600" { "100" } else { "64" };
        let words = ["blank", name, "--l", l, "--m", m, "--sector", sector, "--room", "300"];
        let output = run(&folder, &words);
        assert!(output.status.success(), "{}", said(&output));
        let warning = format!("records of {l} bytes on a device with sectors of {sector} bytes share a sector");
        assert!(said(&output).contains(&warning), "{}", said(&output));
        assert!(said(&output).contains(&format!("give --l {sector}")), "{}", said(&output));
        let json = wrote(&folder, &[&words[..], &["--force", "--json"]].concat());
        assert!(json.contains("\"shares-sectors\":true"), "{json}");
    }
    for l in ["512", "1024", "4096"] {
        let output = run(&folder, &["blank", "d.sdd", "--l", l, "--sector", "512", "--room", "300", "--force"]);
        assert!(output.status.success() && output.stderr.is_empty(), "{}", said(&output));
    }
}

#[test]
fn a_room_past_the_most_is_refused() {
    let folder = folder("room");
    for room in ["1000001", "18446744073709551615"] {
        let (status, said) = refused(&folder, &["blank", "f.sdd", "--room", room]);
        assert_eq!(status, 64);
        assert!(said.contains(&format!("--room is at most 1000000 records, and {room} is more")), "{said}");
    }
    let (status, said) = refused(&folder, &["blank", "f.sdd", "--room", "99999999999999999999"]);
    assert!(status == 64 && said.contains("99999999999999999999 is larger than any number"), "{said}");
    assert!(!folder.join("f.sdd").exists());
    wrote(&folder, &["blank", "f.sdd", "--l", "512", "--room", "1000000"]);
}

#[test]
fn a_file_that_could_not_be_made_whole_is_removed() {
    let folder = folder("full_disk");
    // the first write of a record, one in the index, and the last, which is record 1
    for turn in [1, 100, 129] {
        let shim = shim(&folder, &failing("pwrite64", turn));
        let blank = |words: &[&str]| rinzo(&folder).args(words).env("LD_PRELOAD", &shim).output().unwrap();
        let output = blank(&["blank", "f.sdd", "--l", "512"]);
        assert_eq!(output.status.code(), Some(74));
        assert!(said(&output).contains("f.sdd: it could not be blanked: No space left"), "{}", said(&output));
        assert!(said(&output).contains("; it was removed"), "{}", said(&output));
        assert!(!folder.join("f.sdd").exists());
        // a file that was there stays, as long as it was
        fs::write(folder.join("there.sdd"), "").unwrap();
        assert!(said(&blank(&["blank", "there.sdd", "--l", "512"])).contains("; it is empty as before"));
        assert_eq!(fs::read(folder.join("there.sdd")).unwrap(), b"");
        fs::write(folder.join("old.sdd"), "old").unwrap();
        assert!(said(&blank(&["blank", "old.sdd", "--l", "512", "--force"])).contains("do it again with --force"));
        assert!(folder.join("old.sdd").exists());
        fs::remove_file(folder.join("old.sdd")).unwrap();
    }
}

#[test]
fn a_room_that_the_device_does_not_have_leaves_no_file() {
    let folder = folder("no_room");
    let line = format!("trap '' XFSZ; ulimit -f 100; exec '{}' blank f.sdd --l 512", env!("CARGO_BIN_EXE_rinzo"));
    let output = std::process::Command::new("sh").args(["-c", &line]).current_dir(&folder).output().unwrap();
    assert_eq!(output.status.code(), Some(74), "{}", said(&output));
    assert!(said(&output).contains("f.sdd: it could not be given that room"), "{}", said(&output));
    assert!(!folder.join("f.sdd").exists());
}

#[test]
fn a_file_of_zeros_is_called_empty() {
    let folder = folder("zeros");
    fs::write(folder.join("f.sdd"), vec![0; 300_000]).unwrap();
    fs::write(folder.join("scan"), sample::scan(512, 1)).unwrap();
    // the paper has them as an old file without records, which is out of range to look at and old to change
    let looks = [&["list", "f.sdd"][..], &["check", "f.sdd"], &["entry", "f.sdd", "1"]].map(|words| (words, 4));
    let changes = [&["keep", "f.sdd", "scan"][..], &["clear", "f.sdd", "1"]].map(|words| (words, 2));
    for (words, number) in looks.into_iter().chain(changes) {
        let (status, said) = refused(&folder, words);
        assert_eq!(status, number, "{words:?}");
        assert!(said.contains(&format!("refused {number}: f.sdd is empty, all its bytes are zeros")), "{said}");
    }
    // one byte somewhere, and it is what the paper says
    let mut bytes = vec![0; 300_000];
    bytes[299_999] = 1;
    fs::write(folder.join("f.sdd"), bytes).unwrap();
    let (status, said) = refused(&folder, &["list", "f.sdd"]);
    assert!(status == 4 && said.contains("f.sdd: a number in the file's first record is outside"), "{said}");
    let (status, said) = refused(&folder, &["clear", "f.sdd", "1"]);
    assert!(status == 2 && said.contains("f.sdd: the file has the old form"), "{said}");
}
