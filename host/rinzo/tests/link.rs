//! `check -`: standard input is judged as it comes, like the whole file and in little memory.

mod common;

use common::cost;
use common::{folder, paper_file, refused, rinzo, said, scan_file, wrote};
use std::fs::{self, File};
use std::io::{Seek, SeekFrom, Write};
use std::path::Path;
use std::process::{Command, Output, Stdio};

/// The paper's file of 8 records with a scan of two records in slot 9: bootstrap and index are 1,536 bytes of 4,096.
fn with_scan(folder: &Path) -> Vec<u8> {
    paper_file(folder);
    wrote(folder, &["save", "f.sdd", "9", &scan_file(folder, 1_000, 1)]);
    fs::read(folder.join("f.sdd")).unwrap()
}

/// The program with these words, and a file on its standard input.
fn from_file(folder: &Path, file: &str, words: &[&str]) -> Output {
    rinzo(folder).args(words).stdin(File::open(folder.join(file)).unwrap()).output().unwrap()
}

/// The same with bytes that come through a pipe in pieces of this length.
fn piped(folder: &Path, bytes: &[u8], piece: usize, words: &[&str]) -> Output {
    let mut command = rinzo(folder);
    command.args(words).stdin(Stdio::piped()).stdout(Stdio::piped()).stderr(Stdio::piped());
    let mut child = command.spawn().unwrap();
    let mut input = child.stdin.take().unwrap();
    // what is refused for its words reads nothing
    let _ = bytes.chunks(piece).try_for_each(|piece| input.write_all(piece));
    drop(input);
    child.wait_with_output().unwrap()
}

fn printed(output: &Output) -> String {
    assert!(output.status.success(), "{}", said(output));
    assert_eq!(said(output), "");
    String::from_utf8(output.stdout.clone()).unwrap()
}

/// What is printed of that file where this is said of what came.
fn good(came: &str) -> String {
    format!(
        "the index is good: 16 slots; scans were not counted or read, and records of no scan not looked into: for that, check a file\n\
         N 3 D 2 L 512 M 64 U 9 counter 1 type 0 (data), current form\n\
         8 records in all; {came}\n"
    )
}

#[test]
fn a_file_on_standard_input_needs_no_length() {
    let folder = folder("link_file");
    let bytes = with_scan(&folder);
    assert_eq!(printed(&from_file(&folder, "f.sdd", &["check", "-"])), good("all 4096 bytes came"));
    // the line of sizes is the one that a look at the file has
    let line = good("").lines().nth(1).unwrap().to_string();
    assert_eq!(wrote(&folder, &["check", "f.sdd"]).lines().nth(1), Some(line.as_str()));
    // from its place on
    fs::write(folder.join("behind.sdd"), [&[7; 999][..], &bytes].concat()).unwrap();
    let mut file = File::open(folder.join("behind.sdd")).unwrap();
    file.seek(SeekFrom::Start(999)).unwrap();
    let output = rinzo(&folder).args(["check", "-"]).stdin(file).output().unwrap();
    assert_eq!(printed(&output), good("all 4096 bytes came"));
    // a length that is given counts, and not the file's
    let output = from_file(&folder, "f.sdd", &["check", "-", "--length", "4096"]);
    assert_eq!(printed(&output), good("all 4096 bytes came"));
}

#[test]
fn a_pipe_needs_a_length() {
    let folder = folder("link_pipe");
    let bytes = with_scan(&folder);
    for piece in [1, 7, 512, 4_096] {
        let output = piped(&folder, &bytes, piece, &["check", "-", "--length", "4096"]);
        assert_eq!(printed(&output), good("all 4096 bytes came"));
    }
    let output = piped(&folder, &bytes, 512, &["check", "-"]);
    assert_eq!(output.status.code(), Some(64));
    assert!(
        said(&output).starts_with("rinzo: standard input is no plain file, so that its length is not known before its bytes: give it with --length N. "),
        "{}",
        said(&output)
    );
    assert!(output.stdout.is_empty());
}

#[test]
fn fewer_and_more_bytes_than_the_length_are_told() {
    let folder = folder("link_lengths");
    let bytes = with_scan(&folder);
    // bootstrap and index came: the verdict stands
    let words = ["check", "-", "--length", "4096"];
    let fewer = "bytes came, 1096 fewer than its length of 4096: what is missing is no part of the index";
    assert_eq!(printed(&piped(&folder, &bytes[..3_000], 100, &words)), good(&format!("3000 {fewer}")));
    assert!(printed(&piped(&folder, &bytes[..1_536], 100, &words)).contains("; 1536 bytes came, 2560 fewer than"));
    // more, through a pipe and from a file
    let longer = [&bytes[..], &[0xff; 5_000]].concat();
    fs::write(folder.join("longer"), &longer).unwrap();
    let more = good("9096 bytes came, 5000 more than its length of 4096: these were not looked at");
    assert_eq!(printed(&piped(&folder, &longer, 512, &words)), more);
    assert_eq!(printed(&from_file(&folder, "longer", &words)), more);
}

#[test]
fn too_few_bytes_are_20() {
    let folder = folder("link_20");
    let bytes = with_scan(&folder);
    for came in [0, 1, 31, 32, 1_000, 1_535] {
        let output = piped(&folder, &bytes[..came], 512, &["check", "-", "--length", "4096"]);
        assert_eq!((output.status.code(), &output.stdout[..]), (Some(20), &b""[..]));
        let wanted = format!(
            "rinzo: refused 20: standard input: {came} of 4096 bytes came, which is too little of the file to judge it: send it again from its first byte on\n"
        );
        assert_eq!(said(&output), wanted);
    }
    let output = piped(&folder, &bytes[..99], 512, &["check", "-", "--length", "4096", "--json"]);
    assert_eq!(output.status.code(), Some(20));
    let said = String::from_utf8(output.stdout).unwrap();
    assert!(
        said.starts_with("{\"refused\":20,\"file\":\"-\",\"sentence\":\"refused 20: standard input: 99 of "),
        "{said}"
    );
}

/// The same bytes with others at a place.
fn with(bytes: &[u8], at: usize, others: &[u8]) -> Vec<u8> {
    let mut bytes = bytes.to_vec();
    bytes[at..at + others.len()].copy_from_slice(others);
    bytes
}

#[test]
fn what_a_file_is_refused_for_it_is_refused_for_as_it_comes() {
    let folder = folder("link_refused");
    let bytes = with_scan(&folder);
    let entry = |slot: usize| 512 + 64 * (slot - 1);
    let files = [
        (bytes[..400].to_vec(), 1, "refused 1: standard input: the file has fewer than 512 bytes"),
        (with(&bytes, 31, &[2]), 3, "refused 3: standard input: "),
        (with(&bytes, 3, &[0]), 4, "refused 4: standard input: "),
        (bytes[..2_000].to_vec(), 5, "refused 5: standard input: the file is shorter than its first record says"),
        (with(&bytes, entry(9), &[0, 0, 0, 3]), 6, "refused 6 slot 9: standard input: "),
        (with(&bytes, entry(16), &[9]), 7, "refused 7 slot 16: standard input: "),
        (with(&bytes, entry(3), &[0, 0, 0, 5, 0, 0, 0, 5]), 8, "refused 8 slot 9: standard input: "),
    ];
    for (file, number, sentence) in files {
        fs::write(folder.join("bad.sdd"), &file).unwrap();
        assert_eq!(refused(&folder, &["check", "bad.sdd"]).0, number);
        let output = from_file(&folder, "bad.sdd", &["check", "-"]);
        assert_eq!((output.status.code(), &output.stdout[..]), (Some(number), &b""[..]));
        assert!(said(&output).starts_with(&format!("rinzo: {sentence}")), "{}", said(&output));
    }
    // what is damaged can be searched once it is a file
    fs::write(folder.join("bad.sdd"), with(&bytes, entry(16), &[9])).unwrap();
    let told = said(&from_file(&folder, "bad.sdd", &["check", "-"]));
    assert!(
        told.ends_with("; without one, `rinzo find` looks for the scans of a saved file without the index\n"),
        "{told}"
    );
}

/// A refusal may hang on the length, so it says where what came is another.
#[test]
fn a_refusal_says_what_came_too() {
    let folder = folder("link_refused_lengths");
    let bytes = with_scan(&folder);
    let output = piped(&folder, &bytes, 512, &["check", "-", "--length", "2000"]);
    assert_eq!(output.status.code(), Some(5));
    let told = said(&output);
    assert!(
        told.starts_with("rinzo: refused 5: standard input: --length says 2000 bytes, and its first record"),
        "{told}"
    );
    assert!(told.ends_with("; 4096 bytes came, 2096 more than its length of 2000\n"), "{told}");
    let output = piped(&folder, &bytes, 512, &["check", "-", "--length", "511"]);
    assert_eq!(output.status.code(), Some(1));
    assert!(said(&output).ends_with("; 4096 bytes came, 3585 more than its length of 511\n"), "{}", said(&output));
}

#[test]
fn the_old_form_is_judged_too() {
    let folder = folder("link_old");
    with_scan(&folder);
    wrote(&folder, &["convert", "f.sdd", "--to", "old", "--out", "old.sdd"]);
    let bytes = fs::read(folder.join("old.sdd")).unwrap();
    for output in
        [from_file(&folder, "old.sdd", &["check", "-"]), piped(&folder, &bytes, 3, &["check", "-", "--length", "4096"])]
    {
        let wanted = good("all 4096 bytes came").replace("current form", "old form");
        assert_eq!(printed(&output), wanted);
    }
}

#[test]
fn json_has_the_fields_of_a_check_and_null_for_what_was_not_looked_at() {
    let folder = folder("link_json");
    let bytes = with_scan(&folder);
    let output = piped(&folder, &bytes[..2_000], 512, &["check", "-", "--length", "4096", "--json"]);
    let wanted = "{\"file\":\"-\",\"form\":\"current\",\"n\":3,\"d\":2,\"l\":512,\"m\":64,\"u\":9,\"counter\":1,\"type\":0,\"capacity\":16,\"room\":8,\
                  \"in-use\":null,\"free\":null,\"longest-free\":null,\"scans\":null,\"highest\":null,\"bytes\":4096,\"gaps-zero\":null,\
                  \"records-not-zero\":null,\"broken\":null,\"not-version-one\":null,\"came\":2000}\n";
    assert_eq!(printed(&output), wanted);
    // in the order of a file's own
    let names = |json: &str| json.split("\"").skip(1).step_by(2).map(str::to_string).collect::<Vec<_>>();
    let (came, file) = (names(wanted), names(&wrote(&folder, &["check", "f.sdd", "--json"])));
    let fields =
        |names: Vec<String>| names.into_iter().filter(|name| !["-", "f.sdd"].contains(&&name[..])).collect::<Vec<_>>();
    assert_eq!(fields(came), [&fields(file)[..], &["came".to_string()]].concat());
}

#[test]
fn standard_input_stands_among_files_once() {
    let folder = folder("link_among");
    with_scan(&folder);
    let output = from_file(&folder, "f.sdd", &["check", "f.sdd", "-"]);
    let text = printed(&output);
    assert!(
        text.starts_with("f.sdd:\nthe index is good: 1 scan in 16 slots; ")
            && text.contains("\n-:\nthe index is good: 16 slots; "),
        "{text}"
    );
    for (words, part) in [
        (&["check", "-", "-"][..], "- is given twice, and standard input comes once. "),
        (&["check", "f.sdd", "--length", "4096"], "--length is that of standard input, and - is not among the files. "),
        (&["check", "-", "--scans"], "the scans of standard input are passed over as they come: save it to a file, "),
        (&["check", "-", "--length", "many"], "--length wants a whole number, and many is none. "),
        (&["check", "-", "--length", "-1"], "--length wants a whole number, and -1 is below zero. "),
        (&["check", "-", "--length"], "--length wants a value, N. "),
    ] {
        let output = from_file(&folder, "f.sdd", words);
        assert_eq!(output.status.code(), Some(64), "{words:?}");
        assert!(said(&output).contains(part), "{words:?}: {}", said(&output));
    }
    // a file of that name is not standard input
    fs::copy(folder.join("f.sdd"), folder.join("-")).unwrap();
    assert!(wrote(&folder, &["check", "./-"]).starts_with("the index is good: 1 scan in 16 slots; "));
}

#[test]
fn what_cannot_be_read_is_no_verdict() {
    let folder = folder("link_unreadable");
    let output =
        rinzo(&folder).args(["check", "-", "--length", "4096"]).stdin(File::open(&folder).unwrap()).output().unwrap();
    assert_eq!(output.status.code(), Some(74));
    assert!(
        said(&output).starts_with("rinzo: standard input cannot be read after 0 bytes of it: "),
        "{}",
        said(&output)
    );
}

#[test]
fn the_help_says_what_is_not_looked_at() {
    let folder = folder("link_help");
    let help = wrote(&folder, &["check", "--help"]);
    for part in
        ["With - for FILE, standard input is judged as it comes", "--length N ", "else it is 20", "1 to 20 refused"]
    {
        assert!(help.contains(part), "{part}: {help}");
    }
}

const MIB: u64 = 1 << 20;

/// A shell that runs a line with the program as `$0`, in no more memory than `kib` KiB of addresses.
fn limited(folder: &Path, kib: u64, line: &str) -> Command {
    let mut command = Command::new("sh");
    command.current_dir(folder).arg("-c").arg(format!("ulimit -v {kib}; {line}")).arg(rinzo(folder).get_program());
    command
}

/// A file of 488 MiB, and more than 2 GiB through a pipe: in 24 MiB of addresses, stacks and program included. A writer
/// is not cut off, though the verdict is certain after the first 1,536 bytes.
#[test]
fn memory_does_not_hang_on_what_comes() {
    let folder = folder("link_memory");
    wrote(&folder, &["blank", "f.sdd", "--n", "3", "--l", "512", "--room", "1000000"]);
    let kib = 24 << 10;
    let cost = cost::of(limited(&folder, kib, "exec \"$0\" check -").stdin(File::open(folder.join("f.sdd")).unwrap()));
    assert!(cost.peak <= 8 * MIB && cost.read >= 488 * MIB, "{cost:?}");
    let length = 512_000_000 + (2u64 << 30);
    let line =
        format!("(cat f.sdd && head -c {} /dev/zero && echo whole >&2) | \"$0\" check - --length {length}", 2u64 << 30);
    let output = limited(&folder, kib, &line).output().unwrap();
    assert_eq!((output.status.code(), said(&output)), (Some(0), "whole\n".to_string()));
    let text = String::from_utf8(output.stdout).unwrap();
    assert!(text.ends_with(&format!("\n1000000 records in all; all {length} bytes came\n")), "{text}");
    fs::remove_dir_all(&folder).unwrap();
}
