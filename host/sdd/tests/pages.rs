//! The pages are complete and say what the crate says: the tables of crates and of host parts, the refusals, the stack,
//! and the picture of a save.

use sample::scan;
use sdd::{About, Step};
use std::collections::BTreeSet;
use std::path::{Path, PathBuf};

fn root() -> PathBuf {
    Path::new(env!("CARGO_MANIFEST_DIR")).join("../..").canonicalize().unwrap()
}

fn page(name: &str) -> String {
    std::fs::read_to_string(root().join(name)).unwrap()
}

/// The names in backquotes in the first column of the table under this heading.
fn first_column(page: &str, heading: &str) -> BTreeSet<String> {
    let table = page.lines().skip_while(|line| *line != heading).skip(2).take_while(|line| line.starts_with('|'));
    let cells = table.filter_map(|line| line.split('|').nth(1));
    cells.flat_map(|cell| cell.split('`').skip(1).step_by(2)).map(str::to_string).collect()
}

/// What stands in a folder, but for what builds leave there.
fn names_in(folder: &str) -> BTreeSet<String> {
    let names = std::fs::read_dir(root().join(folder)).unwrap().map(|entry| entry.unwrap().file_name());
    let names = names.map(|name| name.into_string().unwrap());
    names.filter(|name| name != "target" && !name.starts_with('.')).collect()
}

#[test]
fn the_tables_of_crates_are_complete() {
    let crates = names_in("crates");
    let listed = page("crates.txt");
    let listed = listed.lines().filter(|line| !line.starts_with('#')).filter_map(|line| line.split_once(':'));
    // a word that says what kind of library it is may follow the name
    let listed = listed.filter_map(|(name, _)| name.split_whitespace().next());
    assert_eq!(listed.map(str::to_string).collect::<BTreeSet<_>>(), crates);
    assert_eq!(first_column(&page("README.md"), "| crate | holds |"), crates);
    assert_eq!(first_column(&page("docs/HOUSE.md"), "| crate | holds | knows |"), crates);
}

#[test]
fn the_table_of_host_parts_is_complete() {
    let settings = ["Cargo.toml", "Cargo.lock", "rustfmt.toml"];
    let parts = names_in("host").into_iter().filter(|name| !settings.contains(&name.as_str()));
    let mut wanted: BTreeSet<String> = parts.map(|name| format!("host/{name}")).collect();
    wanted.extend(names_in("include").into_iter().map(|name| format!("include/{name}")));
    assert_eq!(first_column(&page("docs/HOST.md"), "| part | what it is |"), wanted);
}

#[test]
fn the_folders_and_pages_are_all_named() {
    let readme = page("README.md");
    for name in names_in("docs") {
        assert!(readme.contains(&format!("`{name}`")) || readme.contains(&format!("docs/{name}")), "{name}");
    }
}

#[test]
fn every_refusal_has_its_row() {
    use sdd::Refusal::*;
    let readme = page("README.md");
    let all = [
        TooShort,
        OldForm,
        UnknownVersion,
        BadBootstrap,
        CutShort,
        BadEntry(1),
        EntryAboveUsed(1),
        SharedRecord(1),
        NoSuchSlot,
        EmptySlot,
        NoEmptySlot,
        NoRoom,
        JobDisagrees,
        NotConfirmed,
        BadSizes,
        AnswerTooLong,
        NotVersionOne,
        NotConvertible,
        NotAllCame,
    ];
    for refusal in all {
        let (what, to_do) = refusal.sentence().split_once(": ").unwrap();
        let row = format!("| {} | {what} | {to_do} |", refusal.number());
        assert!(readme.lines().any(|line| line == row), "README.md lacks the row {row}");
    }
    assert!(readme.lines().any(|line| line.starts_with("| 11 |") && line.ends_with("| take the scan again |")));
    let rules = page("docs/SCAN.md");
    let rules = rules.split("## The rules").nth(1).expect("docs/SCAN.md has the rules");
    for number in 1..=6 {
        assert!(rules.contains(&format!("\n{number}. **")), "rule {number}");
    }
}

#[test]
fn the_stack_is_stated() {
    let figure = format!("{} KiB", sdd::stack::MOST >> 10);
    for name in ["README.md", "docs/HOST.md", "docs/SPEED.md", "host/sdd/src/lib.rs"] {
        assert!(page(name).contains(&figure), "{name} does not say {figure}");
    }
}

/// The picture shows the paper's first save: 1,000 bytes to slot 1 of a blank file.
#[test]
fn the_picture_shows_what_a_save_does() {
    let mut file = vec![0; 4_096];
    sdd::blank(&mut file, 3, 512, 64).unwrap();
    let scan = scan(1_000, 1);
    let mut job = sdd::save(&file, 1, &scan, &About::default()).unwrap();
    let mut wanted = Vec::new();
    while let Step::Wrote { record, written } = sdd::step(&mut file, &scan, &mut job).unwrap() {
        wanted.extend([format!("step {written}"), format!("record {record}"), "write, then".to_string()]);
        wanted.extend(["flush".to_string(), format!("record {record}")]);
    }
    wanted.extend(["step 5 looks", "read back, past", "records 1 to 3,", "records 4 and 5", "saved"].map(String::from));
    let picture = page("docs/save.svg");
    let mut texts = picture.split("<text").skip(1).filter_map(|part| part.split('>').nth(1)?.strip_suffix("</text"));
    for text in wanted {
        assert!(texts.any(|shown| shown.contains(&text)), "the picture lacks '{text}', or has it in another place");
    }
    assert!(page("README.md").contains("(docs/save.svg)"));
}
