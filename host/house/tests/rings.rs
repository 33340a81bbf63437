//! No files of a crate of the host know each other in a ring, and no folders do.

use house::{Files, files, folders, ring};
use std::path::{Path, PathBuf};

/// The crates of the host, by the folders that have a `src`.
fn crates() -> Vec<PathBuf> {
    let host = Path::new(env!("CARGO_MANIFEST_DIR")).parent().unwrap();
    let all = std::fs::read_dir(host).unwrap().flatten().map(|entry| entry.path().join("src"));
    all.filter(|src| src.is_dir()).collect()
}

#[test]
fn no_files_know_each_other_in_a_ring() {
    let crates = crates();
    assert!(crates.len() >= 9, "{crates:?}");
    for src in crates {
        let files = files(&src);
        assert_eq!(ring(&files), None, "in {}", src.display());
        assert_eq!(ring(&folders(&files)), None, "in {}", src.display());
    }
}

#[test]
fn what_is_known_is_seen() {
    let host = Path::new(env!("CARGO_MANIFEST_DIR")).parent().unwrap();
    let files = files(&host.join("rinzo/src"));
    assert!(files["job/running.rs"].contains("file/lent.rs"));
    assert!(files["main.rs"].contains("commands.rs"));
    assert!(files["commands.rs"].contains("commands/list.rs"));
    assert!(files["commands/entry.rs"].contains("commands/list.rs"));
}

#[test]
fn a_ring_is_found() {
    let knows = |name: &str, known: &[&str]| (name.to_string(), known.iter().map(|known| known.to_string()).collect());
    let mut some: Files = [knows("a", &["b", "c"]), knows("b", &["d"]), knows("c", &["d"]), knows("d", &[])].into();
    assert_eq!(ring(&some), None);
    some.extend([knows("d", &["c"])]);
    assert_eq!(ring(&some), Some(vec!["d".to_string(), "c".to_string()]));
}
