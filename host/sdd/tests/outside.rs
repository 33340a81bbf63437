//! A crate outside this repository that uses this one: its build says what it needs, and the line it says works.

use std::path::{Path, PathBuf};
use std::process::{Command, Output};

const PROGRAM: &str = r#"
fn main() {
    let mut file = vec![0; 4096];
    sdd::blank(&mut file, 3, 512, 64).unwrap();
    println!("{} slots", sdd::open(&file).unwrap().capacity);
}
"#;

/// Makes the crate.
fn outside(name: &str) -> PathBuf {
    let folder = Path::new(env!("CARGO_TARGET_TMPDIR")).join(name);
    let _ = std::fs::remove_dir_all(&folder);
    std::fs::create_dir_all(folder.join("src")).unwrap();
    let manifest = format!(
        "[package]\nname = \"{name}\"\nversion = \"0.1.0\"\nedition = \"2024\"\n\n[workspace]\n\n\
         [dependencies]\nsdd = {{ path = {:?} }}\n",
        env!("CARGO_MANIFEST_DIR")
    );
    std::fs::write(folder.join("Cargo.toml"), manifest).unwrap();
    std::fs::write(folder.join("src/main.rs"), PROGRAM).unwrap();
    folder
}

/// Runs a line of the shell in the crate's folder, with a target folder of its own.
fn shell(folder: &Path, line: &str) -> Output {
    let mut sh = Command::new("sh");
    sh.arg("-c").arg(line).current_dir(folder).env("CARGO_TARGET_DIR", folder.join("target"));
    sh.env("CARGO_NET_OFFLINE", "true").env_remove("SDD_LIB").output().unwrap()
}

#[test]
fn the_build_error_says_the_line_that_builds_it() {
    let folder = outside("no_library");
    let built = shell(&folder, "cargo build");
    assert!(!built.status.success());
    let said = String::from_utf8_lossy(&built.stderr).into_owned();
    let line = said.split('`').find(|part| part.starts_with("SDD_LIB=$(")).unwrap_or_else(|| panic!("{said}"));
    assert!(line.ends_with("/host/library') cargo build"), "{line}");
    let nowhere = shell(&folder, "SDD_LIB=nowhere cargo build");
    assert!(String::from_utf8_lossy(&nowhere.stderr).contains(line));
    if cfg!(feature = "stand-in") {
        return;
    }
    let built = shell(&folder, line);
    assert!(built.status.success(), "{}", String::from_utf8_lossy(&built.stderr));
    assert_eq!(shell(&folder, "target/debug/no_library").stdout, b"16 slots\n");
}
