//! Links the proved library: the archive or object that `SDD_LIB` names.

use std::env;
use std::path::Path;

fn main() {
    println!("cargo::rerun-if-env-changed=SDD_LIB");
    if env::var_os("CARGO_FEATURE_STAND_IN").is_some() {
        return;
    }
    let Some(path) = env::var_os("SDD_LIB") else {
        stop(&format!("SDD_LIB is not set, so there is no proved library to link: {}", what_to_do()));
    };
    let Ok(path) = Path::new(&path).canonicalize() else {
        stop(&format!("SDD_LIB names {}, which is not there: {}", path.display(), what_to_do()));
    };
    println!("cargo::rerun-if-changed={}", path.display());
    // An archive of our own around it gives the library one name for the linker, whether
    // SDD_LIB is an archive or an object, and carries it along into every program.
    let out = env::var("OUT_DIR").unwrap();
    archive(&path, &Path::new(&out).join("libsdd_proved.a"));
    println!("cargo::rustc-link-search=native={out}");
    println!("cargo::rustc-link-lib=static=sdd_proved");
}

/// The line that builds any crate with this one in it, wherever that crate lies.
fn what_to_do() -> String {
    let host = Path::new(&env::var_os("CARGO_MANIFEST_DIR").unwrap()).join("..").canonicalize();
    let library = host.unwrap_or_default().join("library");
    let target = env::var("TARGET").unwrap();
    let word = if env::var("HOST") == Ok(target.clone()) { String::new() } else { format!(" {target}") };
    format!("build with `SDD_LIB=$('{}'{word}) cargo build`", library.display())
}

/// Copies an archive, or puts an object into a new one with `ar`.
fn archive(from: &Path, to: &Path) {
    let bytes = std::fs::read(from).unwrap_or_else(|error| stop(&format!("{}: {error}", from.display())));
    let _ = std::fs::remove_file(to);
    if bytes.starts_with(b"!<arch>\n") {
        std::fs::write(to, bytes).unwrap_or_else(|error| stop(&format!("{}: {error}", to.display())));
        return;
    }
    let made = std::process::Command::new("ar").arg("crs").arg(to).arg(from).status();
    if !made.is_ok_and(|status| status.success()) {
        stop("`ar` could not put the object named by SDD_LIB into an archive");
    }
}

/// Ends the build with a sentence.
fn stop(sentence: &str) -> ! {
    println!("cargo::error={sentence}");
    std::process::exit(1);
}
