//! `rinzo install`: puts the program, its man page and its completions into a folder, where a system looks for them.

use crate::say::failure::Failure;
use crate::say::json::Json;
use crate::say::out::Out;
use crate::say::shown;
use crate::words::args::Args;
use crate::words::{completion, manual};
use std::fs::{self, Permissions};
use std::io;
use std::os::unix::fs::PermissionsExt;
use std::path::{Path, PathBuf};

pub fn run(args: &Args, out: &Out) -> Result<(), Failure> {
    let folder = args.path(0);
    for (place, mode, bytes) in parts().map_err(|error| Failure::Io(format!("the program itself: {error}")))? {
        let path = folder.join(place);
        put(&path, mode, &bytes).map_err(|error| not_put(&path, &error))?;
        out.answer(|| shown::name(&path), || Json::Object(vec![("installed", Json::path(&path))]))?;
    }
    Ok(())
}

/// What is put where, and with which rights.
fn parts() -> io::Result<Vec<(&'static str, u32, Vec<u8>)>> {
    let lines = |text: String| (text + "\n").into_bytes();
    let words = |shell| lines(completion::of(shell).unwrap_or_default());
    Ok(vec![
        ("bin/rinzo", 0o755, fs::read("/proc/self/exe")?),
        ("share/man/man1/rinzo.1", 0o644, lines(manual::page())),
        ("share/bash-completion/completions/rinzo", 0o644, words("bash")),
        ("share/zsh/site-functions/_rinzo", 0o644, words("zsh")),
        ("share/fish/vendor_completions.d/rinzo.fish", 0o644, words("fish")),
    ])
}

/// Writes a file under another name first, so that a program that runs is replaced and not changed under its feet.
fn put(path: &Path, mode: u32, bytes: &[u8]) -> io::Result<()> {
    let folder = path.parent().unwrap_or(Path::new("."));
    fs::create_dir_all(folder)?;
    let mut made = path.as_os_str().to_os_string();
    made.push(".new");
    let made = PathBuf::from(made);
    let done = fs::write(&made, bytes)
        .and_then(|()| fs::set_permissions(&made, Permissions::from_mode(mode)))
        .and_then(|()| fs::rename(&made, path));
    if done.is_err() {
        let _ = fs::remove_file(&made);
    }
    done
}

fn not_put(path: &Path, error: &io::Error) -> Failure {
    match error.kind() {
        io::ErrorKind::PermissionDenied => {
            Failure::NotPermitted(format!("{}: not permitted: give a folder of your own", shown::name(path)))
        }
        _ => Failure::Io(format!("{}: {error}", shown::name(path))),
    }
}
