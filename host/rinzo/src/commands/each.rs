//! One command on several files, one after the other.

use crate::say::failure::Failure;
use crate::say::out::Out;
use crate::say::shown;
use crate::words::args::Args;
use std::path::Path;

/// Does something to every file that is named. Where there are several, each is told under its name, and one that
/// fails does not keep the others back; the status is that of the first that failed.
pub fn each(args: &Args, out: &Out, mut work: impl FnMut(&Path) -> Result<(), Failure>) -> Result<(), Failure> {
    let paths: Vec<&Path> = args.paths().collect();
    let [path] = paths[..] else {
        let mut status = None;
        for path in paths {
            if !out.json {
                out.lines(&format!("{}:", shown::name(path)))?;
            }
            if let Err(failure) = work(path) {
                if matches!(failure, Failure::OutputClosed) {
                    return Err(failure);
                }
                out.failure(&failure);
                status.get_or_insert(failure.status());
            }
        }
        return status.map_or(Ok(()), |status| Err(Failure::Told(status)));
    };
    work(path)
}
