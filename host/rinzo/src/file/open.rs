//! Files opened: an SDD file with its lock, a small file whole.

use super::device::{Device, uninterrupted};
use crate::say::failure::Failure;
use crate::say::out::Out;
use crate::say::shown;
use std::fs::{File, OpenOptions, TryLockError};
use std::io::{self, Read};
use std::os::unix::fs::OpenOptionsExt;
use std::path::Path;
use std::time::{Duration, Instant};

/// How long a reader waits for a job to end, and how long before it says so.
const PATIENCE: Duration = Duration::from_secs(10);
const SHORT: Duration = Duration::from_millis(300);

/// Opens a file to look at it, once no job works on it.
pub fn to_read(path: &Path, out: &Out) -> Result<Device, Failure> {
    let device = opened(path, OpenOptions::new().read(true))?;
    let (began, mut told) = (Instant::now(), false);
    loop {
        if began.elapsed() > SHORT && !told {
            let most = PATIENCE.as_secs();
            out.remark(&format!(
                "another program works on {}: waiting up to {most} seconds for its end",
                shown::name(path)
            ));
            told = true;
        }
        match device.file().try_lock_shared() {
            Ok(()) => return Ok(device),
            // a file system without locks: there is nothing to wait for
            Err(TryLockError::Error(_)) => return Ok(device),
            Err(TryLockError::WouldBlock) if began.elapsed() < PATIENCE => {
                std::thread::sleep(Duration::from_millis(20))
            }
            Err(TryLockError::WouldBlock) => return Err(busy(path)),
        }
    }
}

/// Opens a file for a job, which has it alone until the file is closed.
pub fn to_change(path: &Path) -> Result<Device, Failure> {
    alone(opened(path, OpenOptions::new().read(true).write(true))?)
}

/// Opens or makes a file, and has it alone; whether it was made. What is in it stays.
pub fn to_make(path: &Path) -> Result<(Device, bool), Failure> {
    let mut options = OpenOptions::new();
    options.read(true).write(true);
    match opened(path, options.clone().create_new(true)) {
        Ok(device) => Ok((alone(device)?, true)),
        // it is there, or cannot be made: to open it says which
        Err(_) => Ok((alone(opened(path, options.create(true).truncate(false))?)?, false)),
    }
}

/// Opened without waiting, so that a pipe is told from a file and does not hold us up.
fn opened(path: &Path, options: &mut OpenOptions) -> Result<Device, Failure> {
    let file = options.custom_flags(libc::O_NONBLOCK).open(path).map_err(|error| Failure::of(path, &error))?;
    let about = file.metadata().map_err(|error| Failure::of(path, &error))?;
    if !about.is_file() {
        return Err(Failure::NoInput(format!("{} is no plain file: give the path of an SDD file", shown::name(path))));
    }
    Ok(Device::on(file, path))
}

fn alone(device: Device) -> Result<Device, Failure> {
    match device.file().try_lock() {
        Ok(()) => Ok(device),
        Err(TryLockError::WouldBlock) => Err(busy(device.path())),
        Err(TryLockError::Error(error)) => Err(Failure::Io(format!(
            "{} cannot be locked, so that nothing is written: {error}",
            shown::name(device.path())
        ))),
    }
}

fn busy(path: &Path) -> Failure {
    Failure::Busy(format!("another program works on {}: try again when it has finished", shown::name(path)))
}

/// Makes a new or changed name in a folder durable.
pub fn sync_folder_of(path: &Path) -> Result<(), Failure> {
    let folder = match path.parent() {
        Some(folder) if !folder.as_os_str().is_empty() => folder,
        _ => Path::new("."),
    };
    let failed = |error| Failure::Io(format!("{}: the folder cannot be made durable: {error}", shown::name(folder)));
    let opened = File::open(folder).map_err(failed)?;
    uninterrupted(|| opened.sync_all()).map_err(failed)
}

/// Reads a small file, or standard input for `-`: at most one byte more than `most`, so
/// that a longer one is known for what it is.
pub fn small_file(path: &Path, most: u64) -> Result<Vec<u8>, Failure> {
    let mut bytes = Vec::new();
    if shown::is_input(path) {
        let read = io::stdin().lock().take(most + 1).read_to_end(&mut bytes);
        read.map_err(|error| Failure::Io(format!("standard input: {error}")))?;
    } else {
        let file = File::open(path).map_err(|error| Failure::of(path, &error))?;
        file.take(most + 1).read_to_end(&mut bytes).map_err(|error| Failure::of(path, &error))?;
    }
    Ok(bytes)
}
