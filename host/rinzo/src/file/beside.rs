//! A file that is made beside the place where it is to be, and comes there only when it is whole.

use super::device::Device;
use super::open::{self, sync_folder_of};
use super::sys;
use crate::say::failure::Failure;
use crate::say::shown;
use std::fs::{self, File, OpenOptions};
use std::io::{self, ErrorKind};
use std::os::unix::fs::{MetadataExt, OpenOptionsExt};
use std::path::{Path, PathBuf};

/// A new file under a name of its own. It is removed again, unless it was put in its place.
pub struct Beside {
    /// It goes by the name that it is to have.
    pub device: Device,
    made: PathBuf,
    to: PathBuf,
    /// The file that it is to replace, which nobody else has meanwhile.
    replaced: Option<Device>,
}

impl Beside {
    /// For a file of this name that is made from another one: it must not be there, or goes by force; and it is never
    /// that other one itself.
    pub fn new(to: &Path, from: &Device, force: bool) -> Result<Beside, Failure> {
        let replaced = replaced(to, from, force)?;
        let failed = |error| Failure::of(to, &error);
        // a link to a file stays one: what it leads to is replaced
        let place = if replaced.is_some() { fs::canonicalize(to).map_err(failed)? } else { to.to_path_buf() };
        let mode = from.file().metadata().map_err(failed)?.mode();
        let (file, made) = make(&place, mode).map_err(failed)?;
        let beside = Beside { device: Device::on(file, to), made, to: place, replaced };
        beside.keep_permissions().map_err(failed)?;
        Ok(beside)
    }

    /// A file that replaces another may be opened by those who might open that one.
    fn keep_permissions(&self) -> io::Result<()> {
        let Some(replaced) = &self.replaced else { return Ok(()) };
        self.device.file().set_permissions(replaced.file().metadata()?.permissions())
    }

    /// Gives it its name, durably. What has come to that name meanwhile is not overwritten.
    pub fn put_in_place(mut self) -> Result<(), Failure> {
        let renamed = if self.replaced.is_some() {
            fs::rename(&self.made, &self.to)
        } else {
            sys::rename_new(&self.made, &self.to)
        };
        match renamed {
            Ok(()) => self.made.clear(),
            Err(error) if error.kind() == ErrorKind::AlreadyExists => return Err(is_there(self.device.path())),
            Err(error) => return Err(Failure::of(self.device.path(), &error)),
        }
        sync_folder_of(&self.to)
    }
}

impl Drop for Beside {
    fn drop(&mut self) {
        // in its place it has no other name
        if !self.made.as_os_str().is_empty() {
            let _ = fs::remove_file(&self.made);
        }
    }
}

fn is_there(to: &Path) -> Failure {
    let name = shown::name(to);
    Failure::Exists(format!("{name} is there already: give another name, or --force to overwrite it"))
}

/// What is of that name already: none, or by force a plain file that no program works on.
fn replaced(to: &Path, from: &Device, force: bool) -> Result<Option<Device>, Failure> {
    match to.symlink_metadata() {
        Err(error) if error.kind() == ErrorKind::NotFound => return Ok(None),
        Err(error) => return Err(Failure::of(to, &error)),
        Ok(_) => (),
    }
    // by whatever way: the same name, a link of either kind
    let same = |one: fs::Metadata, two: fs::Metadata| (one.dev(), one.ino()) == (two.dev(), two.ino());
    if let (Ok(one), Ok(two)) = (to.metadata(), from.file().metadata())
        && same(one, two)
    {
        let name = shown::name(to);
        let what = format!("{name} is the file that it is made of, which is never done in place: give another name");
        return Err(Failure::Exists(what));
    }
    if force { open::to_change(to).map(Some) } else { Err(is_there(to)) }
}

/// Makes a file in the folder of another, under a name that nobody has. Nobody else may read it who may not read the file
/// that it is made from, which has this mode; its owner may change it.
fn make(place: &Path, mode: u32) -> io::Result<(File, PathBuf)> {
    let id = std::process::id();
    let mut options = OpenOptions::new();
    options.read(true).write(true).create_new(true).mode(mode & 0o666 | 0o600);
    let mut turn = 0;
    loop {
        let made = place.with_file_name(format!(".rinzo-{id}-{turn}.new"));
        match options.open(&made) {
            Ok(file) => return Ok((file, made)),
            Err(error) if error.kind() == ErrorKind::AlreadyExists => turn += 1,
            Err(error) => return Err(error),
        }
    }
}
