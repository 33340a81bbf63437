//! A file as a device: its length, plain reads, records written and made durable, and reads past the page cache.

use super::sys;
use std::cell::OnceCell;
use std::fs::{File, OpenOptions};
use std::io::{self, ErrorKind};
use std::ops::Range;
use std::os::fd::AsRawFd;
use std::os::unix::fs::{FileExt, MetadataExt, OpenOptionsExt};
use std::path::{Path, PathBuf};

/// An open file.
pub struct Device {
    file: File,
    path: PathBuf,
    /// The same file for direct reads, opened when it is first asked for; none where that cannot be had.
    direct: OnceCell<Option<File>>,
}

/// How bytes were read back; the later the worse.
#[derive(Clone, Copy, Debug, PartialEq, Eq, PartialOrd, Ord)]
pub enum Way {
    /// By direct reads, which go to the device.
    Direct,
    /// By plain reads after the cache was dropped and found empty.
    CacheDropped,
    /// From memory perhaps: this file system offers no way past it.
    PerhapsCached,
}

impl Way {
    /// For a line of progress.
    pub fn sentence(self) -> &'static str {
        match self {
            Way::Direct => "read back from the device (direct)",
            Way::CacheDropped => "read back from the device (cache dropped)",
            Way::PerhapsCached => {
                "read back, but this file system offers no way past memory: the device itself was not seen"
            }
        }
    }

    /// For programs.
    pub fn name(self) -> &'static str {
        match self {
            Way::Direct => "direct",
            Way::CacheDropped => "cache-dropped",
            Way::PerhapsCached => "perhaps-cached",
        }
    }
}

impl Device {
    /// On a file that is open.
    pub fn on(file: File, path: &Path) -> Device {
        Device { file, path: path.to_path_buf(), direct: OnceCell::new() }
    }

    /// The file itself, to lock it or to tell it from another.
    pub fn file(&self) -> &File {
        &self.file
    }

    /// Its name.
    pub fn path(&self) -> &Path {
        &self.path
    }

    /// The file's length now.
    pub fn len(&self) -> io::Result<u64> {
        Ok(self.file.metadata()?.len())
    }

    /// Reads from a place on, as a program does.
    pub fn read(&self, at: u64, into: &mut [u8]) -> io::Result<()> {
        self.file.read_exact_at(into, at)
    }

    /// Writes a record by one call. A write that takes fewer bytes is not continued: half a record is no record.
    pub fn write(&self, at: u64, record: &[u8]) -> io::Result<()> {
        let taken = uninterrupted(|| self.file.write_at(record, at))?;
        if taken != record.len() {
            return Err(io::Error::new(
                ErrorKind::WriteZero,
                format!("{taken} of {} bytes were written", record.len()),
            ));
        }
        Ok(())
    }

    /// Waits until what was written is on the device.
    pub fn flush(&self) -> io::Result<()> {
        uninterrupted(|| self.file.sync_data())
    }

    /// The same, the file's length included.
    pub fn flush_with_length(&self) -> io::Result<()> {
        uninterrupted(|| self.file.sync_all())
    }

    /// Makes the file so long, with space on the device where the file system can say so.
    pub fn grow(&self, len: u64) -> io::Result<()> {
        match uninterrupted(|| sys::allocate(&self.file, len)) {
            Err(error) if error.kind() == ErrorKind::Unsupported => self.file.set_len(len),
            other => other,
        }
    }

    /// Reads what the device has from a place on, past the page cache. What was written is flushed before.
    pub fn read_back(&self, at: u64, into: &mut [u8]) -> io::Result<Way> {
        let part = at / BLOCK * BLOCK..(at + into.len() as u64).next_multiple_of(BLOCK);
        sys::drop_cache(&self.file, &part);
        if !sys::is_in_memory(&self.file) {
            let direct = self.direct.get_or_init(|| self.open_direct().ok());
            if let Some(file) = direct
                && read_direct(file, &part, at, into).is_ok()
            {
                return Ok(Way::Direct);
            }
            if !sys::is_cached(&self.file, &part) {
                self.read(at, into)?;
                return Ok(Way::CacheDropped);
            }
        }
        self.read(at, into)?;
        Ok(Way::PerhapsCached)
    }

    /// The same file once more, for direct reads; by its number here, so that no other file of
    /// that name can take its place.
    fn open_direct(&self) -> io::Result<File> {
        let mut options = OpenOptions::new();
        options.read(true).custom_flags(libc::O_DIRECT);
        let by_number = format!("/proc/self/fd/{}", self.file.as_raw_fd());
        let opened = options.open(by_number).or_else(|_| options.open(&self.path))?;
        let (one, two) = (opened.metadata()?, self.file.metadata()?);
        if (one.dev(), one.ino()) != (two.dev(), two.ino()) {
            return Err(io::Error::other("another file has taken its name"));
        }
        Ok(opened)
    }
}

/// Direct reads want memory, places and lengths that are multiples of the device's block. It is a
/// page's length too, or a page's is a multiple of it.
const BLOCK: u64 = 4_096;
/// How much is read at a time.
const PIECE: usize = 64 << 10;

/// Memory that begins at a multiple of `BLOCK`.
#[repr(C, align(4096))]
struct Aligned([u8; PIECE]);

/// Reads whole blocks, `part`, and takes from them what was asked for.
fn read_direct(file: &File, part: &Range<u64>, at: u64, into: &mut [u8]) -> io::Result<()> {
    let mut piece = Box::new(Aligned([0; PIECE]));
    let end = at + into.len() as u64;
    let mut from = part.start;
    while from < end {
        let wanted = PIECE.min((part.end - from) as usize);
        let got = uninterrupted(|| file.read_at(&mut piece.0[..wanted], from))? as u64;
        let (low, high) = (from.max(at), (from + got).min(end));
        // only the file's end may come in less than blocks
        if got == 0 || (high < end && !got.is_multiple_of(BLOCK)) {
            return Err(ErrorKind::UnexpectedEof.into());
        }
        into[(low - at) as usize..(high - at) as usize]
            .copy_from_slice(&piece.0[(low - from) as usize..(high - from) as usize]);
        from += got;
    }
    Ok(())
}

/// Makes a call again as long as a signal gets in before it has done anything.
pub fn uninterrupted<T>(mut call: impl FnMut() -> io::Result<T>) -> io::Result<T> {
    loop {
        match call() {
            Err(error) if error.kind() == ErrorKind::Interrupted => (),
            other => return other,
        }
    }
}
