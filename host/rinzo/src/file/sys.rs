//! The few calls of the system that std does not have. All `unsafe` of the program is here and in `window`.

use memmap2::MmapOptions;
use std::ffi::{CString, c_int};
use std::fs::File;
use std::io;
use std::ops::Range;
use std::os::fd::AsRawFd;
use std::os::unix::ffi::OsStrExt;
use std::path::Path;
use std::sync::atomic::{AtomicBool, Ordering::Relaxed};

/// A write past the limit on file sizes is to come back as an error, not to end the program.
pub fn ignore_file_size_signal() {
    // SAFETY: sets a signal to be ignored.
    unsafe { libc::signal(libc::SIGXFSZ, libc::SIG_IGN) };
}

/// Has the first Ctrl-C call `handler`; the next one ends the program, as it does by itself. A program that was started
/// to take no notice of Ctrl-C, as a shell does with work in the background, takes none.
pub fn on_first_interrupt(handler: extern "C" fn(c_int)) {
    // SAFETY: a struct of numbers, for which zeros are valid; the handler is of the kind that is asked for.
    unsafe {
        let mut action: libc::sigaction = std::mem::zeroed();
        libc::sigaction(libc::SIGINT, std::ptr::null(), &mut action);
        if action.sa_sigaction == libc::SIG_IGN {
            return;
        }
        action.sa_sigaction = handler as *const () as usize;
        action.sa_flags = libc::SA_RESETHAND | libc::SA_RESTART;
        libc::sigaction(libc::SIGINT, &action, std::ptr::null_mut());
    }
}

/// What signals a thread takes.
pub struct Signals(libc::sigset_t);

/// From now on this thread takes no Ctrl-C, and neither do those that it starts; answers what it took before. A signal
/// goes to any thread that takes it, and one that came before a record is to be seen before that record.
pub fn leave_interrupts() -> Signals {
    // SAFETY: structs of numbers, which the calls fill before they are read.
    unsafe {
        let (mut interrupt, mut before): (libc::sigset_t, libc::sigset_t) = (std::mem::zeroed(), std::mem::zeroed());
        libc::sigemptyset(&mut interrupt);
        libc::sigaddset(&mut interrupt, libc::SIGINT);
        libc::pthread_sigmask(libc::SIG_BLOCK, &interrupt, &mut before);
        Signals(before)
    }
}

/// From now on this thread takes these.
pub fn take(signals: &Signals) {
    // SAFETY: a set that `leave_interrupts` was given.
    unsafe { libc::pthread_sigmask(libc::SIG_SETMASK, &signals.0, std::ptr::null_mut()) };
}

/// Whether standard output was closed when the program was started.
static OUTPUT_WAS_CLOSED: AtomicBool = AtomicBool::new(false);

/// Rust's own start opens /dev/null in the place of a closed output. This is called before it.
#[used]
#[unsafe(link_section = ".init_array")]
static LOOK_AT_OUTPUT: extern "C" fn() = look_at_output;

extern "C" fn look_at_output() {
    // SAFETY: fcntl only answers.
    OUTPUT_WAS_CLOSED.store(unsafe { libc::fcntl(libc::STDOUT_FILENO, libc::F_GETFD) } == -1, Relaxed);
}

/// Whether there was no standard output when the program began.
pub fn output_was_closed() -> bool {
    OUTPUT_WAS_CLOSED.load(Relaxed)
}

/// Asks the system to forget what it holds of a part of a file in memory.
pub fn drop_cache(file: &File, part: &Range<u64>) {
    let (at, len) = (part.start as libc::off_t, (part.end - part.start) as libc::off_t);
    // SAFETY: advice on an open file.
    unsafe { libc::posix_fadvise(file.as_raw_fd(), at, len, libc::POSIX_FADV_DONTNEED) };
}

/// Gives a file space on the device for so many bytes, and that length.
pub fn allocate(file: &File, len: u64) -> io::Result<()> {
    // SAFETY: on an open file.
    if unsafe { libc::fallocate(file.as_raw_fd(), 0, 0, len as libc::off_t) } == 0 {
        return Ok(());
    }
    Err(io::Error::last_os_error())
}

/// Gives a file a name that no other file has. Where the file system cannot see to that, it is looked at before.
pub fn rename_new(from: &Path, to: &Path) -> io::Result<()> {
    let (one, two) = (CString::new(from.as_os_str().as_bytes())?, CString::new(to.as_os_str().as_bytes())?);
    // SAFETY: two names that end with a zero.
    let renamed = unsafe {
        let here = libc::AT_FDCWD;
        libc::syscall(libc::SYS_renameat2, here, one.as_ptr(), here, two.as_ptr(), libc::RENAME_NOREPLACE)
    };
    match io::Error::last_os_error() {
        _ if renamed == 0 => Ok(()),
        error if !matches!(error.raw_os_error(), Some(libc::EINVAL | libc::ENOSYS)) => Err(error),
        _ if to.symlink_metadata().is_ok() => Err(io::ErrorKind::AlreadyExists.into()),
        _ => std::fs::rename(from, to),
    }
}

/// Whether the file system keeps its files in memory alone.
#[allow(clippy::unnecessary_cast)] // with other C libraries these numbers have other types
pub fn is_in_memory(file: &File) -> bool {
    const RAMFS_MAGIC: i64 = 0x8584_58f6;
    // SAFETY: a struct of numbers, which the call fills.
    let (told, about) = unsafe {
        let mut about: libc::statfs = std::mem::zeroed();
        (libc::fstatfs(file.as_raw_fd(), &mut about), about)
    };
    let kind = about.f_type as i64;
    told == 0 && (kind == libc::TMPFS_MAGIC as i64 || kind == RAMFS_MAGIC)
}

/// Whether the system holds any byte of a part of a file in memory; true where it cannot be told.
/// The part begins at a page's beginning.
pub fn is_cached(file: &File, part: &Range<u64>) -> bool {
    let len = (part.end - part.start) as usize;
    // SAFETY: a mapping through which nothing is read: it is the name of these pages for mincore,
    // which has a byte for each of them. So a file that is cut short under it does no harm.
    unsafe {
        let Ok(mapped) = MmapOptions::new().offset(part.start).len(len).map(file) else { return true };
        let mut pages = vec![0; len.div_ceil(libc::sysconf(libc::_SC_PAGESIZE) as usize)];
        let told = libc::mincore(mapped.as_ptr().cast_mut().cast(), len, pages.as_mut_ptr());
        told != 0 || pages.iter().any(|page| page & 1 == 1)
    }
}

/// Ends this process as a power cut would: at once, with nothing tidied up.
pub fn stop_dead() -> ! {
    // SAFETY: a signal to this process.
    unsafe { libc::kill(libc::getpid(), libc::SIGKILL) };
    unreachable!("a process outlived SIGKILL")
}
