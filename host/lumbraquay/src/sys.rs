//! What the system offers beyond the standard library: locks, leases, extended attributes and signals.

use std::ffi::{c_char, c_int, c_void, CStr, CString};
use std::fs::File;
use std::io::{Error, ErrorKind, Result};
use std::os::fd::AsRawFd;
use std::sync::atomic::{AtomicI32, Ordering};

use crate::done;

extern "C" {
    fn flock(file: c_int, operation: c_int) -> c_int;
    fn fcntl(file: c_int, command: c_int, ...) -> c_int;
    fn flistxattr(file: c_int, names: *mut c_char, size: usize) -> isize;
    fn fgetxattr(file: c_int, name: *const c_char, value: *mut c_void, size: usize) -> isize;
    fn fsetxattr(
        file: c_int,
        name: *const c_char,
        value: *const c_void,
        size: usize,
        flags: c_int,
    ) -> c_int;
    fn signal(number: c_int, action: usize) -> usize;
    fn raise(number: c_int) -> c_int;
    fn write(file: c_int, bytes: *const c_void, size: usize) -> isize;
}

const LOCK_EX: c_int = 2;
const LOCK_NB: c_int = 4;
const F_SETLEASE: c_int = 1024;
const F_GETLEASE: c_int = 1025;
const F_RDLCK: c_int = 0;
const EAGAIN: i32 = 11;
const ENODATA: i32 = 61;
const EOPNOTSUPP: i32 = 95;

const SIGHUP: c_int = 1;
const SIGINT: c_int = 2;
const SIGTERM: c_int = 15;
const SIGIO: c_int = 29;
const SIG_DFL: usize = 0;
const SIG_IGN: usize = 1;

/// Takes the lock of a file for this process alone, without waiting. False if another one holds it.
pub fn lock(file: &File) -> Result<bool> {
    match unsafe { flock(file.as_raw_fd(), LOCK_EX | LOCK_NB) } {
        0 => Ok(true),
        _ => match Error::last_os_error() {
            error if error.kind() == ErrorKind::WouldBlock => Ok(false),
            error => Err(error),
        },
    }
}

/// What asking for a lease found.
#[derive(Clone, Copy, PartialEq, Eq)]
pub enum Lease {
    /// From now on whoever opens the file for writing waits, and `is_leased` tells.
    Taken,
    /// Another process has the file open for writing.
    Writer,
    /// The system has no leases here.
    None,
}

/// Asks to be told before another process opens a file for writing.
pub fn lease(file: &File) -> Lease {
    // Else the signal that tells of it would end this process.
    unsafe { signal(SIGIO, SIG_IGN) };
    match unsafe { fcntl(file.as_raw_fd(), F_SETLEASE, F_RDLCK) } {
        0 => Lease::Taken,
        _ => match Error::last_os_error().raw_os_error() {
            Some(EAGAIN) => Lease::Writer,
            _ => Lease::None,
        },
    }
}

/// Whether a lease still stands, and nobody waits for its end.
pub fn is_leased(file: &File) -> bool {
    unsafe { fcntl(file.as_raw_fd(), F_GETLEASE) == F_RDLCK }
}

/// The extended attributes of a file, access lists among them: names and values. None where the file system has none.
pub fn attributes(file: &File) -> Result<Vec<(CString, Vec<u8>)>> {
    let own = file.as_raw_fd();
    let names = match sized(|to, size| unsafe { flistxattr(own, to.cast(), size) }) {
        Err(error) if error.raw_os_error() == Some(EOPNOTSUPP) => return Ok(Vec::new()),
        names => names?,
    };
    let mut found = Vec::new();
    for name in names.split_inclusive(|byte| *byte == 0) {
        let Ok(name) = CStr::from_bytes_with_nul(name) else {
            continue;
        };
        match sized(|to, size| unsafe { fgetxattr(own, name.as_ptr(), to.cast(), size) }) {
            // It went away meanwhile.
            Err(error) if error.raw_os_error() == Some(ENODATA) => continue,
            value => found.push((name.to_owned(), value?)),
        }
    }
    Ok(found)
}

/// The bytes that a call writes which first is asked for their number.
fn sized(call: impl Fn(*mut u8, usize) -> isize) -> Result<Vec<u8>> {
    let length = |answer: isize| usize::try_from(answer).map_err(|_| Error::last_os_error());
    let mut bytes = vec![0; length(call(std::ptr::null_mut(), 0))?];
    let filled = length(call(bytes.as_mut_ptr(), bytes.len()))?;
    bytes.truncate(filled);
    Ok(bytes)
}

pub fn set_attribute(file: &File, name: &CStr, value: &[u8]) -> Result<()> {
    let own = file.as_raw_fd();
    match unsafe { fsetxattr(own, name.as_ptr(), value.as_ptr().cast(), value.len(), 0) } {
        0 => Ok(()),
        _ => Err(Error::last_os_error()),
    }
}

/// The last signal that asked for an end while one of `Signals` stood; 0 if none did.
static CAUGHT: AtomicI32 = AtomicI32::new(0);

extern "C" fn catch(number: c_int) {
    CAUGHT.store(number, Ordering::SeqCst);
}

/// A file was changed, and only the report is left to print: says so, and ends.
extern "C" fn tell(number: c_int) {
    put(2, "lumbraquay: stopped by a signal; ");
    put(2, done::so_far());
    put(2, "\n");
    end_by(number);
}

/// Writes a text to an open file without any memory. Nothing is done where that fails.
pub fn put(file: c_int, text: &str) {
    unsafe { write(file, text.as_ptr().cast(), text.len()) };
}

/// While it stands, signals that ask for an end wait until they are looked for.
pub struct Signals {
    before: Vec<(c_int, usize)>,
}

impl Signals {
    pub fn held() -> Signals {
        let mut before = Vec::new();
        for number in [SIGHUP, SIGINT, SIGTERM] {
            let handler: extern "C" fn(c_int) = catch;
            let action = unsafe { signal(number, handler as usize) };
            if action == SIG_IGN {
                unsafe { signal(number, SIG_IGN) };
            } else {
                before.push((number, action));
            }
        }
        Signals { before }
    }

    /// The signal that came, if one did.
    pub fn caught() -> Option<i32> {
        Some(CAUGHT.load(Ordering::SeqCst)).filter(|number| *number != 0)
    }
}

impl Drop for Signals {
    fn drop(&mut self) {
        let told: extern "C" fn(c_int) = tell;
        let is_done = done::marked().is_some();
        for (number, action) in self.before.drain(..) {
            let action = if is_done { told as usize } else { action };
            unsafe { signal(number, action) };
        }
    }
}

/// Ends this process by a signal, as if it had not been held.
pub fn end_by(number: i32) {
    unsafe {
        signal(number, SIG_DFL);
        raise(number);
    }
}
