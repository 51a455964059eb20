//! A lock on a file that the kernel drops with its last holder.

use std::fs::File;
use std::io;
use std::os::raw::c_int;
use std::os::unix::io::AsRawFd;

const EXCLUSIVE: c_int = 2; // LOCK_EX
const NOT_BLOCKING: c_int = 4; // LOCK_NB

extern "C" {
    fn flock(file: c_int, operation: c_int) -> c_int;
}

/// Takes the exclusive lock of a file, and returns true if it was got. If `waits` is true, the call
/// waits until the lock is free. The file holds the lock until its last descriptor is closed, that
/// of a command that has inherited it too.
///
/// # Errors
///
/// Those of the system, such as an interrupt.
///
/// # Examples
///
/// ```
/// # fn main() -> std::io::Result<()> {
/// let path = std::env::temp_dir().join(format!("amo-sys-lock.{}", std::process::id()));
/// let (one, two) = (std::fs::File::create(&path)?, std::fs::File::create(&path)?);
/// assert!(amo_sys::lock(&one, false)?);
/// assert!(!amo_sys::lock(&two, false)?);
/// drop(one);
/// assert!(amo_sys::lock(&two, true)?);
/// # std::fs::remove_file(path)
/// # }
/// ```
pub fn lock(file: &File, waits: bool) -> io::Result<bool> {
    let operation = if waits {
        EXCLUSIVE
    } else {
        EXCLUSIVE | NOT_BLOCKING
    };
    // SAFETY: the call takes two numbers, and the descriptor is open.
    if unsafe { flock(file.as_raw_fd(), operation) } == 0 {
        return Ok(true);
    }
    match io::Error::last_os_error() {
        error if error.kind() == io::ErrorKind::WouldBlock => Ok(false),
        error => Err(error),
    }
}
