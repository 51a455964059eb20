//! A file as registers that processes share.

use std::fs::File;
use std::io;
use std::ops::Deref;
use std::os::raw::{c_int, c_long, c_void};
use std::os::unix::io::AsRawFd;
use std::ptr;
use std::sync::atomic::AtomicU64;

const READ_AND_WRITE: c_int = 3; // PROT_READ | PROT_WRITE
const SHARED: c_int = 1; // MAP_SHARED
const KEEP_LENGTH: c_int = 1; // FALLOC_FL_KEEP_SIZE
const NO_SUCH_CALL: [i32; 2] = [38, 95]; // ENOSYS, EOPNOTSUPP: the file system can't do it

extern "C" {
    fn mmap(
        at: *mut c_void,
        length: usize,
        protection: c_int,
        flags: c_int,
        file: c_int,
        offset: c_long,
    ) -> *mut c_void;
    fn munmap(at: *mut c_void, length: usize) -> c_int;
    fn fallocate(file: c_int, mode: c_int, offset: i64, length: i64) -> c_int;
}

/// Takes room on the disk for a file, which keeps its length. Without room, the first store to a
/// page of a mapping ends the process by SIGBUS. If the file system can't take room, this does
/// nothing.
///
/// # Errors
///
/// Those of the system, such as a full disk.
///
/// # Examples
///
/// ```
/// # fn main() -> std::io::Result<()> {
/// let path = std::env::temp_dir().join(format!("amo-sys-room.{}", std::process::id()));
/// let file = std::fs::File::create(&path)?;
/// amo_sys::take_room(&file, 8192)?;
/// assert_eq!(file.metadata()?.len(), 0);
/// # std::fs::remove_file(path)
/// # }
/// ```
pub fn take_room(file: &File, length: u64) -> io::Result<()> {
    let length = i64::try_from(length).map_err(|_| io::ErrorKind::InvalidInput)?;
    // SAFETY: the call takes four numbers, and the descriptor is open.
    if unsafe { fallocate(file.as_raw_fd(), KEEP_LENGTH, 0, length) } == 0 {
        return Ok(());
    }
    match io::Error::last_os_error() {
        error if NO_SUCH_CALL.map(Some).contains(&error.raw_os_error()) => Ok(()),
        error => Err(error),
    }
}

/// The words of a file, mapped into memory, which other processes may map too.
///
/// If another process makes the file shorter, an access ends this process by SIGBUS.
///
/// # Examples
///
/// ```
/// use std::sync::atomic::Ordering::SeqCst;
///
/// # fn main() -> std::io::Result<()> {
/// let path = std::env::temp_dir().join(format!("amo-sys-map.{}", std::process::id()));
/// let file = std::fs::OpenOptions::new().read(true).write(true).create(true).open(&path)?;
/// file.set_len(16)?;
/// let words = amo_sys::Map::new(&file, 2)?;
/// words[1].store(7, SeqCst);
/// assert_eq!(amo_sys::Map::new(&file, 2)?[1].load(SeqCst), 7);
/// # std::fs::remove_file(path)
/// # }
/// ```
#[derive(Debug)]
pub struct Map {
    at: *const AtomicU64,
    count: usize,
}

// SAFETY: the words are atomic, and stay where they are until the value is dropped.
unsafe impl Send for Map {}
unsafe impl Sync for Map {}

impl Map {
    /// Maps the first `count` words of a file, which is open to be read and written.
    ///
    /// # Errors
    ///
    /// If the file is shorter, or `count` is 0 or beyond the memory; and those of the system.
    ///
    /// # Examples
    ///
    /// ```
    /// let file = std::fs::File::open("/proc/self/exe").unwrap();
    /// assert!(amo_sys::Map::new(&file, 1).is_err()); // it isn't open to be written
    /// ```
    pub fn new(file: &File, count: usize) -> io::Result<Map> {
        let length = count.checked_mul(8).filter(|length| *length > 0);
        let length = length.ok_or_else(|| io::Error::from(io::ErrorKind::InvalidInput))?;
        if file.metadata()?.len() < length as u64 {
            return Err(io::ErrorKind::UnexpectedEof.into());
        }
        // SAFETY: a new mapping of an open file, at a place that the kernel chooses.
        let at = unsafe {
            mmap(
                ptr::null_mut(),
                length,
                READ_AND_WRITE,
                SHARED,
                file.as_raw_fd(),
                0,
            )
        };
        if at as isize == -1 {
            return Err(io::Error::last_os_error());
        }
        Ok(Map {
            at: at as *const AtomicU64,
            count,
        })
    }
}

impl Deref for Map {
    type Target = [AtomicU64];

    fn deref(&self) -> &[AtomicU64] {
        // SAFETY: the mapping has so many words, is aligned to a page, and lives as long as `self`.
        // Whoever else maps the file changes the words by atomic accesses, or makes bytes of them.
        unsafe { std::slice::from_raw_parts(self.at, self.count) }
    }
}

impl Drop for Map {
    fn drop(&mut self) {
        // SAFETY: the mapping is this value's own, and nobody borrows it any more.
        unsafe {
            munmap(self.at as *mut c_void, self.count * 8);
        }
    }
}
