//! The registers that the workers of a run share.

use std::fs::File;
use std::io;
use std::sync::atomic::{AtomicU64, Ordering::SeqCst};

/// The registers of a run, which its workers share.
///
/// All are 0 at first, only workers of one run write to them, and all processes see the accesses in
/// one order. They outlive the processes. [`MappedFile`](crate::MappedFile) has registers for
/// processes. For threads, a crew takes a `Vec<AtomicU64>`, or a slice as `&mut [AtomicU64]`. So
/// no second crew can have the same words. A slice that others can reach, `&[AtomicU64]`, is no
/// `Registers`.
///
/// **If you write registers whose `lock` holds nothing, make sure that no two workers of one
/// number live at once** in different processes, or in different crews of one process. Otherwise
/// jobs are performed twice, and nothing shows it.
///
/// # Examples
///
/// Registers that count their accesses:
///
/// ```
/// use amo::Registers;
/// use std::io;
/// use std::sync::atomic::{AtomicU64, Ordering::SeqCst};
///
/// struct Counted(Vec<AtomicU64>, AtomicU64);
///
/// impl Registers for Counted {
///     fn load(&self, place: usize) -> io::Result<u64> {
///         self.1.fetch_add(1, SeqCst);
///         self.0.load(place)
///     }
///
///     fn store(&self, place: usize, value: u64) -> io::Result<()> {
///         self.1.fetch_add(1, SeqCst);
///         self.0.store(place, value)
///     }
/// }
///
/// # fn main() -> Result<(), amo::Fault> {
/// let words = (0..amo::words(1, 3)?).map(|_| AtomicU64::new(0)).collect();
/// let crew = amo::Crew::new(Counted(words, AtomicU64::new(0)), 1, 3)?;
/// crew.worker(1)?.run(|_| (), |_| ())?;
/// assert_eq!(crew.registers().1.load(SeqCst), 12); // 3 loads at the start, and 3 for each job
/// # Ok(())
/// # }
/// ```
pub trait Registers {
    /// Returns the value of the register at this place.
    ///
    /// # Errors
    ///
    /// Whatever keeps it from being loaded.
    fn load(&self, place: usize) -> io::Result<u64>;

    /// Stores a value in the register at this place, and returns once all see it.
    ///
    /// # Errors
    ///
    /// Whatever keeps it from being stored. It may have been stored all the same. **A store that
    /// fails must never land after it returned.** The worker reads the register anew. If a store
    /// lands later than that, a job may be performed twice.
    fn store(&self, place: usize, value: u64) -> io::Result<()>;

    /// Returns the numbers of workers and jobs for which these registers were made, if they know
    /// them. A crew with other numbers refuses them.
    fn numbers(&self) -> Option<(u32, u32)> {
        None
    }

    /// Holds the number of a worker, or returns None if another process holds it. If `waits` is
    /// true, it waits until the number is free.
    ///
    /// # Errors
    ///
    /// Whatever keeps the lock from being tried.
    fn lock(&self, number: u32, waits: bool) -> io::Result<Option<Lock>> {
        let _ = (number, waits);
        Ok(Some(Lock::default()))
    }
}

/// What holds the number of a worker until it is dropped: the lock of a file, or nothing.
///
/// # Examples
///
/// ```
/// assert!(amo::Lock::default().file().is_none());
/// ```
#[derive(Debug, Default)]
pub struct Lock(Option<File>);

impl Lock {
    /// Returns the lock that this file holds until its last descriptor is closed.
    ///
    /// # Examples
    ///
    /// ```
    /// let file = std::fs::File::open("/dev/null").unwrap();
    /// assert!(amo::Lock::of(file).file().is_some());
    /// ```
    pub fn of(file: File) -> Lock {
        Lock(Some(file))
    }

    /// Returns the file that holds the lock. A command that gets a copy of it, such as its standard
    /// input, holds the lock too.
    ///
    /// # Examples
    ///
    /// ```
    /// assert!(amo::Lock::default().file().is_none());
    /// ```
    pub fn file(&self) -> Option<&File> {
        self.0.as_ref()
    }
}

/// Returns the word at this place.
fn word(words: &[AtomicU64], place: usize) -> io::Result<&AtomicU64> {
    words.get(place).ok_or_else(|| {
        let count = words.len();
        let text = format!("register {place}: there are {count}; give those of the whole run");
        io::Error::new(io::ErrorKind::InvalidInput, text)
    })
}

/// Returns the value of a word.
pub(crate) fn load(words: &[AtomicU64], place: usize) -> io::Result<u64> {
    Ok(word(words, place)?.load(SeqCst))
}

/// Stores a value in a word.
pub(crate) fn store(words: &[AtomicU64], place: usize, value: u64) -> io::Result<()> {
    word(words, place)?.store(value, SeqCst);
    Ok(())
}

// A crew is the only one over these two, so the numbers that it holds are enough. Through a shared
// reference or an `Arc` a second crew could have the same words.

impl Registers for Vec<AtomicU64> {
    fn load(&self, place: usize) -> io::Result<u64> {
        load(self, place)
    }

    fn store(&self, place: usize, value: u64) -> io::Result<()> {
        store(self, place, value)
    }
}

impl Registers for &mut [AtomicU64] {
    fn load(&self, place: usize) -> io::Result<u64> {
        load(self, place)
    }

    fn store(&self, place: usize, value: u64) -> io::Result<()> {
        store(self, place, value)
    }
}
