//! The calls of libamo, and memory and locks that processes share.
//!
//! Begin with [`batch`], or use the crate `amo`, which stands on this one. libamo is proved. No
//! proof sees these declarations, which have to be those of its header, `amo.h`. All unsafe code of
//! the two crates is here.
#![warn(missing_docs)]

mod lock;
mod map;

pub use lock::lock;
pub use map::{take_room, Map};

use std::mem;

/// The three numbers of a run, which all its processes give alike.
///
/// # Examples
///
/// ```
/// let givens = amo_sys::Givens { jobs: 10, workers: 3, beta: 3 };
/// assert_eq!(amo_sys::words(&givens), 40);
/// ```
#[repr(C)]
#[derive(Clone, Copy, Debug, PartialEq, Eq)]
pub struct Givens {
    /// The number of jobs, 0 to 4096. Jobs are numbered from 1.
    pub jobs: u64,
    /// The number of workers, 1 to 16. Workers are numbered from 1.
    pub workers: u64,
    /// The threshold, from `workers` to 65535.
    pub beta: u64,
}

/// The next access of a worker, with the state of the worker.
///
/// # Examples
///
/// ```
/// let next = amo_sys::Next::default();
/// assert_eq!((next.access, next.perform), (amo_sys::NOTHING, 0));
/// ```
#[repr(C)]
#[derive(Clone, Copy, Debug, Default, PartialEq, Eq)]
pub struct Next {
    /// [`NOTHING`], [`LOAD`] or [`STORE`].
    pub access: u32,
    /// The state of the worker, such as [`BEGINNING`].
    pub phase: u32,
    /// The place of the register, from 0.
    pub word: u64,
    /// The value to store, else 0.
    pub value: u64,
    /// The job to perform now, before the access; or 0.
    pub perform: u32,
    /// The job in doubt, or 0. Never perform it: the store records it as done.
    pub doubt: u32,
    /// How many jobs the worker has claimed.
    pub claims: u64,
    /// How many jobs it has recorded as done.
    pub dones: u64,
}

/// An access of a batch, or the loads of a row.
///
/// # Examples
///
/// ```
/// assert_eq!(amo_sys::Item::default().access, 0);
/// ```
#[repr(C)]
#[derive(Clone, Copy, Debug, Default, PartialEq, Eq)]
pub struct Item {
    /// [`LOAD`], [`STORE`] or [`LOAD_ROW`].
    pub access: u64,
    /// The place of the register, from 0; of a row the first one.
    pub word: u64,
    /// The value to store; of a row its last place, where 0 always stands; else 0.
    pub value: u64,
}

/// No access: the worker has ended.
///
/// # Examples
///
/// ```
/// assert_eq!(amo_sys::NOTHING, 0);
/// ```
pub const NOTHING: u32 = 0;
/// Load the register.
///
/// # Examples
///
/// ```
/// assert_eq!(amo_sys::LOAD, 1);
/// ```
pub const LOAD: u32 = 1;
/// Store the value in the register.
///
/// # Examples
///
/// ```
/// assert_eq!(amo_sys::STORE, 2);
/// ```
pub const STORE: u32 = 2;
/// Load the registers from this one on, up to the first that is 0.
///
/// # Examples
///
/// ```
/// assert_eq!(amo_sys::LOAD_ROW, 3);
/// ```
pub const LOAD_ROW: u32 = 3;
/// The phase of a worker whose process loads its own registers.
///
/// # Examples
///
/// ```
/// let givens = amo_sys::Givens { jobs: 1, workers: 1, beta: 1 };
/// assert_eq!(amo_sys::next(&givens, 1, &[]).unwrap().phase, amo_sys::BEGINNING);
/// ```
pub const BEGINNING: u32 = 0;
/// The code of a call whose list has a value that is impossible in its place.
///
/// # Examples
///
/// ```
/// let givens = amo_sys::Givens { jobs: 1, workers: 1, beta: 1 };
/// let heard = [0, 5, 0]; // 5 claims of 1 job
/// assert_eq!(amo_sys::next(&givens, 1, &heard), Err(amo_sys::BAD_HEARD));
/// ```
pub const BAD_HEARD: u32 = 7;
/// The code of a call to which memory was refused. Nothing has changed.
///
/// # Examples
///
/// ```
/// assert_eq!(amo_sys::NO_MEMORY, 8);
/// ```
pub const NO_MEMORY: u32 = 8;
/// The code of [`leave`] if the worker may not leave now.
///
/// # Examples
///
/// ```
/// let givens = amo_sys::Givens { jobs: 1, workers: 1, beta: 1 };
/// assert_eq!(amo_sys::leave(&givens, 1, &[]), Err(amo_sys::MAY_NOT_LEAVE));
/// ```
pub const MAY_NOT_LEAVE: u32 = 9;
/// Room for each batch: twice the workers and 1.
///
/// # Examples
///
/// ```
/// let items = [amo_sys::Item::default(); amo_sys::ALL_ITEMS];
/// assert_eq!(items.len(), 33);
/// ```
pub const ALL_ITEMS: usize = 33;

mod calls {
    use super::{Givens, Item, Next};

    extern "C" {
        pub fn amo_next(
            g: *const Givens,
            p: u64,
            heard: *const u64,
            len: usize,
            n: *mut Next,
        ) -> u32;
        pub fn amo_leave(
            g: *const Givens,
            p: u64,
            heard: *const u64,
            len: usize,
            n: *mut Next,
        ) -> u32;
        pub fn amo_batch(
            g: *const Givens,
            p: u64,
            heard: *const u64,
            len: usize,
            items: *mut Item,
            capacity: usize,
            count: *mut u64,
            n: *mut Next,
        ) -> u32;
        pub fn amo_words(g: *const Givens) -> u64;
        pub fn amo_bound(g: *const Givens) -> u64;
        pub fn amo_announcement_word(g: *const Givens, p: u64) -> u64;
        pub fn amo_claims_word(g: *const Givens, p: u64) -> u64;
        pub fn amo_entry_word(g: *const Givens, p: u64, k: u64) -> u64;
    }
}

/// Returns the next access of a worker whose process has read these values.
///
/// # Errors
///
/// The code of libamo, 1 to 8. Nothing has changed then.
///
/// # Examples
///
/// ```
/// let givens = amo_sys::Givens { jobs: 1, workers: 1, beta: 1 };
/// let next = amo_sys::next(&givens, 1, &[]).unwrap();
/// assert_eq!((next.access, next.word), (amo_sys::LOAD, 1));
/// ```
pub fn next(givens: &Givens, worker: u64, heard: &[u64]) -> Result<Next, u32> {
    let mut next = Next::default();
    // SAFETY: all pointers are those of borrowed values, which are apart; that of an empty slice is
    // aligned and not null. The call writes `next` alone.
    match unsafe { calls::amo_next(givens, worker, heard.as_ptr(), heard.len(), &mut next) } {
        0 => Ok(next),
        code => Err(code),
    }
}

/// Returns the store by which a worker leaves.
///
/// # Errors
///
/// The code of libamo, 1 to 9: [`MAY_NOT_LEAVE`] if the worker loads its own registers, has a job
/// in its hand, or has ended.
///
/// # Examples
///
/// ```
/// let givens = amo_sys::Givens { jobs: 2, workers: 1, beta: 1 };
/// let heard = [0, 0, 0]; // its own registers, all 0
/// let store = amo_sys::leave(&givens, 1, &heard).unwrap();
/// assert_eq!((store.access, store.word, store.value), (amo_sys::STORE, 1, 0));
/// ```
pub fn leave(givens: &Givens, worker: u64, heard: &[u64]) -> Result<Next, u32> {
    let mut next = Next::default();
    // SAFETY: as in `next`.
    match unsafe { calls::amo_leave(givens, worker, heard.as_ptr(), heard.len(), &mut next) } {
        0 => Ok(next),
        code => Err(code),
    }
}

/// Returns the next access of a worker, and writes its batch to `items`: all accesses that are
/// known before another value is read, as many as there are places. The number is how many were
/// written; [`ALL_ITEMS`] places are enough for any batch.
///
/// # Errors
///
/// The code of libamo, 1 to 8. Nothing has changed then.
///
/// # Examples
///
/// ```
/// let givens = amo_sys::Givens { jobs: 2, workers: 1, beta: 1 };
/// let mut items = [amo_sys::Item::default(); amo_sys::ALL_ITEMS];
/// let (next, count) = amo_sys::batch(&givens, 1, &[0, 0, 0], &mut items).unwrap();
/// assert_eq!((next.access, items[0].access), (amo_sys::STORE, 2));
/// assert!(count >= 1);
/// ```
pub fn batch(
    givens: &Givens,
    worker: u64,
    heard: &[u64],
    items: &mut [Item],
) -> Result<(Next, usize), u32> {
    let (mut next, mut count) = (Next::default(), 0);
    // SAFETY: as in `next`. The call writes at most `items.len()` items, and their number.
    let code = unsafe {
        calls::amo_batch(
            givens,
            worker,
            heard.as_ptr(),
            heard.len(),
            items.as_mut_ptr(),
            items.len(),
            &mut count,
            &mut next,
        )
    };
    match code {
        0 => Ok((next, count as usize)),
        code => Err(code),
    }
}

/// Returns how many registers a run has, or 0 if a number breaks its limit.
///
/// # Examples
///
/// ```
/// let givens = amo_sys::Givens { jobs: 4097, workers: 1, beta: 1 };
/// assert_eq!(amo_sys::words(&givens), 0);
/// ```
pub fn words(givens: &Givens) -> u64 {
    // SAFETY: the call reads the givens alone.
    unsafe { calls::amo_words(givens) }
}

/// Returns how many jobs are recorded as done at least once a worker has ended, or 0 if a number
/// breaks its limit.
///
/// # Examples
///
/// ```
/// let givens = amo_sys::Givens { jobs: 10, workers: 2, beta: 2 };
/// assert_eq!(amo_sys::bound(&givens), 8);
/// ```
pub fn bound(givens: &Givens) -> u64 {
    // SAFETY: as in `words`.
    unsafe { calls::amo_bound(givens) }
}

/// Returns the place of a worker's announcement, or 0 if there is no such worker.
///
/// # Examples
///
/// ```
/// let givens = amo_sys::Givens { jobs: 10, workers: 2, beta: 2 };
/// assert_eq!(amo_sys::announcement_word(&givens, 2), 2);
/// ```
pub fn announcement_word(givens: &Givens, worker: u64) -> u64 {
    // SAFETY: as in `words`.
    unsafe { calls::amo_announcement_word(givens, worker) }
}

/// Returns the place of a worker's count of claims, or 0 if there is no such worker.
///
/// # Examples
///
/// ```
/// let givens = amo_sys::Givens { jobs: 10, workers: 2, beta: 2 };
/// assert_eq!(amo_sys::claims_word(&givens, 1), 3);
/// ```
pub fn claims_word(givens: &Givens, worker: u64) -> u64 {
    // SAFETY: as in `words`.
    unsafe { calls::amo_claims_word(givens, worker) }
}

/// Returns the place of the k-th entry of a worker's row, or 0 if there is none. Entries go from 1
/// to `jobs + 1`, and the last one is always 0.
///
/// # Examples
///
/// ```
/// let givens = amo_sys::Givens { jobs: 10, workers: 2, beta: 2 };
/// assert_eq!(amo_sys::entry_word(&givens, 1, 1), 5);
/// assert_eq!(amo_sys::entry_word(&givens, 1, 12), 0);
/// ```
pub fn entry_word(givens: &Givens, worker: u64, k: u64) -> u64 {
    // SAFETY: as in `words`.
    unsafe { calls::amo_entry_word(givens, worker, k) }
}

/// The structs have the sizes of those of the header, on the one machine that libamo runs on.
const _: [(); 48] = [(); mem::size_of::<Next>()];
const _: [(); 24] = [(); mem::size_of::<Item>()];
const _: [(); 24] = [(); mem::size_of::<Givens>()];
