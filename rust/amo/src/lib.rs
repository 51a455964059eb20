//! Runs jobs that must never run twice: each job at most once, by workers that may be killed.
//!
//! Workers are threads or processes that share registers. Whoever is killed, no job is handed out
//! twice. A job whose worker was killed is *in doubt*: it may have been performed, and no worker
//! gets it again. Begin with [`Crew`].
//!
//! ```
//! use std::sync::atomic::AtomicU64;
//!
//! # fn main() -> Result<(), amo::Fault> {
//! let (workers, jobs) = (2, 10);
//! let words: Vec<AtomicU64> =
//!     (0..amo::words(workers, jobs)?).map(|_| AtomicU64::new(0)).collect();
//! let crew = amo::Crew::new(words, workers, jobs)?;
//! std::thread::scope(|scope| {
//!     for number in 1..=workers {
//!         let crew = &crew;
//!         scope.spawn(move || {
//!             let mut worker = crew.worker(number)?;
//!             worker.run(|job| println!("pay {job}"), |doubt| println!("find out: {doubt:?}"))
//!         });
//!     }
//! });
//! assert!(crew.standing()?.recorded.len() as u64 >= crew.bound());
//! # Ok(())
//! # }
//! ```
//!
//! libamo, which names each access, is proved. No proof sees this crate, the registers, or whether
//! your processes keep the rules of [`Registers`]. If all workers end, up to `beta + workers - 2`
//! jobs stay undone, those in doubt among them.
#![forbid(unsafe_code)]
#![warn(missing_docs)]

mod crew;
mod fault;
mod file;
mod registers;
mod worker;

pub use crew::{words, Crew, Standing};
pub use fault::Fault;
pub use file::MappedFile;
pub use registers::{Lock, Registers};
pub use worker::{Doubt, Job, Step, Worker};

/// The version of this crate.
///
/// # Examples
///
/// ```
/// assert_eq!(amo::VERSION.split('.').next(), Some("0"));
/// ```
pub const VERSION: &str = env!("CARGO_PKG_VERSION");
