//! A run: its numbers, its registers, and which workers live here.

use crate::fault::Fault;
use crate::registers::Registers;
use crate::worker::Worker;
use amo_sys::Givens;
use std::collections::BTreeSet;
use std::sync::atomic::AtomicBool;

/// Returns how many registers a run with so many workers and jobs has.
///
/// # Errors
///
/// If a number breaks its limit.
///
/// # Examples
///
/// ```
/// assert_eq!(amo::words(3, 10).unwrap(), 40);
/// ```
pub fn words(workers: u32, jobs: u32) -> Result<usize, Fault> {
    let givens = checked(workers, jobs, workers)?;
    Ok(amo_sys::words(&givens) as usize)
}

/// Returns the numbers of a run, if none breaks its limit.
fn checked(workers: u32, jobs: u32, beta: u32) -> Result<Givens, Fault> {
    let givens = Givens {
        jobs: jobs.into(),
        workers: workers.into(),
        beta: beta.into(),
    };
    amo_sys::next(&givens, 1, &[]).map_err(Fault::of)?;
    Ok(givens)
}

/// Returns a job of a register.
fn job_of(value: u64) -> Result<u32, Fault> {
    u32::try_from(value).map_err(|_| Fault::Damaged)
}

/// A run: so many jobs, shared by so many workers over registers.
///
/// All processes of the run give the same numbers. Threads share a crew by reference, or in an
/// `Arc`.
///
/// # Examples
///
/// ```
/// use std::sync::atomic::AtomicU64;
///
/// # fn main() -> Result<(), amo::Fault> {
/// let words: Vec<AtomicU64> = (0..amo::words(1, 3)?).map(|_| AtomicU64::new(0)).collect();
/// let crew = amo::Crew::new(words, 1, 3)?;
/// let mut paid = vec![];
/// crew.worker(1)?.run(|job| paid.push(job), |_| ())?;
/// assert_eq!(paid, [1, 2, 3]);
/// # Ok(())
/// # }
/// ```
///
/// A crew over words in memory owns them, or has the only reference to them. So a second crew over
/// the same words, whose workers would perform jobs twice, doesn't compile:
///
/// ```compile_fail,E0499
/// use std::sync::atomic::AtomicU64;
///
/// # fn main() -> Result<(), amo::Fault> {
/// let mut words: Vec<AtomicU64> = (0..amo::words(1, 3)?).map(|_| AtomicU64::new(0)).collect();
/// let one = amo::Crew::new(&mut words[..], 1, 3)?;
/// let two = amo::Crew::new(&mut words[..], 1, 3)?;
/// one.worker(1)?.run(|job| println!("pay {job}"), |_| ())?;
/// two.worker(1)?.run(|job| println!("pay {job}"), |_| ())?;
/// # Ok(())
/// # }
/// ```
#[derive(Debug)]
pub struct Crew<R> {
    pub(crate) givens: Givens,
    pub(crate) registers: R,
    pub(crate) taken: Vec<AtomicBool>, // the numbers of the workers that live in this process
}

/// How far a run is. Each list is in rising order.
///
/// # Examples
///
/// ```
/// let standing = amo::Standing::default();
/// assert!(standing.free.is_empty());
/// ```
#[derive(Clone, Debug, Default, PartialEq, Eq)]
pub struct Standing {
    /// The jobs that are recorded as done; those that were in doubt among them.
    pub recorded: Vec<u32>,
    /// The jobs that are claimed and not recorded: at work, or in doubt if the process is dead.
    pub in_hand: Vec<u32>,
    /// The jobs that nobody has claimed.
    pub free: Vec<u32>,
}

impl<R: Registers> Crew<R> {
    /// Returns a run over these registers. Its threshold is the number of workers.
    ///
    /// # Errors
    ///
    /// If a number breaks its limit, or the registers were made for other numbers.
    ///
    /// # Examples
    ///
    /// ```
    /// let words: Vec<std::sync::atomic::AtomicU64> = vec![];
    /// assert!(amo::Crew::new(words, 17, 10).is_err()); // a run has at most 16 workers
    /// ```
    pub fn new(registers: R, workers: u32, jobs: u32) -> Result<Crew<R>, Fault> {
        Crew::with_beta(registers, workers, jobs, workers)
    }

    /// Returns a run with a higher threshold: a worker ends once it sees fewer jobs than that which
    /// it could take.
    ///
    /// # Errors
    ///
    /// If a number breaks its limit, or the registers were made for other numbers.
    ///
    /// # Examples
    ///
    /// ```
    /// let words: Vec<std::sync::atomic::AtomicU64> = vec![];
    /// assert_eq!(amo::Crew::with_beta(words, 2, 10, 5).unwrap().bound(), 5);
    /// ```
    pub fn with_beta(registers: R, workers: u32, jobs: u32, beta: u32) -> Result<Crew<R>, Fault> {
        let givens = checked(workers, jobs, beta)?;
        match registers.numbers() {
            Some(made) if made != (workers, jobs) => {
                return Err(Fault::OtherNumbers(made.0, made.1))
            }
            _ => (),
        }
        let taken = (0..workers).map(|_| AtomicBool::new(false)).collect();
        Ok(Crew {
            givens,
            registers,
            taken,
        })
    }

    /// Begins as the worker of this number, from 1.
    ///
    /// # Errors
    ///
    /// [`Fault::Taken`] if another worker of this crew, or another process by the registers' lock,
    /// has the number; [`Fault::NoSuchWorker`]; and whatever the registers refuse.
    ///
    /// # Examples
    ///
    /// ```
    /// use std::sync::atomic::AtomicU64;
    ///
    /// # fn main() -> Result<(), amo::Fault> {
    /// let words: Vec<AtomicU64> = (0..amo::words(1, 3)?).map(|_| AtomicU64::new(0)).collect();
    /// let crew = amo::Crew::new(words, 1, 3)?;
    /// let worker = crew.worker(1)?;
    /// assert!(matches!(crew.worker(1), Err(amo::Fault::Taken(1))));
    /// drop(worker);
    /// assert!(crew.worker(1).is_ok());
    /// # Ok(())
    /// # }
    /// ```
    pub fn worker(&self, number: u32) -> Result<Worker<'_, R>, Fault> {
        Worker::begin(self, number, false)
    }

    /// Begins as the worker of this number, and waits for it until no other process has the number.
    ///
    /// # Errors
    ///
    /// Those of [`Crew::worker`]; [`Fault::Taken`] only for another worker of this crew.
    ///
    /// # Examples
    ///
    /// ```
    /// use std::sync::atomic::AtomicU64;
    ///
    /// # fn main() -> Result<(), amo::Fault> {
    /// let words: Vec<AtomicU64> = (0..amo::words(1, 3)?).map(|_| AtomicU64::new(0)).collect();
    /// assert!(amo::Crew::new(words, 1, 3)?.worker_when_free(1).is_ok());
    /// # Ok(())
    /// # }
    /// ```
    pub fn worker_when_free(&self, number: u32) -> Result<Worker<'_, R>, Fault> {
        Worker::begin(self, number, true)
    }

    /// Returns the registers.
    ///
    /// # Examples
    ///
    /// ```
    /// let words: Vec<std::sync::atomic::AtomicU64> = vec![];
    /// assert!(amo::Crew::new(words, 1, 3).unwrap().registers().is_empty());
    /// ```
    pub fn registers(&self) -> &R {
        &self.registers
    }

    /// Returns how many jobs are recorded as done at least, once a worker has ended.
    ///
    /// # Examples
    ///
    /// ```
    /// let words: Vec<std::sync::atomic::AtomicU64> = vec![];
    /// assert_eq!(amo::Crew::new(words, 2, 10).unwrap().bound(), 8);
    /// ```
    pub fn bound(&self) -> u64 {
        amo_sys::bound(&self.givens)
    }

    /// Returns how far the run is. It is exact if no worker makes an access meanwhile.
    ///
    /// # Errors
    ///
    /// If a register can't be loaded.
    ///
    /// # Examples
    ///
    /// ```
    /// use std::sync::atomic::AtomicU64;
    ///
    /// # fn main() -> Result<(), amo::Fault> {
    /// let words: Vec<AtomicU64> = (0..amo::words(2, 4)?).map(|_| AtomicU64::new(0)).collect();
    /// let crew = amo::Crew::new(words, 2, 4)?;
    /// crew.worker(1)?.run(|_| (), |_| ())?;
    /// let standing = crew.standing()?;
    /// assert_eq!((standing.recorded, standing.free), (vec![1, 2, 3], vec![4]));
    /// # Ok(())
    /// # }
    /// ```
    pub fn standing(&self) -> Result<Standing, Fault> {
        let (mut recorded, mut in_hand) = (BTreeSet::new(), BTreeSet::new());
        for worker in 1..=self.givens.workers {
            let row = self.row(worker)?;
            if self.load(amo_sys::claims_word(&self.givens, worker))? > row.len() as u64 {
                let word = amo_sys::announcement_word(&self.givens, worker);
                in_hand.insert(job_of(self.load(word)?)?);
            }
            recorded.extend(row);
        }
        let is_free = |job: &u32| !recorded.contains(job) && !in_hand.contains(job);
        let free = (1..=job_of(self.givens.jobs)?).filter(is_free).collect();
        let (recorded, in_hand) = (
            recorded.into_iter().collect(),
            in_hand.into_iter().collect(),
        );
        Ok(Standing {
            recorded,
            in_hand,
            free,
        })
    }

    /// Returns the jobs that a worker has recorded as done.
    fn row(&self, worker: u64) -> Result<Vec<u32>, Fault> {
        let mut row = Vec::new();
        for k in 1..=self.givens.jobs {
            match self.load(amo_sys::entry_word(&self.givens, worker, k))? {
                0 => break,
                job => row.push(job_of(job)?),
            }
        }
        Ok(row)
    }

    fn load(&self, place: u64) -> Result<u64, Fault> {
        Ok(self.registers.load(place as usize)?)
    }
}
