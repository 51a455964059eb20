//! One worker of a run.

use crate::crew::Crew;
use crate::fault::Fault;
use crate::registers::{Lock, Registers};
use amo_sys::{Item, ALL_ITEMS};
use std::mem;
use std::process;
use std::sync::atomic::Ordering::SeqCst;

/// The one worker of its number, until it is dropped. A worker that is dropped anywhere is as dead
/// as a killed process.
///
/// # Examples
///
/// ```
/// use amo::Step;
/// use std::sync::atomic::AtomicU64;
///
/// # fn main() -> Result<(), amo::Fault> {
/// let words: Vec<AtomicU64> = (0..amo::words(1, 3)?).map(|_| AtomicU64::new(0)).collect();
/// let crew = amo::Crew::new(words, 1, 3)?;
/// let mut worker = crew.worker(1)?;
/// loop {
///     match worker.step()? {
///         Step::Perform(job) => {
///             println!("pay {}", job.number());
///             job.done()?;
///         }
///         Step::Doubt(doubt) => println!("find out what became of {}", doubt.job()),
///         Step::Over => break,
///     }
/// }
/// # Ok(())
/// # }
/// ```
#[derive(Debug)]
pub struct Worker<'a, R: Registers> {
    crew: &'a Crew<R>,
    number: u32,
    process: u32,       // a child process has a copy of the worker
    heard: Vec<u64>,    // the values that it has read since it began, and 0 for each store
    next: Vec<Item>, // the accesses after the one that recorded the last job, until the next step
    has_reported: bool, // the doubt that it found as it began
    lock: Lock,
}

/// What a worker does next.
///
/// # Examples
///
/// ```
/// # fn main() -> Result<(), amo::Fault> {
/// let words: Vec<std::sync::atomic::AtomicU64> =
///     (0..amo::words(1, 0)?).map(|_| Default::default()).collect();
/// let crew = amo::Crew::new(words, 1, 0)?;
/// assert!(matches!(crew.worker(1)?.step()?, amo::Step::Over)); // there is no job
/// # Ok(())
/// # }
/// ```
#[derive(Debug)]
pub enum Step<'w, 'a, R: Registers> {
    /// Perform this job, and then call [`Job::done`].
    Perform(Job<'w, 'a, R>),
    /// Find out what became of this job, and never perform it. **Write it to a disk before the next
    /// step**, which records it as done: afterwards nothing shows the doubt.
    Doubt(Doubt),
    /// The worker has ended.
    Over,
}

/// A job in the hand of a worker. No other worker gets it.
///
/// If it is dropped without [`Job::done`], as in a panic, it is in doubt: the next step reports it.
///
/// # Examples
///
/// ```
/// use amo::Step;
///
/// # fn main() -> Result<(), amo::Fault> {
/// let words: Vec<std::sync::atomic::AtomicU64> =
///     (0..amo::words(1, 2)?).map(|_| Default::default()).collect();
/// let crew = amo::Crew::new(words, 1, 2)?;
/// let mut worker = crew.worker(1)?;
/// if let Step::Perform(job) = worker.step()? {
///     drop(job); // job 1
/// }
/// assert!(matches!(worker.step()?, Step::Doubt(doubt) if doubt.job() == 1));
/// assert!(matches!(worker.step()?, Step::Perform(job) if job.number() == 2));
/// # Ok(())
/// # }
/// ```
#[derive(Debug)]
#[must_use = "a job that is dropped is in doubt"]
pub struct Job<'w, 'a, R: Registers> {
    worker: &'w mut Worker<'a, R>,
    heard: Vec<u64>,  // the worker's list, which it lacks meanwhile
    items: Vec<Item>, // the accesses that follow, of which the first records the job
    number: u32,
}

/// A job that an earlier worker of the number had in its hand. It may have been performed or not,
/// and nobody performs it from now on.
///
/// # Examples
///
/// ```
/// fn report(doubt: amo::Doubt) {
///     println!("find out what became of job {}", doubt.job());
/// }
/// ```
#[derive(Clone, Copy, Debug, PartialEq, Eq)]
pub struct Doubt(u32);

impl Doubt {
    /// Returns the number of the job, from 1.
    ///
    /// # Examples
    ///
    /// ```
    /// let number_of = |doubt: amo::Doubt| -> u32 { doubt.job() };
    /// # let _ = number_of;
    /// ```
    pub fn job(self) -> u32 {
        self.0
    }
}

impl<'a, R: Registers> Worker<'a, R> {
    /// Begins as this worker; the locks are those of [`Crew::worker`].
    pub(crate) fn begin(crew: &'a Crew<R>, number: u32, waits: bool) -> Result<Self, Fault> {
        amo_sys::next(&crew.givens, number.into(), &[]).map_err(Fault::of)?;
        if crew.taken[number as usize - 1].swap(true, SeqCst) {
            return Err(Fault::Taken(number));
        }
        let mut worker = Worker {
            crew,
            number,
            process: process::id(),
            heard: Vec::new(),
            next: Vec::new(),
            has_reported: false,
            lock: Lock::default(),
        };
        // from here on a return drops the worker, which gives the number up
        worker.lock = crew
            .registers
            .lock(number, waits)?
            .ok_or(Fault::Taken(number))?;
        Ok(worker)
    }

    /// Returns the number of this worker, from 1.
    ///
    /// # Examples
    ///
    /// ```
    /// # fn main() -> Result<(), amo::Fault> {
    /// let crew = amo::Crew::new(Vec::<std::sync::atomic::AtomicU64>::new(), 2, 3)?;
    /// assert_eq!(crew.worker(2)?.number(), 2);
    /// # Ok(())
    /// # }
    /// ```
    pub fn number(&self) -> u32 {
        self.number
    }

    /// Returns the lock that shows other processes that this worker lives. If a command that
    /// performs a job inherits its file, nobody else begins as this worker before the command is
    /// gone too.
    ///
    /// # Examples
    ///
    /// ```
    /// # fn main() -> Result<(), amo::Fault> {
    /// let crew = amo::Crew::new(Vec::<std::sync::atomic::AtomicU64>::new(), 2, 3)?;
    /// assert!(crew.worker(2)?.lock().file().is_none()); // a slice holds nothing
    /// # Ok(())
    /// # }
    /// ```
    pub fn lock(&self) -> &Lock {
        &self.lock
    }

    /// Goes on to the next job, to a doubt, or to the end.
    ///
    /// # Errors
    ///
    /// [`Fault::Damaged`], [`Fault::NoMemory`], [`Fault::OtherProcess`], and [`Fault::Registers`]
    /// if an access fails: the worker begins again at the next step then.
    ///
    /// # Examples
    ///
    /// See [`Worker`]. Registers that are too few are refused:
    ///
    /// ```
    /// # fn main() -> Result<(), amo::Fault> {
    /// let crew = amo::Crew::new(Vec::<std::sync::atomic::AtomicU64>::new(), 1, 3)?;
    /// assert!(matches!(crew.worker(1)?.step(), Err(amo::Fault::Registers(_))));
    /// # Ok(())
    /// # }
    /// ```
    pub fn step(&mut self) -> Result<Step<'_, 'a, R>, Fault> {
        self.check_process()?;
        let mut items = [Item::default(); ALL_ITEMS];
        for item in mem::take(&mut self.next) {
            self.carry_out(&item)?;
        }
        loop {
            let (next, count) = amo_sys::batch(
                &self.crew.givens,
                self.number.into(),
                &self.heard,
                &mut items,
            )
            .map_err(Fault::of)?;
            if next.access == amo_sys::NOTHING {
                return Ok(Step::Over);
            }
            if next.doubt != 0 && !self.has_reported {
                self.has_reported = true;
                return Ok(Step::Doubt(Doubt(next.doubt)));
            }
            if next.perform != 0 {
                let heard = mem::take(&mut self.heard);
                self.has_reported = false;
                return Ok(Step::Perform(Job {
                    worker: self,
                    heard,
                    items: items[..count].to_vec(),
                    number: next.perform,
                }));
            }
            for item in &items[..count] {
                self.carry_out(item)?;
            }
        }
    }

    /// Performs jobs until the worker has ended. `doubt` gets each job in doubt. If `perform` or
    /// `doubt` panics, the next step reports that job as in doubt.
    ///
    /// # Errors
    ///
    /// Those of [`Worker::step`].
    ///
    /// # Examples
    ///
    /// ```
    /// # fn main() -> Result<(), amo::Fault> {
    /// let words: Vec<std::sync::atomic::AtomicU64> =
    ///     (0..amo::words(1, 2)?).map(|_| Default::default()).collect();
    /// let crew = amo::Crew::new(words, 1, 2)?;
    /// crew.worker(1)?.run(|job| println!("pay {job}"), |doubt| println!("{doubt:?}"))?;
    /// # Ok(())
    /// # }
    /// ```
    pub fn run(
        &mut self,
        mut perform: impl FnMut(u32),
        mut doubt: impl FnMut(Doubt),
    ) -> Result<(), Fault> {
        loop {
            let found = match self.step()? {
                Step::Perform(job) => {
                    perform(job.number());
                    job.done()?;
                    continue;
                }
                Step::Doubt(found) => found,
                Step::Over => return Ok(()),
            };
            self.has_reported = false; // if `doubt` panics, the next step reports the job again
            doubt(found);
            self.has_reported = true;
        }
    }

    /// Ends this worker, and takes back the job that it has announced, so that others may have it.
    /// A worker with a doubt that isn't recorded yet, or one that has ended, has none to take back.
    ///
    /// # Errors
    ///
    /// Those of [`Worker::step`].
    ///
    /// # Examples
    ///
    /// ```
    /// # fn main() -> Result<(), amo::Fault> {
    /// let words: Vec<std::sync::atomic::AtomicU64> =
    ///     (0..amo::words(1, 2)?).map(|_| Default::default()).collect();
    /// let crew = amo::Crew::new(words, 1, 2)?;
    /// let mut worker = crew.worker(1)?;
    /// if let amo::Step::Perform(job) = worker.step()? {
    ///     job.done()?;
    /// }
    /// worker.leave()?;
    /// assert_eq!(crew.standing()?.recorded, [1]);
    /// # Ok(())
    /// # }
    /// ```
    pub fn leave(mut self) -> Result<(), Fault> {
        self.check_process()?;
        let (givens, number) = (&self.crew.givens, self.number.into());
        loop {
            let next = amo_sys::next(givens, number, &self.heard).map_err(Fault::of)?;
            if next.phase != amo_sys::BEGINNING {
                break;
            }
            self.carry_out(&Item {
                access: next.access.into(),
                word: next.word,
                value: 0,
            })?;
        }
        match amo_sys::leave(givens, number, &self.heard) {
            Ok(next) => Ok(self.crew.registers.store(next.word as usize, next.value)?),
            Err(amo_sys::MAY_NOT_LEAVE) => Ok(()),
            Err(code) => Err(Fault::of(code)),
        }
    }

    /// Refuses to go on in a child process, since its parent goes on too.
    fn check_process(&self) -> Result<(), Fault> {
        if self.process == process::id() {
            Ok(())
        } else {
            Err(Fault::OtherProcess(self.number))
        }
    }

    /// Makes the accesses of an item. If one fails or panics, the worker begins again at its next
    /// step, since nobody knows whether the access was made.
    fn carry_out(&mut self, item: &Item) -> Result<(), Fault> {
        let (mut heard, has_reported) = (mem::take(&mut self.heard), self.has_reported);
        self.has_reported = false;
        self.accesses(item, &mut heard)?;
        self.heard = heard;
        self.has_reported = has_reported;
        Ok(())
    }

    fn accesses(&self, item: &Item, heard: &mut Vec<u64>) -> Result<(), Fault> {
        let registers = &self.crew.registers;
        if item.access == amo_sys::STORE.into() {
            registers.store(item.word as usize, item.value)?;
            heard.push(0);
            return Ok(());
        }
        for place in item.word..=item.word.max(item.value) {
            let value = registers.load(place as usize)?;
            heard.push(value);
            if value == 0 {
                break;
            }
        }
        Ok(())
    }
}

impl<R: Registers> Drop for Worker<'_, R> {
    fn drop(&mut self) {
        self.lock = Lock::default(); // given up before the number
        self.crew.taken[self.number as usize - 1].store(false, SeqCst);
    }
}

impl<R: Registers> Job<'_, '_, R> {
    /// Returns the number of the job, from 1.
    ///
    /// # Examples
    ///
    /// See [`Job`].
    ///
    /// ```
    /// fn pay(job: &amo::Job<'_, '_, amo::MappedFile>) {
    ///     println!("pay {}", job.number());
    /// }
    /// ```
    pub fn number(&self) -> u32 {
        self.number
    }

    /// Records that the job was performed.
    ///
    /// # Errors
    ///
    /// Those of [`Worker::step`]. The job may be in doubt then: the next step reports it if it is.
    ///
    /// # Examples
    ///
    /// See [`Worker`].
    ///
    /// ```
    /// fn pay(job: amo::Job<'_, '_, amo::MappedFile>) -> Result<(), amo::Fault> {
    ///     println!("pay {}", job.number());
    ///     job.done()
    /// }
    /// ```
    pub fn done(self) -> Result<(), Fault> {
        let (worker, mut items) = (self.worker, self.items.into_iter());
        worker.check_process()?;
        worker.heard = self.heard;
        if let Some(first) = items.next() {
            worker.carry_out(&first)?;
        }
        worker.next = items.collect();
        Ok(())
    }
}
