//! Workers that die at each of their accesses in turn. Two mistakes must show. Other workers go on
//! after a panic in each of their accesses.

use amo::{Crew, Fault, Registers, Step};
use std::cell::Cell;
use std::io;
use std::panic::{catch_unwind, AssertUnwindSafe};
use std::sync::atomic::AtomicU64;

const WORKERS: u32 = 2;
const JOBS: u32 = 3;
const NEVER: u32 = u32::MAX;

/// Registers of which each access fails once so many were made, before it or after it.
struct Dying<'a> {
    words: &'a mut [AtomicU64],
    left: Cell<u32>,
    is_made: bool,
    forgets: Cell<bool>, // whether loads show 0 until the first store, which is a mistake
}

impl Dying<'_> {
    fn is_dead(&self) -> bool {
        match self.left.get() {
            0 => true,
            left => {
                self.left.set(left - 1);
                false
            }
        }
    }
}

fn death() -> io::Error {
    io::ErrorKind::BrokenPipe.into()
}

impl Registers for Dying<'_> {
    fn load(&self, place: usize) -> io::Result<u64> {
        if self.is_dead() {
            return Err(death());
        }
        let value = self.words.load(place)?;
        Ok(if self.forgets.get() { 0 } else { value })
    }

    fn store(&self, place: usize, value: u64) -> io::Result<()> {
        let is_dead = self.is_dead();
        if !is_dead || self.is_made {
            self.forgets.set(false);
            self.words.store(place, value)?;
        }
        if is_dead {
            return Err(death());
        }
        Ok(())
    }
}

#[derive(Clone, Copy, PartialEq)]
enum Mistake {
    None,
    PerformsDoubts,
    ForgetsRegisters,
}

/// One life of a worker, which ends it at an access. Returns true if it has ended on its own.
fn live(
    words: &mut [AtomicU64],
    number: u32,
    dies_at: (u32, bool),
    mistake: Mistake,
    performed: &mut Vec<u32>,
) -> bool {
    let registers = Dying {
        words,
        left: Cell::new(dies_at.0),
        is_made: dies_at.1,
        forgets: Cell::new(mistake == Mistake::ForgetsRegisters),
    };
    let crew = Crew::new(registers, WORKERS, JOBS).expect("the numbers keep the limits");
    let mut worker = crew.worker(number).expect("nobody has this number");
    loop {
        match worker.step() {
            Ok(Step::Perform(job)) => {
                performed.push(job.number());
                if job.done().is_err() {
                    return false;
                }
            }
            Ok(Step::Doubt(doubt)) if mistake == Mistake::PerformsDoubts => {
                performed.push(doubt.job());
            }
            Ok(Step::Doubt(_)) => (),
            Ok(Step::Over) => return true,
            Err(Fault::Registers(_)) => return false,
            Err(fault) => panic!("{fault}"),
        }
    }
}

/// Has worker 1 die at an access, and come back once the other has ended. Returns the performed
/// jobs, and true if worker 1 didn't die.
fn run(first: (u32, bool), second: (u32, bool), mistake: Mistake) -> (Vec<u32>, bool) {
    let count = amo::words(WORKERS, JOBS).expect("the numbers keep the limits");
    let mut words: Vec<AtomicU64> = (0..count).map(|_| AtomicU64::new(0)).collect();
    let mut performed = Vec::new();
    let has_ended = live(&mut words, 1, first, mistake, &mut performed);
    live(&mut words, 2, (NEVER, false), Mistake::None, &mut performed);
    live(&mut words, 1, second, mistake, &mut performed);
    live(&mut words, 1, (NEVER, false), mistake, &mut performed);
    performed.sort_unstable();
    (performed, has_ended)
}

fn has_twice(jobs: &[u32]) -> bool {
    jobs.windows(2).any(|pair| pair[0] == pair[1])
}

/// Returns how many of all pairs of deaths have a job that was performed twice, and how many pairs
/// there are.
fn all_runs(mistake: Mistake) -> (u32, u32) {
    let (mut twice, mut runs) = (0, 0);
    for is_made in [false, true] {
        for first in 0.. {
            let mut has_ended = false;
            for second in 0..20 {
                let (performed, ended) = run((first, is_made), (second, is_made), mistake);
                twice += u32::from(has_twice(&performed));
                runs += 1;
                has_ended = ended;
            }
            if has_ended {
                break;
            }
        }
    }
    (twice, runs)
}

#[test]
fn a_death_after_which_a_job_is_performed_twice() {
    let (twice, runs) = all_runs(Mistake::None);
    assert_eq!(twice, 0);
    assert!(runs > 400, "{runs}"); // each of some 15 accesses, twice, with 20 second deaths
}

#[test]
fn performed_doubts_that_do_not_show() {
    assert!(all_runs(Mistake::PerformsDoubts).0 > 0);
}

#[test]
fn forgotten_registers_that_do_not_show() {
    assert!(all_runs(Mistake::ForgetsRegisters).0 > 0);
}

#[test]
fn a_next_job_that_is_claimed_as_one_is_recorded() {
    let count = amo::words(1, 3).expect("valid numbers");
    let words: Vec<AtomicU64> = (0..count).map(|_| AtomicU64::new(0)).collect();
    let crew = Crew::new(words, 1, 3).expect("a crew");
    let mut worker = crew.worker(1).expect("nobody has this number");
    match worker.step().expect("no fault") {
        Step::Perform(job) => job.done().expect("no fault"),
        step => panic!("{step:?}"),
    }
    drop(worker);
    let standing = crew.standing().expect("no fault");
    assert_eq!((standing.recorded, standing.in_hand), (vec![1], vec![]));
    // a mistake: a worker that takes one more step has claimed job 2
    let mut worker = crew.worker(1).expect("nobody has this number");
    assert!(matches!(worker.step(), Ok(Step::Perform(job)) if job.number() == 2));
    drop(worker);
    assert_eq!(crew.standing().expect("no fault").in_hand, [2]);
}

/// Registers of which one access panics, before it is made or after that.
struct Panicking {
    words: Vec<AtomicU64>,
    left: Cell<u32>, // the accesses before that one
    is_made: bool,
}

impl Panicking {
    /// Counts an access, and returns true if it is the one that panics.
    fn panics(&self) -> bool {
        let left = self.left.get();
        self.left.set(left.wrapping_sub(1)); // beyond 0 there is no other one
        left == 0
    }
}

impl Registers for Panicking {
    fn load(&self, place: usize) -> io::Result<u64> {
        assert!(!self.panics(), "a load");
        self.words.load(place)
    }

    fn store(&self, place: usize, value: u64) -> io::Result<()> {
        let panics = self.panics();
        if !panics || self.is_made {
            self.words.store(place, value)?;
        }
        assert!(!panics, "a store");
        Ok(())
    }
}

/// Has one worker go on after a panic in an access. Returns the performed jobs, those in doubt, and
/// true if there was such an access.
fn run_with_a_panic(access: u32, is_made: bool) -> (Vec<u32>, Vec<u32>, bool) {
    let count = amo::words(1, JOBS).expect("the numbers keep the limits");
    let registers = Panicking {
        words: (0..count).map(|_| AtomicU64::new(0)).collect(),
        left: Cell::new(access),
        is_made,
    };
    let crew = Crew::new(registers, 1, JOBS).expect("the numbers keep the limits");
    let mut worker = crew.worker(1).expect("nobody has this number");
    let (mut performed, mut doubts) = (vec![], vec![]);
    let mut work = || {
        let ran = AssertUnwindSafe(|| {
            worker.run(|job| performed.push(job), |doubt| doubts.push(doubt.job()))
        });
        catch_unwind(ran).map(|ended| ended.expect("no fault"))
    };
    let has_panicked = work().is_err();
    if has_panicked {
        work().expect("one access panics");
    }
    (performed, doubts, has_panicked)
}

#[test]
fn a_panic_after_which_a_job_is_performed_twice() {
    for is_made in [false, true] {
        for access in 0.. {
            let (mut performed, doubts, has_panicked) = run_with_a_panic(access, is_made);
            performed.sort_unstable();
            assert!(
                !has_twice(&performed),
                "access {access}, {is_made}: {performed:?}"
            );
            // one worker alone performs each job, or finds it in doubt
            assert!((1..=JOBS).all(|job| performed.contains(&job) || doubts.contains(&job)));
            if !has_panicked {
                assert_eq!((performed, doubts), (vec![1, 2, 3], vec![]));
                assert_eq!(access, 3 + 3 * JOBS); // 3 loads at the start, and 3 stores for each job
                break;
            }
        }
    }
}
