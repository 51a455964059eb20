//! Crews over the same words. For words in memory the types refuse the second crew; registers that
//! a user writes must hold the numbers. If they don't, a job is performed twice.

use amo::{Crew, Fault, Lock, Registers, Step};
use std::fs::{self, OpenOptions};
use std::io;
use std::path::{Path, PathBuf};
use std::process;
use std::sync::atomic::{AtomicU64, Ordering::SeqCst};

/// Registers over words that others can reach. They hold a number by a lock on a file, or not at
/// all, which is a mistake.
#[derive(Debug)]
struct Shared<'a> {
    words: &'a [AtomicU64],
    locks: Option<&'a Path>,
}

impl Registers for Shared<'_> {
    fn load(&self, place: usize) -> io::Result<u64> {
        Ok(self.words[place].load(SeqCst))
    }

    fn store(&self, place: usize, value: u64) -> io::Result<()> {
        self.words[place].store(value, SeqCst);
        Ok(())
    }

    fn lock(&self, number: u32, waits: bool) -> io::Result<Option<Lock>> {
        let folder = match self.locks {
            Some(folder) => folder,
            None => return Ok(Some(Lock::default())),
        };
        let path = folder.join(number.to_string());
        let file = OpenOptions::new()
            .write(true)
            .create(true)
            .truncate(false)
            .open(path)?;
        let is_held = amo_sys::lock(&file, waits)?;
        Ok(is_held.then(|| Lock::of(file)))
    }
}

fn words() -> Vec<AtomicU64> {
    let count = amo::words(1, 2).expect("the numbers keep the limits");
    (0..count).map(|_| AtomicU64::new(0)).collect()
}

fn crew_over<'a>(words: &'a [AtomicU64], locks: Option<&'a Path>) -> Crew<Shared<'a>> {
    Crew::new(Shared { words, locks }, 1, 2).expect("the numbers keep the limits")
}

#[test]
fn two_crews_of_which_each_has_a_worker_1() {
    let folder: PathBuf = std::env::temp_dir().join(format!("amo-crews.{}", process::id()));
    fs::create_dir(&folder).expect("a folder");
    let words = words();
    let (one, two) = (
        crew_over(&words, Some(&folder)),
        crew_over(&words, Some(&folder)),
    );
    let worker = one.worker(1).expect("nobody has this number");
    assert!(matches!(two.worker(1), Err(Fault::Taken(1))));
    drop(worker);
    assert!(two.worker(1).is_ok());
    fs::remove_dir_all(&folder).expect("the folder");
}

#[test]
fn a_job_performed_twice_that_does_not_show() {
    let words = words();
    let (one, two) = (crew_over(&words, None), crew_over(&words, None));
    let mut first = one.worker(1).expect("nobody has this number");
    let mut second = two.worker(1).expect("these registers hold nothing");
    let (mut performed, mut doubts) = (vec![], vec![]);
    match first.step().expect("no fault") {
        Step::Perform(job) => {
            performed.push(job.number());
            // worker 1 of the other crew takes this job for a doubt, and performs the next one
            second
                .run(|job| performed.push(job), |doubt| doubts.push(doubt.job()))
                .expect("no fault");
            job.done().expect("no fault");
        }
        step => panic!("{step:?}"),
    }
    first
        .run(|job| performed.push(job), |doubt| doubts.push(doubt.job()))
        .expect("no fault");
    assert_eq!((performed, doubts), (vec![1, 2, 2], vec![1]));
}
