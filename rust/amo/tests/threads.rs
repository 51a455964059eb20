//! Crews of threads. Workers give up at random points, as if they had died, and others begin with
//! their numbers.

use amo::{Crew, Step};
use std::sync::atomic::{AtomicU32, AtomicU64, Ordering::SeqCst};
use std::thread;

/// Numbers that look random, the same ones for one seed.
struct Draws(u64);

impl Draws {
    fn below(&mut self, n: u32) -> u32 {
        self.0 ^= self.0 << 13;
        self.0 ^= self.0 >> 7;
        self.0 ^= self.0 << 17;
        (self.0 % u64::from(n)) as u32
    }
}

type Words = Vec<AtomicU64>;

fn crew_of(workers: u32, jobs: u32) -> Crew<Words> {
    let count = amo::words(workers, jobs).expect("the numbers keep the limits");
    let words: Words = (0..count).map(|_| AtomicU64::new(0)).collect();
    Crew::new(words, workers, jobs).expect("the numbers keep the limits")
}

/// Works for so many steps, or to the end. The worker is dropped, with a job in its hand or without
/// one, or it leaves. Returns true if it has ended.
fn work(crew: &Crew<Words>, number: u32, steps: u32, performed: &[AtomicU32]) -> bool {
    let mut worker = crew.worker(number).expect("nobody has this number");
    assert!(
        crew.worker(number).is_err(),
        "another worker has this number too"
    );
    for made in 0..steps {
        match worker.step().expect("no step is refused") {
            Step::Perform(job) => {
                performed[job.number() as usize].fetch_add(1, SeqCst);
                if made + 1 < steps {
                    job.done().expect("no step is refused");
                }
            }
            Step::Doubt(_) => (),
            Step::Over => return true,
        }
    }
    if steps % 2 == 0 {
        worker.leave().expect("no step is refused");
    }
    false
}

#[test]
fn a_job_that_is_performed_twice_or_too_few_recorded_jobs() {
    let mut draws = Draws(0x9e37_79b9_7f4a_7c15);
    for _ in 0..100 {
        let (workers, jobs) = (1 + draws.below(6), draws.below(80));
        let crew = crew_of(workers, jobs);
        let performed: Vec<AtomicU32> = (0..=jobs).map(|_| AtomicU32::new(0)).collect();
        let lives: Vec<Vec<u32>> = (0..workers)
            .map(|_| (0..draws.below(5)).map(|_| draws.below(30)).collect())
            .collect();
        thread::scope(|scope| {
            for (number, lives) in (1..).zip(&lives) {
                let (crew, performed) = (&crew, &performed);
                scope.spawn(move || {
                    let mut steps = lives.iter().chain([&u32::MAX]);
                    assert!(steps.any(|steps| work(crew, number, *steps, performed)));
                });
            }
        });
        assert!(
            performed.iter().all(|count| count.load(SeqCst) <= 1),
            "a job was performed twice"
        );
        let recorded = crew.standing().expect("no step is refused").recorded.len();
        assert!(
            recorded as u64 >= crew.bound(),
            "{recorded} of {jobs} jobs, {workers} workers"
        );
    }
}

#[test]
fn a_panic_that_leaves_no_doubt() {
    let crew = crew_of(1, 3);
    let mut worker = crew.worker(1).expect("nobody has this number");
    let ended = std::panic::catch_unwind(std::panic::AssertUnwindSafe(|| {
        let _ = worker.run(|_| panic!("in the performance"), |_| ());
    }));
    assert!(ended.is_err());
    let (mut performed, mut doubts) = (vec![], vec![]);
    worker
        .run(|job| performed.push(job), |doubt| doubts.push(doubt.job()))
        .expect("no fault");
    assert_eq!((performed, doubts), (vec![2, 3], vec![1]));
}

#[test]
fn a_panic_that_loses_a_doubt() {
    let crew = crew_of(1, 3);
    let mut worker = crew.worker(1).expect("nobody has this number");
    match worker.step().expect("no fault") {
        Step::Perform(job) => drop(job),
        other => panic!("{other:?}"),
    }
    for _ in 0..2 {
        let ended = std::panic::catch_unwind(std::panic::AssertUnwindSafe(|| {
            let _ = worker.run(|job| panic!("job {job}"), |_| panic!("in the report"));
        }));
        assert!(ended.is_err());
    }
    let (mut performed, mut doubts) = (vec![], vec![]);
    worker
        .run(|job| performed.push(job), |doubt| doubts.push(doubt.job()))
        .expect("no fault");
    assert_eq!((performed, doubts), (vec![2, 3], vec![1]));
}

#[test]
fn a_forgotten_job_that_is_given_out_again() {
    let crew = crew_of(1, 3);
    let mut worker = crew.worker(1).expect("nobody has this number");
    match worker.step().expect("no fault") {
        Step::Perform(job) => std::mem::forget(job),
        other => panic!("{other:?}"),
    }
    assert!(matches!(worker.step(), Ok(Step::Doubt(doubt)) if doubt.job() == 1));
}

#[test]
fn a_value_that_no_worker_stores() {
    let crew = crew_of(1, 3);
    crew.registers()[1].store(77, SeqCst);
    let mut worker = crew.worker(1).expect("nobody has this number");
    assert!(matches!(worker.step(), Err(amo::Fault::Damaged)));
}
