//! Workers on words in plain Rust: sequentially consistent loads and stores, and a payload for each
//! job, which whoever claims the job takes. bench/core.rs measures it.

use super::replay::{Givens, Local, Want};
use super::{Figure, mixed, print_pace};
use std::cell::UnsafeCell;
use std::hint::black_box;
use std::sync::atomic::{AtomicU64, Ordering::SeqCst};
use std::time::Instant;

/// The done jobs of each worker, and the free ones with their payloads.
pub type Settlement = (Vec<Vec<u32>>, Vec<(u32, u32)>);

/// The words and the payloads. A payload is taken by the one worker that has claimed its job.
pub struct Floor {
    givens: Givens,
    words: Vec<AtomicU64>,
    payloads: Vec<UnsafeCell<Option<u32>>>,
}

unsafe impl Sync for Floor {}

impl Floor {
    pub fn new(givens: Givens) -> Floor {
        let words = givens.workers * (givens.jobs + 3) + 1;
        Floor {
            givens,
            words: (0..words).map(|_| AtomicU64::new(0)).collect(),
            payloads: (0..givens.jobs).map(|place| UnsafeCell::new(Some(place))).collect(),
        }
    }

    fn done(&self, worker: u32, place: u32) -> &AtomicU64 {
        let row = 2 * self.givens.workers + (worker - 1) * (self.givens.jobs + 1);
        &self.words[(row + place) as usize]
    }

    /// The next access of worker p, and the payload that it claims.
    pub fn step(&self, p: u32, local: &mut Local) -> Option<u32> {
        match local.want() {
            Want::StoreNext(job) => {
                self.words[p as usize].store(u64::from(job), SeqCst);
                local.after(0);
            }
            Want::LoadNext(other) => {
                local.after(self.words[other as usize].load(SeqCst) as u32);
            }
            Want::LoadDone(other, place) => {
                local.after(self.done(other, place).load(SeqCst) as u32);
            }
            Want::StoreClaim(count) => {
                self.words[(self.givens.workers + p) as usize].store(u64::from(count), SeqCst);
                local.after(0);
                let job = local.claims[local.claims.len() - 1];
                // nobody else claims this job, so nobody else looks at its payload
                return unsafe { (*self.payloads[job as usize - 1].get()).take() };
            }
            Want::StoreDone(place, job) => {
                self.done(p, place).store(u64::from(job), SeqCst);
                local.after(0);
            }
            Want::Nothing => {}
        }
        None
    }

    /// The accesses of worker p until it has ended, and how many they are.
    fn run(&self, p: u32, local: &mut Local) -> u64 {
        let mut count = 0;
        while local.want() != Want::Nothing {
            black_box(self.step(p, local));
            count += 1;
        }
        count
    }

    /// The done jobs of each worker, and the jobs that nobody has claimed with their payloads.
    pub fn settle(self) -> Settlement {
        let mut dones = Vec::new();
        for p in 1..=self.givens.workers {
            let row = (1..=self.givens.jobs).map(|place| self.done(p, place).load(SeqCst) as u32);
            dones.push(row.take_while(|job| *job != 0).collect());
        }
        let left = self.payloads.into_iter().zip(1u32..);
        let free = left.filter_map(|(payload, job)| payload.into_inner().map(|payload| (job, payload)));
        (dones, free.collect())
    }
}

/// The check of a settlement: the done jobs, and the free ones with their payloads.
fn checked((dones, free): Settlement) -> u64 {
    let check = dones.iter().flatten().fold(0, |check, job| mixed(check, *job));
    free.iter().fold(check, |check, (job, payload)| mixed(mixed(check, *job), *payload))
}

fn opening(givens: Givens) -> Figure {
    let start = Instant::now();
    let floor = black_box(Floor::new(givens));
    let time = start.elapsed();
    let items = u64::from(givens.jobs);
    Figure { items, check: checked(floor.settle()), time }
}

fn alone(givens: Givens) -> Figure {
    let floor = Floor::new(givens);
    let mut local = Local::new(givens, 1);
    let start = Instant::now();
    let items = floor.run(1, &mut local);
    let time = start.elapsed();
    Figure { items, check: checked(floor.settle()), time }
}

fn both(givens: Givens) -> Figure {
    let floor = Floor::new(givens);
    let (mut one, mut two) = (Local::new(givens, 1), Local::new(givens, 2));
    let start = Instant::now();
    std::thread::scope(|scope| {
        scope.spawn(|| floor.run(1, &mut one));
        scope.spawn(|| floor.run(2, &mut two));
    });
    let time = start.elapsed();
    let items = u64::from(givens.jobs);
    Figure { items, check: 0, time }
}

fn settling(givens: Givens) -> Figure {
    let floor = Floor::new(givens);
    floor.run(1, &mut Local::new(givens, 1));
    let start = Instant::now();
    let settlement = black_box(floor.settle());
    let time = start.elapsed();
    let items = u64::from(givens.jobs);
    Figure { items, check: checked(settlement), time }
}

/// Prints all figures.
pub fn measure() {
    let of = |workers| Givens {
        jobs: super::JOBS,
        workers,
        beta: workers,
    };
    print_pace("open_1", || opening(of(1)));
    print_pace("words_1", || alone(of(1)));
    print_pace("settle_1", || settling(of(1)));
    print_pace("words_2", || both(of(2)));
}
