//! Jobs executed by threads in plain Rust, in three ways: by the same workers on sequentially
//! consistent words, by threads that take the payloads from one locked list, and by threads that
//! count one word up. bench/core.rs measures them.

use super::floors::Floor;
use super::replay::{Givens, Local, Want};
use super::{Figure, JOBS, print_pace};
use std::hint::black_box;
use std::sync::Mutex;
use std::sync::atomic::{AtomicU32, Ordering::SeqCst};
use std::time::Instant;

/// A job of so many turns.
#[derive(Clone, Copy)]
struct Mill {
    turns: u32,
}

impl Mill {
    fn perform(self, payload: u32) -> u64 {
        let mut number = u64::from(payload) + 1;
        for _ in 0..self.turns {
            number ^= number << 13;
            number ^= number >> 7;
            number ^= number << 17;
        }
        number
    }
}

/// Worker p on the floor until it has ended, and its answers.
fn run(floor: &Floor, mut local: Local, p: u32, mill: Mill, mut answers: Vec<(u32, u64)>) -> Vec<(u32, u64)> {
    while local.want() != Want::Nothing {
        if let Some(payload) = floor.step(p, &mut local) {
            answers.push((payload, mill.perform(payload)));
        }
    }
    answers
}

/// Threads of these workers, whose room is made first, and what comes of all jobs.
fn crew(givens: Givens, mill: Mill) -> Figure {
    let start = Instant::now();
    let floor = Floor::new(givens);
    let members: Vec<_> = (1..=givens.workers)
        .map(|p| (p, Local::new(givens, p), Vec::with_capacity(givens.jobs as usize)))
        .collect();
    let answers: Vec<_> = std::thread::scope(|scope| {
        let floor = &floor;
        let start = |(p, local, answers)| scope.spawn(move || run(floor, local, p, mill, answers));
        let threads: Vec<_> = members.into_iter().map(start).collect();
        threads.into_iter().flat_map(|thread| thread.join().expect("a run")).collect()
    });
    black_box((answers, floor.settle()));
    Figure { items: u64::from(givens.jobs), check: 0, time: start.elapsed() }
}

/// As many threads, each of which takes payloads from where `next` finds them.
fn threads(givens: Givens, mill: Mill, next: impl Fn() -> Option<u32> + Sync) -> Vec<(u32, u64)> {
    std::thread::scope(|scope| {
        let next = &next;
        let run = move || {
            let mut answers = Vec::with_capacity(givens.jobs as usize);
            while let Some(payload) = next() {
                answers.push((payload, mill.perform(payload)));
            }
            answers
        };
        let threads: Vec<_> = (0..givens.workers).map(|_| scope.spawn(run)).collect();
        threads.into_iter().flat_map(|thread| thread.join().expect("a run")).collect()
    })
}

fn locked(givens: Givens, mill: Mill) -> Figure {
    let start = Instant::now();
    let payloads: Mutex<Vec<u32>> = Mutex::new((0..givens.jobs).collect());
    black_box(threads(givens, mill, || payloads.lock().expect("the list").pop()));
    Figure { items: u64::from(givens.jobs), check: 0, time: start.elapsed() }
}

fn counted(givens: Givens, mill: Mill) -> Figure {
    let start = Instant::now();
    let payloads: Vec<u32> = (0..givens.jobs).collect();
    let taken = AtomicU32::new(0);
    black_box(threads(givens, mill, || payloads.get(taken.fetch_add(1, SeqCst) as usize).copied()));
    Figure { items: u64::from(givens.jobs), check: 0, time: start.elapsed() }
}

/// Prints all figures.
pub fn measure() {
    for (size, turns) in [("", 0), ("_long", super::LONG_TURNS)] {
        for workers in [1, 2, 4, 16] {
            let givens = Givens { jobs: JOBS, workers, beta: workers };
            let mill = Mill { turns };
            print_pace(&format!("crew_{workers}{size}"), || crew(givens, mill));
            print_pace(&format!("crew_{workers}{size}/locked"), || locked(givens, mill));
            print_pace(&format!("crew_{workers}{size}/counted"), || counted(givens, mill));
        }
    }
}
