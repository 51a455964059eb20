//! The parts that bench/measure measures of the proved crates, in plain Rust: the same events, ranks, turns, judgements and accesses,
//! with the same counts and checks. `bench/core` builds and runs both and prints their figures side by side.
//!
//!     core times             a line for each figure: its name, the items of a run, a check, picoseconds an item
//!     core plan NAME FILE    such a line of reading that plan, a line at a time and without any test
//!     core bytes N M         what the system gave this process before and after worlds of N jobs and M workers

mod crews;
mod floors;
#[allow(dead_code)]
#[path = "replay.rs"]
mod replay;

use replay::{Event, Givens, JobSet, Local, Plan, Want, World, first_bad};
use std::hint::black_box;
use std::io;
use std::time::{Duration, Instant};

const JOBS: u32 = 4096;

/// A long job has so many turns, which take about 20 microseconds.
const LONG_TURNS: u32 = 9_000;

/// The runs of a figure take so long together; the fastest counts.
const LONG_ENOUGH: Duration = Duration::from_millis(200);

fn main() -> io::Result<()> {
    let words: Vec<String> = std::env::args().skip(1).collect();
    let words: Vec<&str> = words.iter().map(String::as_str).collect();
    match words[..] {
        ["times"] => times(),
        ["plan", name, file] => plan(name, &std::fs::read_to_string(file)?),
        ["bytes", jobs, workers] => weigh(number(jobs), number(workers))?,
        _ => panic!("the words are times, plan NAME FILE, or bytes N M"),
    }
    Ok(())
}

fn number(word: &str) -> u32 {
    word.parse().expect("a number")
}

fn givens_of(workers: u32) -> Givens {
    Givens {
        jobs: JOBS,
        workers,
        beta: workers,
    }
}

fn times() {
    for workers in [1, 4, 16] {
        let silent = Others::default();
        print_pace(&format!("event_{workers}_silent"), || alone(workers, &silent));
        let busy = Others::busy(workers);
        print_pace(&format!("event_{workers}_busy"), || alone(workers, &busy));
    }
    let (free, tried) = sets();
    print_pace("rank", || all_ranks(|rank| free.rank_without(&tried, rank)));
    let (free, tried) = lists();
    print_pace("rank_walked", || all_ranks(|rank| rank_walked(&free, &tried, rank)));
    print_pace("rank_indexed", || all_ranks(|rank| rank_indexed(&free, &tried, rank)));
    for workers in [1, 4, 16] {
        worlds(workers);
    }
    floors::measure();
    crews::measure();
}

/// The work of one run, and its time.
#[derive(Clone, Copy)]
struct Figure {
    items: u64,
    check: u64,
    time: Duration,
}

impl Figure {
    fn picoseconds(&self) -> u64 {
        self.time.as_nanos() as u64 * 1000 / self.items.max(1)
    }
}

/// The check with one more number.
fn mixed(check: u64, number: u32) -> u64 {
    check.wrapping_mul(31).wrapping_add(u64::from(number))
}

fn print_pace(name: &str, mut once: impl FnMut() -> Figure) {
    let figure = once();
    let mut best = figure.picoseconds();
    let mut time = figure.time;
    while time < LONG_ENOUGH {
        let figure = once();
        best = best.min(figure.picoseconds());
        time += figure.time;
    }
    println!("{name} {} {} {best}", figure.items, figure.check);
}

/// The words of the workers other than worker 1, at the places of their numbers: their
/// announcements, and their rows. The entries of a row are at the places 1, 2, .., and 0 is at all
/// places that are left out.
#[derive(Default)]
struct Others {
    next: Vec<u32>,
    rows: Vec<Vec<u32>>,
}

impl Others {
    /// Each has done its share of the jobs, which is as large as that of worker 1, and announces
    /// one of worker 1's.
    fn busy(workers: u32) -> Others {
        let share = JOBS / workers;
        let row_of = |q: u32| {
            let jobs = (q.saturating_sub(1) * share + 1..).take(share as usize);
            let entries = [0].into_iter().chain(jobs);
            entries.take(if q < 2 { 1 } else { share as usize + 1 }).collect()
        };
        Others {
            next: (0..=workers).map(|q| share - q).collect(),
            rows: (0..=workers).map(row_of).collect(),
        }
    }

    fn next(&self, q: u32) -> u32 {
        self.next.get(q as usize).copied().unwrap_or(0)
    }

    fn entry(&self, q: u32, k: u32) -> u32 {
        let row = self.rows.get(q as usize);
        row.and_then(|row| row.get(k as usize)).copied().unwrap_or(0)
    }
}

/// Worker 1 beside these others, from its first event to its end.
fn alone(workers: u32, others: &Others) -> Figure {
    let mut local = Local::new(givens_of(workers), 1);
    let start = Instant::now();
    let mut items = 0;
    loop {
        match local.want() {
            Want::LoadNext(q) => local.after(others.next(q)),
            Want::LoadDone(q, k) => local.after(others.entry(q, k)),
            Want::StoreNext(_) | Want::StoreClaim(_) | Want::StoreDone(..) => local.after(0),
            Want::Nothing => break,
        }
        items += 1;
    }
    let time = start.elapsed();
    let check = local.claims.iter().fold(0, |check, job| mixed(check, *job));
    Figure { items, check, time }
}

/// Some three quarters of the jobs, and 15 jobs, some of them among the first.
fn lists() -> (Vec<u32>, Vec<u32>) {
    let free = (1..=JOBS).filter(|j| j.wrapping_mul(2_654_435_761) >> 30 != 0);
    (free.collect(), (1..=JOBS).filter(|j| j % 273 == 0).collect())
}

fn sets() -> (JobSet, JobSet) {
    let (free, tried) = lists();
    let set_of = |jobs: Vec<u32>| {
        let mut set = JobSet::empty(JOBS);
        jobs.into_iter().for_each(|job| set.add(job));
        set
    };
    (set_of(free), set_of(tried))
}

/// The member of that rank of a rising list without another, by a walk over both.
fn rank_walked(free: &[u32], tried: &[u32], rank: u32) -> u32 {
    let mut left = rank;
    let mut tried = tried.iter().peekable();
    for job in free {
        while tried.next_if(|other| *other < job).is_some() {}
        if tried.next_if_eq(&job).is_some() {
            continue;
        }
        left -= 1;
        if left == 0 {
            return *job;
        }
    }
    panic!("no member has the rank {rank}");
}

/// Returns the number of this rank by its place, which each member of the other list up to it puts
/// off by one.
fn rank_indexed(free: &[u32], tried: &[u32], rank: u32) -> u32 {
    let mut place = rank as usize - 1;
    for job in tried {
        match free.binary_search(job) {
            Ok(taken) if taken <= place => place += 1,
            _ => {}
        }
    }
    free[place]
}

/// All members in rising order, one rank after the other.
fn all_ranks(member: impl Fn(u32) -> u32) -> Figure {
    let (free, tried) = lists();
    let count = free.iter().filter(|job| !tried.contains(job)).count() as u32;
    let start = Instant::now();
    let check = (1..=count).fold(0, |check, rank| mixed(check, member(black_box(rank))));
    let time = start.elapsed();
    let items = u64::from(count);
    Figure { items, check, time }
}

/// The figures of a world of so many workers.
fn worlds(workers: u32) {
    let givens = givens_of(workers);
    print_pace(&format!("new_{workers}"), || making(givens));
    print_pace(&format!("turn_{workers}"), || turning(givens));
    let mut world = World::new(givens);
    rotate(&mut world);
    println!("steps_{workers} {} 0 0", steps(&world));
    print_pace(&format!("judge_{workers}"), || judging(givens, &world.history));
}

fn making(givens: Givens) -> Figure {
    let start = Instant::now();
    let world = black_box(World::new(givens));
    let time = start.elapsed();
    let check = checked(&world);
    Figure { items: 1, check, time }
}

fn turning(givens: Givens) -> Figure {
    let mut world = World::new(givens);
    let start = Instant::now();
    let items = rotate(&mut world);
    let time = start.elapsed();
    let check = checked(&world);
    Figure { items, check, time }
}

fn judging(givens: Givens, history: &[Event]) -> Figure {
    let start = Instant::now();
    let first_bad = first_bad(givens, black_box(history));
    let time = start.elapsed();
    let items = history.len() as u64;
    let check = first_bad.unwrap_or(0) as u64;
    Figure { items, check, time }
}

/// Takes the next turn of worker p. Returns true if it ends p.
fn ends(world: &mut World, p: u32) -> bool {
    let was_gone = world.seats[p as usize - 1].gone;
    world.turn(p);
    world.seats[p as usize - 1].gone && !was_gone
}

/// Turns of the workers in rotation until all have ended, and how many turns there were, those of
/// ended workers among them.
fn rotate(world: &mut World) -> u64 {
    let workers = world.givens.workers;
    let mut running = workers;
    let mut turns = 0;
    let mut p = 1;
    while running > 0 {
        running -= u32::from(ends(world, p));
        turns += 1;
        p = if p < workers { p + 1 } else { 1 };
    }
    turns
}

/// How many events all workers have had together.
fn steps(world: &World) -> u64 {
    world.seats.iter().map(|seat| seat.local.steps).sum()
}

/// The check of what has happened, and of the number of steps.
fn checked(world: &World) -> u64 {
    let check = world.history.iter().fold(0, |check, event| match event {
        Event::Claimed(p, j) => mixed(mixed(mixed(check, 1), *p), *j),
        Event::Done(p, j) => mixed(mixed(mixed(check, 2), *p), *j),
        Event::Ended(p) => mixed(mixed(check, 3), *p),
        Event::Halted(p) => mixed(mixed(check, 4), *p),
        Event::Left(p) => mixed(mixed(check, 5), *p),
    });
    check.wrapping_mul(31).wrapping_add(steps(world))
}

/// Prints what the system says of this process's memory, makes 64 worlds, and prints it again.
fn weigh(jobs: u32, workers: u32) -> io::Result<()> {
    let givens = Givens {
        jobs,
        workers,
        beta: workers,
    };
    let mut worlds = Vec::with_capacity(64);
    let before = std::fs::read_to_string("/proc/self/statm")?;
    worlds.extend((0..64).map(|_| World::new(givens)));
    let after = std::fs::read_to_string("/proc/self/statm")?;
    print!("{before}{after}");
    Ok(())
}

/// The figure of reading a plan. There is no reader of TOML in Rust's own library, so this is
/// another, simpler work: the lines of `key = value`, and no test.
fn plan(name: &str, text: &str) {
    print_pace(name, || {
        let start = Instant::now();
        let plan = black_box(Plan::read(black_box(text)));
        let time = start.elapsed();
        let items = plan.names.len() as u64;
        let check = plan.names.iter().map(|name| name.len() as u64).sum();
        Figure { items, check, time }
    });
}
