//! A replay in plain Rust: the plan on standard input, the report on standard output; with the words
//! `explore FROM COUNT LENGTH` the text of the explorer, with the words `stops P` that of the stops.
//!
//! `bench/run` measures the proved program against it and compares their reports byte for byte, so it also serves
//! as a second opinion, written apart from the proved crates. `bench/core` measures its parts, and bench/show.rs, which
//! writes traces and pictures, is built on it. The program uses no crate:
//!
//! ```text
//! rustc -O --edition 2021 -o bench/out/replay bench/replay.rs
//! bench/out/replay < examples/plans/three_jobs.toml
//! ```
//!
//! It does the same work: sets of jobs are bit words, and each worker keeps the number of jobs that it could take.
//! It reads plans that have one key a line, as most of `examples/plans/`, and it tests nothing: a plan
//! that breaks a rule makes it panic or write nonsense.

use std::fmt::Write as _;
use std::io::{self, Read as _, Write as _};
use std::ops::Range;

fn main() -> io::Result<()> {
    let mut text = String::new();
    io::stdin().read_to_string(&mut text)?;
    let plan = Plan::read(&text);
    let words: Vec<String> = std::env::args().skip(1).collect();
    let words: Vec<&str> = words.iter().map(String::as_str).collect();
    let number = |word: &str| word.parse().expect("a number");
    let out = match words[..] {
        ["explore", from, count, length] => explore(&plan, number(from), number(count), number(length) as u32),
        ["stops", worker] => stops(&plan, number(worker) as u32),
        _ => replayed(&plan),
    };
    io::stdout().write_all(out.as_bytes())
}

/// The report of the plan's schedule and rounds.
pub fn replayed(plan: &Plan) -> String {
    let mut world = World::new(plan.givens);
    world.run(&plan.moves);
    world.run_rounds(plan.rounds);
    report(plan, &world)
}

/// How many jobs and workers there are, and the threshold below which a worker ends.
#[derive(Clone, Copy, Debug)]
pub struct Givens {
    pub jobs: u32,
    pub workers: u32,
    pub beta: u32,
}

impl Givens {
    /// Wherever a worker has ended, at least so many jobs are performed.
    pub fn bound(&self) -> u32 {
        self.jobs.saturating_sub(self.beta + self.workers - 2)
    }

    /// The worker after `q`, leaving out `p`, if there is one.
    fn other_after(&self, p: u32, q: u32) -> Option<u32> {
        let next = if q + 1 == p { q + 2 } else { q + 1 };
        (next <= self.workers).then_some(next)
    }
}

/// A set of jobs within `1..=n`: job `j` is bit `(j - 1) % 64` of word `(j - 1) / 64`. How many
/// there are is kept.
#[derive(Clone, Debug)]
pub struct JobSet {
    words: Vec<u64>,
    len: u32,
}

impl JobSet {
    pub fn empty(n: u32) -> JobSet {
        JobSet {
            words: vec![0; n.div_ceil(64) as usize],
            len: 0,
        }
    }

    fn full(n: u32) -> JobSet {
        let mut set = JobSet::empty(n);
        set.words.fill(u64::MAX);
        if n % 64 != 0 {
            *set.words.last_mut().expect("n is above 0") = (1 << (n % 64)) - 1;
        }
        set.len = n;
        set
    }

    fn has(&self, job: u32) -> bool {
        self.words[(job - 1) as usize / 64] >> ((job - 1) % 64) & 1 == 1
    }

    pub fn add(&mut self, job: u32) {
        self.len += u32::from(!self.has(job));
        self.words[(job - 1) as usize / 64] |= 1 << ((job - 1) % 64);
    }

    fn take_out(&mut self, job: u32) {
        self.len -= u32::from(self.has(job));
        self.words[(job - 1) as usize / 64] &= !(1 << ((job - 1) % 64));
    }

    fn clear(&mut self) {
        self.words.fill(0);
        self.len = 0;
    }

    fn len(&self) -> u32 {
        self.len
    }

    /// The `rank`-th smallest member that is not in `other`, from 1. There has to be one.
    pub fn rank_without(&self, other: &JobSet, rank: u32) -> u32 {
        let mut before = 0;
        for (place, (word, taken)) in self.words.iter().zip(&other.words).enumerate() {
            let mut word = word & !taken;
            if before + word.count_ones() < rank {
                before += word.count_ones();
                continue;
            }
            for _ in before + 1..rank {
                word &= word - 1;
            }
            return place as u32 * 64 + word.trailing_zeros() + 1;
        }
        panic!("no member has the rank {rank}");
    }

    fn members(&self, n: u32) -> impl Iterator<Item = u32> + '_ {
        (1..=n).filter(|job| self.has(*job))
    }
}

/// The phase of a worker: the job of its attempt, and the other worker whose word it is about to
/// read.
#[derive(Clone, Copy, Debug, PartialEq)]
pub enum Phase {
    Announcing(u32),
    Trying(u32, u32),
    Reading(u32, u32),
    Claiming(u32),
    Holding(u32),
    Over,
    Left,
}

impl Phase {
    /// Returns the job of the attempt, or 0 without an attempt.
    pub fn job(self) -> u32 {
        match self {
            Phase::Announcing(job) | Phase::Claiming(job) | Phase::Holding(job) => job,
            Phase::Trying(job, _) | Phase::Reading(job, _) => job,
            Phase::Over | Phase::Left => 0,
        }
    }
}

/// The one load or store that a worker makes next.
#[derive(Clone, Copy, Debug, PartialEq)]
pub enum Want {
    StoreNext(u32),
    LoadNext(u32),
    LoadDone(u32, u32),
    StoreClaim(u32),
    StoreDone(u32, u32),
    Nothing,
}

/// The state of one worker.
pub struct Local {
    givens: Givens,
    number: u32,
    pub phase: Phase,
    /// The jobs that it doesn't know to be performed.
    free: JobSet,
    /// The jobs that it has seen announced in this attempt.
    tried: JobSet,
    /// How many jobs are free and not tried.
    open: u32,
    /// How many entries of each worker's row it has read, worker 1 first.
    fronts: Vec<u32>,
    pub claims: Vec<u32>,
    pub dones: Vec<u32>,
    pub steps: u64,
}

impl Local {
    pub fn new(givens: Givens, number: u32) -> Local {
        let mut local = Local {
            givens,
            number,
            phase: Phase::Over,
            free: JobSet::full(givens.jobs),
            tried: JobSet::empty(givens.jobs),
            open: givens.jobs,
            fronts: vec![0; givens.workers as usize],
            claims: Vec::with_capacity(givens.jobs as usize),
            dones: Vec::with_capacity(givens.jobs as usize),
            steps: 0,
        };
        local.choose();
        local
    }

    pub fn want(&self) -> Want {
        match self.phase {
            Phase::Announcing(job) => Want::StoreNext(job),
            Phase::Trying(_, other) => Want::LoadNext(other),
            Phase::Reading(_, other) => Want::LoadDone(other, self.front(other) + 1),
            Phase::Claiming(_) => Want::StoreClaim(self.claims.len() as u32 + 1),
            Phase::Holding(job) => Want::StoreDone(self.dones.len() as u32 + 1, job),
            Phase::Over | Phase::Left => Want::Nothing,
        }
    }

    /// The event is made; `value` is what a load gave, and 0 after a store.
    pub fn after(&mut self, value: u32) {
        self.steps += 1;
        match self.phase {
            Phase::Announcing(job) => self.go_on_trying(job, 0),
            Phase::Trying(job, other) => {
                if value != 0 {
                    self.try_not(value);
                }
                self.go_on_trying(job, other);
            }
            Phase::Reading(job, other) if value == 0 => self.go_on_reading(job, other),
            Phase::Reading(_, other) => {
                self.fronts[other as usize - 1] += 1;
                self.know(value);
            }
            Phase::Claiming(job) => {
                self.claims.push(job);
                self.phase = Phase::Holding(job);
            }
            Phase::Holding(job) => {
                self.dones.push(job);
                self.know(job);
                self.choose();
            }
            Phase::Over | Phase::Left => unreachable!("no event is wanted"),
        }
    }

    fn leave(&mut self) {
        self.steps += 1;
        self.phase = Phase::Left;
    }

    fn front(&self, other: u32) -> u32 {
        self.fronts[other as usize - 1]
    }

    fn is_open(&self, job: u32) -> bool {
        self.free.has(job) && !self.tried.has(job)
    }

    fn try_not(&mut self, job: u32) {
        self.open -= u32::from(self.is_open(job));
        self.tried.add(job);
    }

    fn know(&mut self, job: u32) {
        self.open -= u32::from(self.is_open(job));
        self.free.take_out(job);
    }

    fn go_on_trying(&mut self, job: u32, other: u32) {
        match self.givens.other_after(self.number, other) {
            Some(next) => self.phase = Phase::Trying(job, next),
            None => self.go_on_reading(job, 0),
        }
    }

    fn go_on_reading(&mut self, job: u32, other: u32) {
        match self.givens.other_after(self.number, other) {
            Some(next) => self.phase = Phase::Reading(job, next),
            None if self.is_open(job) => self.phase = Phase::Claiming(job),
            None => self.choose(),
        }
    }

    fn choose(&mut self) {
        if self.open < self.givens.beta {
            self.phase = Phase::Over;
            return;
        }
        let workers = self.givens.workers;
        // With the threshold at least the number of workers, this is not negative.
        let spread = self.free.len() - (workers - 1);
        let rank = if spread >= workers {
            (self.number - 1) * spread / workers + 1
        } else {
            self.number
        };
        self.phase = Phase::Announcing(self.free.rank_without(&self.tried, rank));
        self.tried.clear();
        self.open = self.free.len();
    }
}

/// A choice of a schedule; the number is the worker's.
#[derive(Clone, Copy, Debug)]
pub enum Move {
    Turn(u32),
    Halt(u32),
    Leave(u32),
}

#[derive(Clone, Copy, Debug, PartialEq)]
pub enum Event {
    Claimed(u32, u32),
    Done(u32, u32),
    Ended(u32),
    Halted(u32),
    Left(u32),
}

/// A worker with the shared words that it alone writes. How many jobs it has claimed is one of
/// them, too; no worker reads that word, so it is left out here.
pub struct Seat {
    pub local: Local,
    next: u32,
    row: Vec<u32>,
    pub gone: bool,
}

pub struct World {
    pub givens: Givens,
    pub seats: Vec<Seat>,
    pub history: Vec<Event>,
}

impl World {
    pub fn new(givens: Givens) -> World {
        let seats: Vec<Seat> = (1..=givens.workers)
            .map(|number| {
                let local = Local::new(givens, number);
                let gone = local.phase == Phase::Over;
                Seat {
                    local,
                    next: 0,
                    row: vec![0; givens.jobs as usize + 1],
                    gone,
                }
            })
            .collect();
        let ended = (1..).zip(&seats).filter(|(_, seat)| seat.gone);
        let mut history = Vec::with_capacity((2 * givens.jobs + givens.workers) as usize);
        history.extend(ended.map(|(number, _)| Event::Ended(number)));
        World { givens, seats, history }
    }

    fn run(&mut self, moves: &[Move]) {
        for &chosen in moves {
            match chosen {
                Move::Turn(worker) => {
                    self.turn(worker);
                }
                Move::Halt(worker) => self.halt(worker),
                Move::Leave(worker) => self.leave(worker),
            }
        }
    }

    /// Gives each worker a turn so many times, in the order of their numbers.
    fn run_rounds(&mut self, rounds: u32) {
        for _ in 0..rounds {
            for worker in 1..=self.givens.workers {
                self.turn(worker);
            }
        }
    }

    /// Each worker that is here goes on alone until it ends, in the order of their numbers. Gives
    /// back the most turns that one took for a claim or its end.
    fn run_out(&mut self) -> u32 {
        let mut most = 0;
        for worker in 1..=self.givens.workers {
            let place = worker as usize - 1;
            let mut turns = 0;
            while !self.seats[place].gone {
                let (want, _) = self.turn(worker);
                turns += 1;
                if matches!(want, Want::StoreClaim(_)) || self.seats[place].gone {
                    most = most.max(turns);
                    turns = 0;
                }
            }
        }
        most
    }

    /// Gives back the load or store that was made, and what a load gave, or 0.
    pub fn turn(&mut self, worker: u32) -> (Want, u32) {
        let seat = &self.seats[worker as usize - 1];
        if seat.gone {
            return (Want::Nothing, 0);
        }
        let want = seat.local.want();
        let value = match want {
            Want::LoadNext(other) => self.seats[other as usize - 1].next,
            Want::LoadDone(other, place) => self.seats[other as usize - 1].row[place as usize - 1],
            _ => 0,
        };
        let seat = &mut self.seats[worker as usize - 1];
        match want {
            Want::StoreNext(job) => seat.next = job,
            Want::StoreDone(place, job) => seat.row[place as usize - 1] = job,
            _ => {}
        }
        let before = seat.local.phase;
        seat.local.after(value);
        match before {
            Phase::Claiming(job) => self.history.push(Event::Claimed(worker, job)),
            Phase::Holding(job) => self.history.push(Event::Done(worker, job)),
            _ => {}
        }
        if seat.local.phase == Phase::Over {
            seat.gone = true;
            self.history.push(Event::Ended(worker));
        }
        (want, value)
    }

    pub fn halt(&mut self, worker: u32) {
        let seat = &mut self.seats[worker as usize - 1];
        if !seat.gone {
            seat.gone = true;
            self.history.push(Event::Halted(worker));
        }
    }

    pub fn leave(&mut self, worker: u32) {
        let seat = &mut self.seats[worker as usize - 1];
        if !seat.gone && !matches!(seat.local.phase, Phase::Holding(_)) {
            seat.next = 0;
            seat.local.leave();
            seat.gone = true;
            self.history.push(Event::Left(worker));
        }
    }
}

/// The part of a plan that a report needs.
pub struct Plan {
    pub givens: Givens,
    /// How many jobs are in a block, in version 2 alone. There the jobs of the givens are the
    /// blocks.
    pub block: Option<u32>,
    pub names: Vec<String>,
    says: Vec<String>,
    pub moves: Vec<Move>,
    pub rounds: u32,
}

impl Plan {
    pub fn read(text: &str) -> Plan {
        let mut plan = Plan {
            givens: Givens {
                jobs: 0,
                workers: 0,
                beta: 0,
            },
            block: None,
            names: Vec::new(),
            says: Vec::new(),
            moves: Vec::new(),
            rounds: 0,
        };
        for line in text.lines() {
            let Some((key, value)) = line.split_once(" = ") else {
                continue;
            };
            let text = value.trim_matches('"');
            match key {
                "version" if number(value) == 2 => plan.block = plan.block.or(Some(1)),
                "block" => plan.block = Some(number(value)),
                "workers" => plan.givens.workers = number(value),
                "beta" => plan.givens.beta = number(value),
                "rounds" => plan.rounds = number(value),
                "schedule" => plan.moves = text.split_whitespace().flat_map(moves_of).collect(),
                "name" => plan.names.push(text.to_string()),
                "say" => plan.says.push(text.to_string()),
                _ => {}
            }
        }
        plan.givens.jobs = (plan.names.len() as u32).div_ceil(plan.block.unwrap_or(1));
        plan
    }

    /// The jobs of a block, which in version 1 is one job, by their places from 0.
    fn places_of(&self, block: u32) -> Range<usize> {
        let size = self.block.unwrap_or(1) as usize;
        let end = block as usize * size;
        end - size..end.min(self.names.len())
    }
}

fn moves_of(word: &str) -> Vec<Move> {
    if let Some(worker) = word.strip_prefix('x') {
        vec![Move::Halt(number(worker))]
    } else if let Some(worker) = word.strip_prefix('l') {
        vec![Move::Leave(number(worker))]
    } else if let Some((worker, turns)) = word.split_once('*') {
        vec![Move::Turn(number(worker)); number(turns) as usize]
    } else {
        vec![Move::Turn(number(word))]
    }
}

fn number(digits: &str) -> u32 {
    digits.parse().expect("a number")
}

/// The place, from 1, of the first event that is no step of one sequential set of unclaimed jobs.
pub fn first_bad(givens: Givens, history: &[Event]) -> Option<usize> {
    let mut state = State::new(givens);
    for (place, event) in (1..).zip(history) {
        if !state.allows(event) {
            return Some(place);
        }
        state.follow(event);
    }
    None
}

/// Which jobs are unclaimed, the job in each worker's hand or 0, the performed pairs, and which
/// workers are gone.
struct State {
    givens: Givens,
    unclaimed: Vec<bool>,
    in_hand: Vec<u32>,
    performed: Vec<(u32, u32)>,
    gone: Vec<bool>,
}

impl State {
    fn new(givens: Givens) -> State {
        State {
            givens,
            unclaimed: vec![true; givens.jobs as usize],
            in_hand: vec![0; givens.workers as usize],
            performed: Vec::with_capacity(givens.jobs as usize),
            gone: vec![false; givens.workers as usize],
        }
    }

    fn is_here(&self, p: u32) -> bool {
        (1..=self.givens.workers).contains(&p) && !self.gone[p as usize - 1]
    }

    fn is_job(&self, j: u32) -> bool {
        (1..=self.givens.jobs).contains(&j)
    }

    fn has_in_hand(&self, p: u32, job: u32) -> bool {
        self.in_hand[p as usize - 1] == job
    }

    fn allows(&self, event: &Event) -> bool {
        match *event {
            Event::Claimed(p, j) => {
                self.is_here(p) && self.is_job(j) && self.has_in_hand(p, 0) && self.unclaimed[j as usize - 1]
            }
            Event::Done(p, j) => self.is_here(p) && self.is_job(j) && self.has_in_hand(p, j),
            Event::Ended(p) => {
                self.is_here(p) && self.has_in_hand(p, 0) && self.givens.bound() as usize <= self.performed.len()
            }
            Event::Halted(p) => self.is_here(p),
            Event::Left(p) => self.is_here(p) && self.has_in_hand(p, 0),
        }
    }

    fn follow(&mut self, event: &Event) {
        match *event {
            Event::Claimed(p, j) => {
                self.unclaimed[j as usize - 1] = false;
                self.in_hand[p as usize - 1] = j;
            }
            Event::Done(p, j) => {
                self.performed.push((p, j));
                self.in_hand[p as usize - 1] = 0;
            }
            Event::Ended(p) | Event::Halted(p) | Event::Left(p) => self.gone[p as usize - 1] = true,
        }
    }
}

/// Turn i, from 0, of schedule s is one of worker s / workers^i % workers + 1; the plan's rounds
/// follow.
fn explored(plan: &Plan, schedule: u64, length: u32) -> World {
    let workers = u64::from(plan.givens.workers);
    let mut world = World::new(plan.givens);
    let mut digits = schedule;
    for _ in 0..length {
        world.turn((digits % workers) as u32 + 1);
        digits /= workers;
    }
    world.run_rounds(plan.rounds);
    world
}

/// A line for each of so many schedules, and the least number of performances.
pub fn explore(plan: &Plan, from: u64, count: u64, length: u32) -> String {
    let mut out = String::new();
    let mut least = usize::MAX;
    for schedule in from..from + count {
        let world = explored(plan, schedule, length);
        let (claimed, done) = claimed_and_done(&world);
        let ended = world.history.iter().filter(|event| matches!(event, Event::Ended(_))).count();
        let verdict = verdict(&world);
        writeln!(out, "schedule {schedule} claimed {claimed} done {done} ended {ended} {verdict}")
            .expect("a String takes all that is written");
        least = least.min(done);
    }
    writeln!(out, "least {least}").expect("a String takes all that is written");
    out
}

/// A line for each number of moves after which the worker is stopped, and the least number of
/// performances. The others go on alone then; the plan's rounds are not used.
pub fn stops(plan: &Plan, worker: u32) -> String {
    let mut out = String::new();
    let mut least = usize::MAX;
    for made in 0..=plan.moves.len() {
        let mut world = World::new(plan.givens);
        world.run(&plan.moves[..made]);
        world.halt(worker);
        let most = world.run_out();
        let (claimed, done) = claimed_and_done(&world);
        let verdict = verdict(&world);
        writeln!(out, "stop {made} claimed {claimed} done {done} most {most} {verdict}")
            .expect("a String takes all that is written");
        least = least.min(done);
    }
    writeln!(out, "least {least}").expect("a String takes all that is written");
    out
}

fn claimed_and_done(world: &World) -> (usize, usize) {
    let many = |test: fn(&Event) -> bool| world.history.iter().filter(|event| test(event)).count();
    let claimed = many(|event| matches!(event, Event::Claimed(..)));
    (claimed, many(|event| matches!(event, Event::Done(..))))
}

fn verdict(world: &World) -> String {
    match first_bad(world.givens, &world.history) {
        None => String::from("lawful"),
        Some(place) => format!("bad {place}"),
    }
}

fn report(plan: &Plan, world: &World) -> String {
    let mut out = String::new();
    write_report(&mut out, plan, world).expect("a String takes all that is written");
    out
}

fn write_report(out: &mut String, plan: &Plan, world: &World) -> std::fmt::Result {
    write_first_line(out, plan)?;
    for (i, event) in (1..).zip(&world.history) {
        match event {
            Event::Claimed(p, j) => writeln!(out, "{i} claimed {p} {j}")?,
            Event::Done(p, j) => writeln!(out, "{i} done {p} {j}")?,
            Event::Ended(p) => writeln!(out, "{i} ended {p}")?,
            Event::Halted(p) => writeln!(out, "{i} halted {p}")?,
            Event::Left(p) => writeln!(out, "{i} left {p}")?,
        }
    }
    write_workers(out, world)?;
    let jobs = world.givens.jobs;
    let mut unclaimed = JobSet::full(jobs);
    for event in &world.history {
        match event {
            Event::Claimed(_, j) => unclaimed.take_out(*j),
            Event::Done(_, j) => {
                for place in plan.places_of(*j) {
                    write!(out, "result {} {} ", place + 1, plan.names[place])?;
                    write_escaped(out, &plan.says[place])?;
                    writeln!(out)?;
                }
            }
            _ => {}
        }
    }
    write_performed(out, plan, world)?;
    write!(out, "unclaimed")?;
    for job in unclaimed.members(jobs) {
        write!(out, " {job}")?;
    }
    writeln!(out)
}

/// The first line of a report.
pub fn write_first_line(out: &mut String, plan: &Plan) -> std::fmt::Result {
    let Givens { jobs, workers, beta } = plan.givens;
    match plan.block {
        None => write!(out, "jobs {jobs}")?,
        Some(block) => write!(out, "jobs {} block {block} blocks {jobs}", plan.names.len())?,
    }
    writeln!(out, " workers {workers} beta {beta} bound {}", plan.givens.bound())
}

/// A report's line for each worker.
pub fn write_workers(out: &mut String, world: &World) -> std::fmt::Result {
    for (p, seat) in (1..).zip(&world.seats) {
        let state = state_of(p, &world.history);
        let turns = seat.local.steps;
        let claimed = seat.local.claims.len();
        let done = seat.local.dones.len();
        writeln!(out, "worker {p} {state} turns {turns} claimed {claimed} done {done}")?;
    }
    Ok(())
}

/// A report's line on what was performed.
pub fn write_performed(out: &mut String, plan: &Plan, world: &World) -> std::fmt::Result {
    let done = || world.seats.iter().flat_map(|seat| &seat.local.dones);
    let performed = done().count();
    match plan.block {
        None => writeln!(out, "performed {performed}"),
        Some(_) => {
            let jobs: usize = done().map(|block| plan.places_of(*block).len()).sum();
            writeln!(out, "performed blocks {performed} jobs {jobs}")
        }
    }
}

pub fn state_of(worker: u32, history: &[Event]) -> &'static str {
    for event in history {
        match event {
            Event::Ended(p) if *p == worker => return "ended",
            Event::Halted(p) if *p == worker => return "halted",
            Event::Left(p) if *p == worker => return "left",
            _ => {}
        }
    }
    "running"
}

fn write_escaped(out: &mut String, text: &str) -> std::fmt::Result {
    for byte in text.bytes() {
        match byte {
            b'\\' => write!(out, "\\x5c")?,
            0x20..=0x7e => out.push(char::from(byte)),
            _ => write!(out, "\\x{byte:02x}")?,
        }
    }
    Ok(())
}

#[cfg(test)]
mod tests;
