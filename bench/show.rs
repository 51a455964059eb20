//! The trace and the picture of a plan's run in plain Rust: the word `trace` or `picture`, the plan on standard input,
//! the text on standard output.
//!
//! `bench/run` compares its texts with the proved program's byte for byte, and measures both. It is written apart from
//! the proved crates; the run itself is that of bench/replay.rs, which also says what it reads of a plan. The program
//! uses no crate:
//!
//! ```text
//! rustc -O --edition 2021 -o bench/out/show bench/show.rs
//! bench/out/show trace < examples/plans/two_collide.toml
//! ```
//!
//! A trace is written while the plan runs. If a run is drawn, it keeps only the parts that a picture shows.

#[cfg(test)]
mod examples;
mod picture;
#[allow(dead_code)]
#[path = "replay.rs"]
mod replay;

use replay::{Move, Phase, Plan, Want, World};
use std::io::{self, Read as _, Write};

/// The number of bytes of a trace that are written at a time.
const ROOM: usize = 1 << 16;

fn main() -> io::Result<()> {
    let mut text = String::new();
    io::stdin().read_to_string(&mut text)?;
    let plan = Plan::read(&text);
    let words: Vec<String> = std::env::args().skip(1).collect();
    let words: Vec<&str> = words.iter().map(String::as_str).collect();
    let mut out = io::stdout().lock();
    match words[..] {
        ["trace"] => write_trace(&plan, &mut out),
        ["picture"] => out.write_all(&picture::drawn(&plan)),
        _ => panic!("the word is trace or picture"),
    }
}

fn write_trace(plan: &Plan, out: &mut impl Write) -> io::Result<()> {
    let mut world = World::new(plan.givens);
    // a line has less than 100 bytes
    let mut text = Text::with_capacity(ROOM + 100);
    first_line(plan).put(&mut text);
    for (worker, seat) in (1..).zip(&world.seats) {
        let state = State(seat.local.phase, seat.gone);
        ("0 worker ", worker, " opens now ", state, "\n").put(&mut text);
    }
    for step in steps(plan, &mut world) {
        (&step, "\n").put(&mut text);
        if text.len() >= ROOM {
            out.write_all(&text)?;
            text.clear();
        }
    }
    out.write_all(&text)
}

/// The first line of the report.
fn first_line(plan: &Plan) -> String {
    let mut line = String::new();
    replay::write_first_line(&mut line, plan).expect("a String takes all that is written");
    line
}

/// Makes the plan's moves, up to the one after which all workers are gone, and says what each does.
fn steps<'a>(plan: &'a Plan, world: &'a mut World) -> impl Iterator<Item = Step> + 'a {
    let workers = plan.givens.workers;
    let rounds = (0..plan.rounds).flat_map(move |_| (1..=workers).map(Move::Turn));
    let moves = plan.moves.iter().copied().chain(rounds);
    let mut here = world.seats.iter().filter(|seat| !seat.gone).count();
    (1..).zip(moves).map_while(move |(number, chosen)| {
        if here == 0 {
            return None;
        }
        let step = Step::made(world, number, chosen);
        here -= usize::from(step.gone && step.act != Act::Idles);
        Some(step)
    })
}

/// The effect of one move.
struct Step {
    /// The number of the move, from 1.
    number: u32,
    worker: u32,
    act: Act,
    before: Phase,
    after: Phase,
    /// True if the worker is gone then.
    gone: bool,
}

#[derive(Clone, Copy, PartialEq)]
enum Act {
    /// A load or store, and what a load gave.
    Turned(Want, u32),
    Leaves,
    Stops,
    Stays,
    Idles,
}

impl Step {
    fn made(world: &mut World, number: u32, chosen: Move) -> Step {
        let (Move::Turn(worker) | Move::Halt(worker) | Move::Leave(worker)) = chosen;
        let place = worker as usize - 1;
        let before = world.seats[place].local.phase;
        let act = if world.seats[place].gone {
            Act::Idles
        } else {
            match chosen {
                Move::Turn(_) => {
                    let (want, value) = world.turn(worker);
                    Act::Turned(want, value)
                }
                Move::Halt(_) => {
                    world.halt(worker);
                    Act::Stops
                }
                Move::Leave(_) => {
                    world.leave(worker);
                    if world.seats[place].gone { Act::Leaves } else { Act::Stays }
                }
            }
        };
        let seat = &world.seats[place];
        let (after, gone) = (seat.local.phase, seat.gone);
        Step {
            number,
            worker,
            act,
            before,
            after,
            gone,
        }
    }

    /// Returns true if it loads, and the attempt ends by that without a claim.
    fn fails(&self) -> bool {
        let loads = matches!(self.act, Act::Turned(Want::LoadNext(_) | Want::LoadDone(..), _));
        loads && matches!(self.after, Phase::Announcing(_) | Phase::Over)
    }

    /// Returns true if it is more than a wasted move.
    fn changes(&self) -> bool {
        !matches!(self.act, Act::Stays | Act::Idles)
    }

    fn put_act(&self, out: &mut Text) {
        let p = self.worker;
        match self.act {
            Act::Turned(Want::StoreNext(job), _) => ("stores next[", p, "] = ", job).put(out),
            Act::Turned(Want::LoadNext(q), value) => ("loads next[", q, "] = ", value).put(out),
            Act::Turned(Want::LoadDone(q, k), value) => ("loads done[", q, "][", k, "] = ", value).put(out),
            Act::Turned(Want::StoreClaim(count), _) => ("stores claim[", p, "] = ", count).put(out),
            Act::Turned(Want::StoreDone(k, job), _) => ("stores done[", p, "][", k, "] = ", job).put(out),
            Act::Turned(Want::Nothing, _) => unreachable!("a worker that is here wants something"),
            Act::Leaves => ("stores next[", p, "] = 0").put(out),
            Act::Stops => "stops".put(out),
            Act::Stays => "stays".put(out),
            Act::Idles => "idles".put(out),
        }
    }

    /// Appends its further effect, if it has one that the act doesn't show.
    fn put_fact(&self, out: &mut Text) {
        match self.act {
            _ if self.fails() => (" failed ", self.before.job()).put(out),
            Act::Turned(Want::LoadNext(_), value) if value != 0 => (" tried ", value).put(out),
            Act::Turned(Want::LoadDone(..), value) if value != 0 => (" known ", value).put(out),
            Act::Turned(Want::StoreClaim(_), _) => (" claimed ", self.before.job()).put(out),
            Act::Turned(Want::StoreDone(_, job), _) => (" done ", job).put(out),
            _ => {}
        }
    }
}

/// The bytes of a text, which is ASCII.
type Text = Vec<u8>;

/// A part of a text.
trait Piece {
    fn put(self, out: &mut Text);
}

impl Piece for &str {
    fn put(self, out: &mut Text) {
        out.extend_from_slice(self.as_bytes());
    }
}

impl Piece for &Text {
    fn put(self, out: &mut Text) {
        out.extend_from_slice(self);
    }
}

impl Piece for u32 {
    fn put(self, out: &mut Text) {
        let mut digits = [0; 10];
        let mut first = digits.len();
        let mut rest = self;
        loop {
            first -= 1;
            digits[first] = b'0' + (rest % 10) as u8;
            rest /= 10;
            if rest == 0 {
                break;
            }
        }
        out.extend_from_slice(&digits[first..]);
    }
}

/// The state of a worker, and whether it is gone.
struct State(Phase, bool);

impl Piece for State {
    fn put(self, out: &mut Text) {
        match self {
            State(Phase::Over, _) => "ended".put(out),
            State(Phase::Left, _) => "left".put(out),
            State(_, true) => "halted".put(out),
            State(Phase::Announcing(job), _) => ("announcing ", job).put(out),
            State(Phase::Trying(job, q), _) => ("trying ", job, " at ", q).put(out),
            State(Phase::Reading(job, q), _) => ("reading ", job, " at ", q).put(out),
            State(Phase::Claiming(job), _) => ("claiming ", job).put(out),
            State(Phase::Holding(job), _) => ("holding ", job).put(out),
        }
    }
}

/// The line of the trace, without its end.
impl Piece for &Step {
    fn put(self, out: &mut Text) {
        (self.number, " worker ", self.worker, " ").put(out);
        self.put_act(out);
        self.put_fact(out);
        (" now ", State(self.after, self.gone)).put(out);
    }
}

/// Pieces one after the other.
struct All<I>(I);

impl<I: Iterator<Item: Piece>> Piece for All<I> {
    fn put(self, out: &mut Text) {
        self.0.for_each(|piece| piece.put(out));
    }
}

macro_rules! pieces {
    ($($name:ident)+) => {
        impl<$($name: Piece),+> Piece for ($($name,)+) {
            fn put(self, out: &mut Text) {
                #[allow(non_snake_case)]
                let ($($name,)+) = self;
                $($name.put(out);)+
            }
        }
    };
}

pieces!(A B);
pieces!(A B C);
pieces!(A B C D);
pieces!(A B C D E);
pieces!(A B C D E F);
pieces!(A B C D E F G);
