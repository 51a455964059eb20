//! The picture of a run: a row for each move that changes something, or, if there are too many of
//! them, a column for each job and a lane for each worker.

use super::replay::{self, Phase, Plan, Want, World};
use super::{Act, All, Piece, Step, Text, first_line, steps};

/// More moves have no rows of their own.
const MOST_ROWS: usize = 400;

/// After so many rows the heads of the lanes come again.
const RULED_ROWS: usize = 50;

/// More jobs that nobody has claimed are counted and not named.
const MOST_NAMED: usize = 8;

const STYLE: &str = "<style>
.g{fill:#fff}.i{fill:#1f2328}.f{fill:#59636e}.c{fill:#0072b2}.x{fill:#b84a00}
.li,.lf,.lc,.lx,.lb,.lp{fill:none}
.li{stroke:#1f2328}.lf{stroke:#59636e}.lc{stroke:#0072b2}.lx{stroke:#b84a00}.lb{stroke:#8c959f}.lp{stroke:#c4ccd4}
@media(prefers-color-scheme:dark){
.g{fill:#0d1117}.i{fill:#e6edf3}.f{fill:#9198a1}.c{fill:#56b4e9}.x{fill:#e69f00}
.li{stroke:#e6edf3}.lf{stroke:#9198a1}.lc{stroke:#56b4e9}.lx{stroke:#e69f00}.lb{stroke:#6e7681}.lp{stroke:#3d444d}
}
</style>
";

const DISC: &str = "m-5 0a5 5 0 0 0 10 0a5 5 0 0 0 -10 0z";
const SQUARE: &str = "m-5 -5h10v10h-10z";
const DIAMOND: &str = "m-5 0l5 -5l5 5l-5 5z";
const SPECK: &str = "m-2 -2h4v4h-4z";
const STOP: &str = "m-6 -6l12 12m0 -12l-12 12";
const LEAVE: &str = "m-6 -2h12m0 5h-12";
const END: &str = "m-8 0h16";
const FAIL: &str = "m-5 -5l10 10m0 -10l-10 10";

const KEY_OF_ROWS: [&str; 5] = [
    "A lane is a worker, a row a move. Disc: it announces a job, and the wide",
    "bar is how long that stands. Squares: it claims a job, then has done it;",
    "between them it has the job in hand. Diamond: a load that sees a job, with",
    "a line to whose word it is, thick where it makes the attempt fail. Cross:",
    "the attempt has failed. Small square: a load of 0.",
];

const KEY_OF_JOBS: [&str; 3] = [
    "Down are the moves. Left, a column is a job: marked from its claim on, grey once it is done, empty while unclaimed.",
    "Right, a lane is a worker: a tick on the left is a claim, on the right a failed attempt. Below, how many it has done.",
    "Under the columns: who has claimed a job, by a mark in that worker's lane, a low one where it hasn't done it; none: nobody.",
];

pub fn drawn(plan: &Plan) -> Text {
    let mut world = World::new(plan.givens);
    let mut run = Run::of(plan.givens.workers);
    for step in steps(plan, &mut world).filter(Step::changes) {
        run.add(step);
    }
    let mut picture = Picture {
        plan,
        world: &world,
        out: Text::new(),
    };
    if run.rows.len() > MOST_ROWS {
        picture.draw_jobs(&run);
    } else {
        picture.draw_rows(&run.rows);
    }
    picture.out
}

/// The run that is drawn.
struct Run {
    /// The first moves that change something, one more than may have rows.
    rows: Vec<Step>,
    /// The number of the last such move.
    last: u32,
    performed: Vec<Mark>,
    /// That of worker 1 first.
    lanes: Vec<Lane>,
}

#[derive(Default)]
struct Lane {
    claimed: Vec<Mark>,
    performed: Vec<Mark>,
    failed: Vec<Mark>,
    /// The number of the move after which the worker is gone, and the shape that says how.
    gone: Option<(u32, &'static str)>,
}

/// A job, and the number of the move that claims it, performs it, or gives it up.
#[derive(Clone, Copy)]
struct Mark {
    job: u32,
    number: u32,
}

impl Run {
    fn of(workers: u32) -> Run {
        Run {
            rows: Vec::with_capacity(MOST_ROWS + 1),
            last: 0,
            performed: Vec::new(),
            lanes: (0..workers).map(|_| Lane::default()).collect(),
        }
    }

    fn add(&mut self, step: Step) {
        self.last = step.number;
        let mark = Mark {
            job: step.before.job(),
            number: step.number,
        };
        let lane = &mut self.lanes[step.worker as usize - 1];
        match step.act {
            Act::Turned(Want::StoreClaim(_), _) => lane.claimed.push(mark),
            Act::Turned(Want::StoreDone(..), _) => {
                lane.performed.push(mark);
                self.performed.push(mark);
            }
            _ if step.fails() => lane.failed.push(mark),
            _ => {}
        }
        if step.gone {
            let shape = match step.act {
                Act::Stops => STOP,
                Act::Leaves => LEAVE,
                _ => END,
            };
            lane.gone = Some((step.number, shape));
        }
        if self.rows.len() <= MOST_ROWS {
            self.rows.push(step);
        }
    }
}

struct Picture<'a> {
    plan: &'a Plan,
    world: &'a World,
    out: Text,
}

impl Picture<'_> {
    /// Words from (x, y) on.
    fn text(&mut self, class: &str, x: u32, y: u32, words: impl Piece) {
        ("<text class=\"", class, "\" x=\"", x, "\" y=\"", y, "\">").put(&mut self.out);
        (words, "</text>\n").put(&mut self.out);
    }

    /// Words that end at (x, y).
    fn before(&mut self, class: &str, x: u32, y: u32, words: impl Piece) {
        self.anchored("end", class, x, y, words);
    }

    /// Words that are anchored at (x, y) by their end or their middle.
    fn anchored(&mut self, anchor: &str, class: &str, x: u32, y: u32, words: impl Piece) {
        ("<text class=\"", class, "\" text-anchor=\"", anchor).put(&mut self.out);
        ("\" x=\"", x, "\" y=\"", y, "\">", words, "</text>\n").put(&mut self.out);
    }

    fn area(&mut self, class: &str, path: impl Piece) {
        ("<path class=\"", class, "\" d=\"", path, "\"/>\n").put(&mut self.out);
    }

    fn stroke(&mut self, class: &str, width: u32, path: impl Piece) {
        ("<path class=\"l", class, "\" stroke-width=\"", width, "\" d=\"", path, "\"/>\n").put(&mut self.out);
    }

    fn dotted(&mut self, class: &str, path: impl Piece) {
        ("<path class=\"l", class, "\" stroke-dasharray=\"1 3\" d=\"", path, "\"/>\n").put(&mut self.out);
    }

    fn head(&mut self, width: u32, height: u32) {
        let first_line = first_line(self.plan);
        let mut tallies = String::new();
        replay::write_workers(&mut tallies, self.world).expect("a String takes all that is written");
        let performed = self.performed();
        let unclaimed = self.unclaimed_words();
        let out = &mut self.out;
        "<svg xmlns=\"http://www.w3.org/2000/svg\" lang=\"en\" role=\"img\" ".put(out);
        ("font-family=\"monospace\" font-size=\"12\" viewBox=\"0 0 ", width, " ", height).put(out);
        ("\" width=\"", width, "\" height=\"", height, "\">\n").put(out);
        ("<title>Run of a plan</title>\n<desc>", &*first_line, &*tallies, &*performed).put(out);
        (&*unclaimed, "\nThe moves as text: amo_show trace</desc>\n", STYLE).put(out);
        self.area("g", ("M0 0h", width, "v", height, "h-", width, "z"));
        self.text("i", 16, 24, first_line.trim_end());
    }

    fn foot(&mut self, y: u32, key: &[&str]) {
        let performed = self.performed();
        self.text("i", 16, y, performed.trim_end());
        let unclaimed = self.unclaimed_words();
        self.text("i", 16, y + 16, &*unclaimed);
        for (line, y) in key.iter().zip((y + 44..).step_by(16)) {
            self.text("f", 16, y, *line);
        }
        "</svg>\n".put(&mut self.out);
    }

    /// The line of the report.
    fn performed(&self) -> String {
        let mut line = String::new();
        replay::write_performed(&mut line, self.plan, self.world).expect("a String takes all that is written");
        line
    }

    /// The jobs that nobody has claimed.
    fn unclaimed(&self) -> Vec<u32> {
        let mut is_claimed = vec![false; self.plan.givens.jobs as usize + 1];
        for seat in &self.world.seats {
            for job in &seat.local.claims {
                is_claimed[*job as usize] = true;
            }
        }
        (1..=self.plan.givens.jobs).filter(|job| !is_claimed[*job as usize]).collect()
    }

    /// Returns the kind of the columns of a picture of jobs.
    fn kind(&self) -> &'static str {
        if self.plan.block.is_some() { "blocks" } else { "jobs" }
    }

    /// Which jobs nobody has claimed, or how many of them there are.
    fn unclaimed_words(&self) -> String {
        let jobs = self.unclaimed();
        match (jobs.len(), self.kind()) {
            (0, _) => "unclaimed none".to_string(),
            (count, kind) if count > MOST_NAMED => format!("unclaimed {count} {kind}"),
            (_, kind) => {
                let mut words = String::from(if kind == "blocks" { "unclaimed blocks" } else { "unclaimed" });
                for job in jobs {
                    words += &format!(" {job}");
                }
                words
            }
        }
    }
}

/// Returns the place of a worker's line.
fn lane(worker: u32) -> u32 {
    176 * worker - 100
}

/// How far down a row is, the first being row 1. The heads of the lanes take the place of a row
/// each time that they come again.
fn row(number: usize) -> u32 {
    let heads = (number - 1) / RULED_ROWS;
    72 + 18 * (number + heads) as u32
}

/// The first row after this one whose step is the worker's and passes, or the one after the last.
fn next(rows: &[Step], number: usize, worker: u32, test: impl Fn(&Step) -> bool) -> usize {
    let rest = &rows[number..];
    let found = rest.iter().position(|step| step.worker == worker && test(step));
    number + found.unwrap_or(rest.len()) + 1
}

fn stores_next(step: &Step) -> bool {
    matches!(step.act, Act::Turned(Want::StoreNext(_), _) | Act::Leaves)
}

fn stores_done(step: &Step) -> bool {
    matches!(step.act, Act::Turned(Want::StoreDone(..), _))
}

impl Picture<'_> {
    fn draw_rows(&mut self, rows: &[Step]) {
        let workers = self.plan.givens.workers;
        let bottom = row(rows.len() + 1);
        let width = 56 + 176 * workers.max(3);
        self.head(width, bottom + 192);
        for p in 1..=workers {
            self.text("i", lane(p) - 20, 56, ("worker ", p));
            let end = row(next(rows, 0, p, |step| step.gone));
            self.stroke("f", 1, ("M", lane(p), " 64v", end - 64));
        }
        let mut label = Text::new();
        for (number, step) in (1..).zip(rows) {
            label.clear();
            self.draw_row(rows, number, &mut label);
            if number % RULED_ROWS == 0 {
                self.draw_heads(row(number) + 18, width, step.number);
            }
        }
        let world = self.world;
        for (p, seat) in (1..).zip(&world.seats) {
            let state = replay::state_of(p, &world.history);
            let turns = seat.local.steps as u32;
            let claimed = seat.local.claims.len() as u32;
            let done = seat.local.dones.len() as u32;
            self.text("i", lane(p) - 20, bottom + 14, (state, " turns ", turns));
            self.text("i", lane(p) - 20, bottom + 30, ("claimed ", claimed, " done ", done));
        }
        self.foot(bottom + 60, &KEY_OF_ROWS);
    }

    /// The heads of the lanes once more, below the row of the move with this number.
    fn draw_heads(&mut self, y: u32, width: u32, number: u32) {
        self.stroke("b", 1, ("M16 ", y + 9, "h", width - 32));
        self.before("i", 44, y + 4, number);
        for p in 1..=self.plan.givens.workers {
            self.text("i", lane(p) + 14, y + 4, ("worker ", p));
        }
    }

    /// The row with this number. The label comes empty.
    fn draw_row(&mut self, rows: &[Step], number: usize, label: &mut Text) {
        let step = &rows[number - 1];
        let y = row(number);
        let p = step.worker;
        let x = lane(p);
        let job = step.before.job();
        let ends = if step.after == Phase::Over { ", ends" } else { "" };
        ("<g><title>", step, "</title>\n").put(&mut self.out);
        self.before("f", 44, y + 4, step.number);
        let place = ("M", x, " ", y);
        let class = match step.act {
            Act::Stops => {
                "is stopped".put(label);
                self.stroke("i", 3, (place, STOP));
                "i"
            }
            _ if step.fails() => {
                ("fails at ", job, ends).put(label);
                self.stroke("x", 2, (place, FAIL));
                "x"
            }
            Act::Turned(Want::LoadNext(q), 0) => {
                ("next[", q, "] = 0").put(label);
                self.area("f", (place, SPECK));
                "f"
            }
            Act::Turned(Want::LoadDone(q, k), 0) => {
                ("done[", q, "][", k, "] = 0").put(label);
                self.area("f", (place, SPECK));
                "f"
            }
            Act::Turned(Want::LoadNext(q), value) => {
                ("sees ", value).put(label);
                self.draw_sight(step, y, q, lane(q) - 12, label.len(), value == job)
            }
            Act::Turned(Want::LoadDone(q, _), value) => {
                ("sees ", value, " done").put(label);
                self.draw_sight(step, y, q, lane(q), label.len(), value == job)
            }
            Act::Leaves => {
                "leaves".put(label);
                self.stroke("i", 2, (place, LEAVE));
                "i"
            }
            Act::Turned(Want::StoreNext(_), _) => {
                ("announces ", job).put(label);
                let end = row(next(rows, number, p, stores_next));
                self.stroke("b", 6, ("M", x - 12, " ", y - 5, "v", end - y - 3));
                self.area("i", (place, DISC));
                "i"
            }
            Act::Turned(Want::StoreClaim(_), _) => {
                ("claims ", job).put(label);
                let end = row(next(rows, number, p, stores_done));
                self.stroke("c", 4, (place, "v", end - y));
                self.area("c", (place, SQUARE));
                "c"
            }
            Act::Turned(Want::StoreDone(..), _) => {
                ("has done ", job, ends).put(label);
                self.area("c", (place, SQUARE));
                "c"
            }
            Act::Turned(Want::Nothing, _) | Act::Stays | Act::Idles => unreachable!("each row changes something"),
        };
        if step.after == Phase::Over {
            self.stroke("i", 2, ("M", x, " ", y + 8, END));
        }
        self.text(class, x + 14, y + 4, &*label);
        "</g>\n".put(&mut self.out);
    }

    /// Draws a load of a job, with a line from the label or the mark to the word of worker q.
    /// Returns the class.
    fn draw_sight(&mut self, step: &Step, y: u32, q: u32, word: u32, label: usize, is_own: bool) -> &'static str {
        let x = lane(step.worker);
        let from = if q < step.worker { x } else { x + 14 + 8 * label as u32 };
        let line = ("M", from, " ", y, "H", word, "m0 -5v10");
        let class = if is_own { "x" } else { "f" };
        if is_own {
            self.stroke(class, 2, line);
        } else {
            self.dotted(class, line);
        }
        self.area(class, ("M", x, " ", y, DIAMOND));
        class
    }

    fn draw_jobs(&mut self, run: &Run) {
        let jobs = self.plan.givens.jobs;
        let workers = self.plan.givens.workers;
        let width = 880 + 36 * workers.max(2);
        let column = 768 / jobs + 1;
        let at = |number: u32| 72 + 960 * number / run.last;
        let place = |job: u32| 72 + 768 * (2 * job - 1) / (2 * jobs);
        let start = |mark: &Mark| ("M", place(mark.job), " ", at(mark.number));
        // the places of the marks of claims, those of worker 1 first, and last those of jobs
        // without a claim
        let band = |lane: u32| 1052 + 14 * lane;
        let bottom = band(workers + 1);
        self.head(width, bottom + 160);
        self.text("i", 72, 40, (self.kind(), " 1 to ", jobs));
        self.text("i", 872, 40, "workers");
        self.text("i", 16, 1048, "claimed by");
        let named: Vec<u32> = (1..=jobs).filter(|job| job % between(jobs) == 0).collect();
        for (tick, words) in [(62, 56), (bottom + 4, bottom + 24)] {
            for job in &named {
                self.stroke("f", 1, ("M", place(*job), " ", tick, "v8"));
                self.anchored("middle", "f", place(*job), words, *job);
            }
        }
        for number in (0..=run.last).step_by(between(run.last) as usize) {
            self.before("f", 64, at(number) + 4, number);
            self.stroke("p", 1, ("M72 ", at(number), "h", width - 88));
        }
        self.stroke("p", column, All(run.performed.iter().map(|mark| (start(mark), "V1032"))));
        for (p, lane) in (1..).zip(&run.lanes) {
            let x = 848 + 36 * p;
            let class = if p % 2 == 1 { "c" } else { "i" };
            ("<g><title>worker ", p, "</title>\n").put(&mut self.out);
            // a worker claims its next job only once it has performed the one before
            let ends = lane.performed.iter().map(|mark| at(mark.number) + 2).chain([1032]);
            let held = lane.claimed.iter().zip(ends);
            self.stroke(class, column + 1, All(held.map(|(mark, end)| (start(mark), "V", end))));
            self.stroke("x", column + 1, All(lane.failed.iter().map(|mark| (start(mark), "v3"))));
            self.stroke(class, 2, All(lane.claimed.iter().map(|mark| ("M", x - 12, " ", at(mark.number), "h10"))));
            self.stroke("x", 2, All(lane.failed.iter().map(|mark| ("M", x + 2, " ", at(mark.number), "h10"))));
            let end = lane.gone.map_or(1032, |(number, _)| at(number));
            self.stroke("b", 2, ("M", x, " 72V", end));
            if let Some((_, shape)) = lane.gone {
                self.stroke("i", 2, ("M", x, " ", end, shape));
            }
            self.text(class, x - 12, 56, p);
            self.text(class, x - 12, 1052, lane.performed.len() as u32);
            self.before(class, 64, band(p), p);
            self.stroke("p", 1, ("M72 ", band(p), "h768"));
            let done = lane.performed.len();
            let marks = (0..).zip(&lane.claimed).map(|(i, mark)| {
                let height = if i < done { "v-10" } else { "v-4" };
                ("M", place(mark.job), " ", band(p), height)
            });
            self.stroke(class, column + 1, All(marks));
            "</g>\n".put(&mut self.out);
        }
        let unclaimed = self.unclaimed();
        "<g><title>unclaimed</title>\n".put(&mut self.out);
        self.before("f", 64, bottom, "none");
        self.stroke("p", 1, ("M72 ", bottom, "h768"));
        self.stroke("f", column + 1, All(unclaimed.iter().map(|job| ("M", place(*job), " ", bottom, "v-10"))));
        "</g>\n".put(&mut self.out);
        self.foot(bottom + 60, &KEY_OF_JOBS);
    }
}

/// How far apart the numbers of an axis are that goes up to this one.
fn between(last: u32) -> u32 {
    let eighth = last / 8;
    let power = 10_u32.pow(eighth.checked_ilog10().unwrap_or(0));
    (eighth / power + 1) * power
}
