//! The traces, pictures and reports of examples/plans/, and traces that were worked out by hand.
//! Run at the top: `rustc --test --edition 2021 -o bench/out/texts bench/show.rs &&
//! bench/out/texts`.
use super::*;
use std::fs;
use std::process::{Command, Stdio};

/// The plan with each key on a line of its own, also where its jobs stand in braces.
fn laid_out(plan: &str) -> String {
    let lines = plan.lines().map(|line| match line.trim().strip_prefix('{') {
        Some(job) => job.trim_end_matches(['}', ',']).replace(", say", "\nsay"),
        None => line.to_string(),
    });
    lines.collect::<Vec<String>>().join("\n")
}

fn trace(plan: &Plan) -> Text {
    let mut out = Text::new();
    write_trace(plan, &mut out).expect("a Vec takes all that is written");
    out
}

/// The line that `sha256sum` writes of a text.
fn sum(text: &Text) -> Text {
    let mut command = Command::new("sha256sum");
    let child = command.stdin(Stdio::piped()).stdout(Stdio::piped()).spawn();
    let mut child = child.expect("sha256sum is here");
    let mut input = child.stdin.take().expect("a pipe");
    input.write_all(text).expect("it is read");
    drop(input);
    child.wait_with_output().expect("it ends").stdout
}

/// Wants this text of this plan.
fn check(plan: &str, file: &str, text: impl Fn(&Plan) -> Text) {
    let plan = fs::read_to_string(plan).expect(plan);
    let wanted = fs::read_to_string(file).expect(file);
    let text = String::from_utf8(text(&Plan::read(&laid_out(&plan)))).expect("it is ASCII");
    assert_eq!(text, wanted, "{file}");
}

/// Wants this text of each plan of examples/plans/ beside which a file with this ending lies.
fn check_all(ending: &str, text: impl Fn(&Plan) -> Text) {
    let mut found = 0;
    for entry in fs::read_dir("examples/plans").expect("this runs at the top") {
        let path = entry.expect("an entry").path();
        if path.extension().is_some_and(|extension| extension == ending) {
            let plan = path.with_extension("toml");
            check(&plan.to_string_lossy(), &path.to_string_lossy(), &text);
            found += 1;
        }
    }
    assert_ne!(found, 0, "nothing ends in .{ending}");
}

#[test]
fn traces() {
    check_all("trace", trace);
    check_all("trace_sum", |plan| sum(&trace(plan)));
}

#[test]
fn pictures() {
    check_all("svg", picture::drawn);
    check_all("svg_sum", |plan| sum(&picture::drawn(plan)));
    check("examples/plans/two_collide.toml", "docs/two_collide.svg", picture::drawn);
}

#[test]
fn reports() {
    check_all("report", |plan| replay::replayed(plan).into_bytes());
}

#[test]
fn stops() {
    check("examples/plans/each_stop.toml", "examples/plans/each_stop.stops_1", |plan| replay::stops(plan, 1).into_bytes());
}

#[test]
fn explored() {
    check("examples/plans/rounds.toml", "examples/plans/rounds.explore_0_2_5", |plan| replay::explore(plan, 0, 2, 5).into_bytes());
}

/// A plan of one worker with this version, schedule and number of jobs.
fn alone(version: u32, schedule: &str, jobs: u32) -> Plan {
    let names: String = (1..=jobs).map(|job| format!("name = \"{job}\"\n")).collect();
    let head = format!("version = {version}\nworkers = 1\nbeta = 1\nschedule = \"{schedule}\"\n");
    Plan::read(&(head + &names))
}

/// Asked to leave with a job in its hand, a worker stays. The last move has no line, since nobody
/// is left.
#[test]
fn a_worker_that_stays_and_one_that_leaves() {
    let wanted = "jobs 2 block 1 blocks 2 workers 1 beta 1 bound 2
0 worker 1 opens now announcing 1
1 worker 1 stores next[1] = 1 now claiming 1
2 worker 1 stores claim[1] = 1 claimed 1 now holding 1
3 worker 1 stays now holding 1
4 worker 1 stores done[1][1] = 1 done 1 now announcing 2
5 worker 1 stores next[1] = 2 now claiming 2
6 worker 1 stores next[1] = 0 now left
";
    let text = trace(&alone(2, "1*2 l1 1*2 l1 1", 2));
    assert_eq!(String::from_utf8_lossy(&text), wanted);
}

/// Worker 1 alone takes the jobs in their order, each by three moves, and ends with the last.
#[test]
fn a_trace_longer_than_what_is_written_at_a_time() {
    let mut wanted = String::from("jobs 4096 workers 1 beta 1 bound 4096\n0 worker 1 opens now announcing 1\n");
    for j in 1..=4096 {
        let moves = [3 * j - 2, 3 * j - 1, 3 * j];
        let then = if j < 4096 { format!("announcing {}", j + 1) } else { String::from("ended") };
        wanted += &format!("{} worker 1 stores next[1] = {j} now claiming {j}\n", moves[0]);
        wanted += &format!("{} worker 1 stores claim[1] = {j} claimed {j} now holding {j}\n", moves[1]);
        wanted += &format!("{} worker 1 stores done[1][{j}] = {j} done {j} now {then}\n", moves[2]);
    }
    assert!(wanted.len() > 2 * ROOM);
    let text = trace(&alone(1, "1*20000", 4096));
    assert!(text == wanted.as_bytes(), "the long trace differs");
}
