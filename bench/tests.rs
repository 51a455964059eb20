//! Schedules whose histories were worked out by hand:
//! `rustc --test --edition 2021 -o bench/out/rows bench/replay.rs && bench/out/rows`.
use super::*;

/// The history as one line, in the words of a report.
fn history(world: &World) -> String {
    let entries = world.history.iter().map(|event| match event {
        Event::Claimed(p, j) => format!("claimed {p} {j}"),
        Event::Done(p, j) => format!("done {p} {j}"),
        Event::Ended(p) => format!("ended {p}"),
        Event::Halted(p) => format!("halted {p}"),
        Event::Left(p) => format!("left {p}"),
    });
    entries.collect::<Vec<String>>().join(", ")
}

/// The world of these jobs, workers and threshold after the schedule.
fn after(givens: [u32; 3], schedule: &str) -> World {
    let [jobs, workers, beta] = givens;
    let mut world = World::new(Givens { jobs, workers, beta });
    let moves: Vec<Move> = schedule.split_whitespace().flat_map(moves_of).collect();
    world.run(&moves);
    world
}

/// Wants this history, these turns of the workers, and these jobs unclaimed.
fn check(givens: [u32; 3], schedule: &str, events: &str, turns: &[u64], unclaimed: &[u32]) {
    let world = after(givens, schedule);
    assert_eq!(history(&world), events, "after {schedule}");
    let taken: Vec<u64> = world.seats.iter().map(|seat| seat.local.steps).collect();
    assert_eq!(taken, turns, "after {schedule}");
    let mut free = JobSet::full(givens[0]);
    for job in world.seats.iter().flat_map(|seat| &seat.local.claims) {
        assert!(free.has(*job), "job {job} is claimed twice after {schedule}");
        free.take_out(*job);
    }
    let free: Vec<u32> = free.members(givens[0]).collect();
    assert_eq!(free, unclaimed, "after {schedule}");
}

/// The events of worker 1 claiming and performing these jobs.
fn first_worker(jobs: &[u32]) -> String {
    let both = jobs.iter().map(|j| format!("claimed 1 {j}, done 1 {j}, "));
    both.collect()
}

#[test]
fn one_worker() {
    let all = first_worker(&[1, 2, 3]);
    check([3, 1, 1], "1*9", &format!("{all}ended 1"), &[9], &[]);
}

#[test]
fn fewer_jobs_than_the_threshold() {
    check([0, 2, 2], "", "ended 1, ended 2", &[0, 0], &[]);
    check([3, 2, 9], "", "ended 1, ended 2", &[0, 0], &[1, 2, 3]);
    check([3, 2, 9], "1 x1", "ended 1, ended 2", &[0, 0], &[1, 2, 3]);
}

#[test]
fn two_workers_side_by_side() {
    let events = "claimed 1 1, claimed 2 2, done 1 1, ended 1, done 2 2, ended 2";
    check([2, 2, 2], "1 2 1 2 1 2 1 2 1 2", events, &[5, 5], &[]);
}

#[test]
fn two_workers_collide() {
    let events = "claimed 1 1, done 1 1, ended 1, ended 2";
    check([3, 2, 2], "1*5 1 2 1*2 2*3", events, &[8, 4], &[2, 3]);
}

#[test]
fn one_worker_far_ahead() {
    let three = first_worker(&[1, 2, 3]);
    let events = format!("{three}ended 2, claimed 1 4, done 1 4, ended 1");
    check([5, 2, 2], "1*16 2*6 1*4", &events, &[20, 6], &[5]);
}

/// A worker that asks only whether the job was announced claims job 3 again in the last move.
#[test]
fn a_performed_job_is_not_claimed() {
    let events = first_worker(&[1, 2, 3]) + "ended 2";
    check([5, 2, 2], "1*13 2 1*3 2*6", &events, &[16, 6], &[4, 5]);
}

/// A worker that reads the rows before the announcements claims job 3 again in its sixth turn.
#[test]
fn rows_are_read_after_announcements() {
    let three = first_worker(&[1, 2, 3]);
    let events = format!("{three}claimed 2 5, done 2 5, ended 2, claimed 1 4, done 1 4, ended 1");
    check([5, 2, 2], "1*13 2*4 1*3 2*7 1*5", &events, &[21, 11], &[]);
}

#[test]
fn stops() {
    let three = first_worker(&[1, 2, 4]);
    let events = format!("halted 2, {three}ended 1");
    check([5, 2, 2], "2 x2 1*15", &events, &[15, 1], &[3, 5]);
    let events = "claimed 1 1, halted 1, claimed 2 3, done 2 3, claimed 2 4, done 2 4, claimed 2 5, done 2 5, ended 2";
    check([5, 2, 2], "1*4 x1 2*15", events, &[4, 15], &[2]);
    check([5, 2, 2], "x1 x1 1", "halted 1", &[0, 0], &[1, 2, 3, 4, 5]);
}

#[test]
fn leaves() {
    let four = first_worker(&[1, 2, 3, 4]);
    let events = format!("left 2, {four}ended 1");
    check([5, 2, 2], "2 l2 1*20", &events, &[20, 2], &[5]);
    // With a job in hand a worker stays.
    check([5, 2, 2], "1*4 l1 1", "claimed 1 1, done 1 1", &[5, 0], &[2, 3, 4, 5]);
}

#[test]
fn first_choices_are_spread() {
    for (jobs, workers, beta, choices) in [(100, 4, 4, vec![1, 25, 49, 73]), (4, 3, 3, vec![1, 2, 3])] {
        let givens = Givens { jobs, workers, beta };
        for (worker, job) in (1..).zip(choices) {
            assert_eq!(Local::new(givens, worker).phase, Phase::Announcing(job));
        }
    }
}

#[test]
fn ranks_skip_the_other_set() {
    let mut members = JobSet::empty(9);
    for job in [2, 4, 5, 7] {
        members.add(job);
    }
    let mut taken = JobSet::empty(9);
    taken.add(4);
    taken.add(9);
    for (rank, job) in [(1, 2), (2, 5), (3, 7)] {
        assert_eq!(members.rank_without(&taken, rank), job);
    }
}
