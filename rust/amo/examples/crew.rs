//! A process that works as one worker of a run, over registers in a file. It performs a job by
//! writing a line.
//!
//! ```text
//! crew FILE JOBS WORKERS P
//! ```
//!
//! All processes of a run are given the same FILE, JOBS and WORKERS. FILE is made if it is missing;
//! put it on a local disk, and keep the files beside it: FILE.boot and a lock for each worker. If a
//! process has died, start another one with its number: it waits until the earlier one is gone.

use amo::{Crew, Fault, MappedFile};
use std::env;
use std::process::exit;

fn work(path: &str, jobs: u32, workers: u32, number: u32) -> Result<(), Fault> {
    let crew = Crew::new(MappedFile::open(path, workers, jobs)?, workers, jobs)?;
    let mut worker = crew.worker_when_free(number)?;
    worker.run(
        |job| println!("job {job}"), // standard output writes each line at once
        |doubt| eprintln!("job {} is in doubt", doubt.job()),
    )
}

fn main() {
    let words: Vec<String> = env::args().skip(1).collect();
    let numbers: Vec<u32> = words
        .iter()
        .skip(1)
        .filter_map(|word| word.parse().ok())
        .collect();
    let (path, numbers) = match (words.first(), &numbers[..]) {
        (Some(path), [jobs, workers, number]) if words.len() == 4 => {
            (path, (*jobs, *workers, *number))
        }
        _ => {
            eprintln!("usage: crew FILE JOBS WORKERS P");
            exit(2);
        }
    };
    if let Err(fault) = work(path, numbers.0, numbers.1, numbers.2) {
        eprintln!("crew: {fault}");
        exit(1);
    }
}
