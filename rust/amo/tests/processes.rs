//! Processes over a mapped file, which are killed by SIGKILL at each of their accesses in turn.

use amo::{Crew, Fault, Lock, MappedFile, Registers, Step};
use std::cell::Cell;
use std::fs::{self, File, OpenOptions};
use std::io::{self, Write};
use std::os::unix::fs::{symlink, MetadataExt};
use std::os::unix::process::ExitStatusExt;
use std::path::{Path, PathBuf};
use std::process::{self, Command, ExitStatus};
use std::sync::atomic::{AtomicBool, Ordering::SeqCst};
use std::{env, thread, time::Duration};

const WORKERS: u32 = 2;
const JOBS: u32 = 3;
const NEVER: u32 = u32::MAX;
const FOLDER: &str = "AMO_TEST_FOLDER"; // the variables of a process that works
const NUMBER: &str = "AMO_TEST_NUMBER";
const DIES_AT: &str = "AMO_TEST_DIES_AT";

/// Registers whose process is killed before an access.
struct Dying {
    file: MappedFile,
    left: Cell<u32>,
}

impl Dying {
    fn step(&self) {
        match self.left.get() {
            0 => die(),
            left => self.left.set(left - 1),
        }
    }
}

/// Has this process killed, and waits for that.
fn die() {
    let _ = Command::new("sh")
        .args(["-c", "kill -KILL \"$0\"", &process::id().to_string()])
        .status();
    thread::sleep(Duration::from_secs(60));
}

impl Registers for Dying {
    fn load(&self, place: usize) -> io::Result<u64> {
        self.step();
        self.file.load(place)
    }

    fn store(&self, place: usize, value: u64) -> io::Result<()> {
        self.step();
        self.file.store(place, value)
    }

    fn lock(&self, number: u32, waits: bool) -> io::Result<Option<Lock>> {
        self.file.lock(number, waits)
    }
}

fn note(folder: &Path, word: &str, job: u32) {
    let path = folder.join("noted");
    let mut file = OpenOptions::new()
        .append(true)
        .create(true)
        .open(path)
        .expect("a file");
    file.write_all(format!("{word} {job}\n").as_bytes())
        .expect("room on the disk");
}

fn noted(folder: &Path, word: &str) -> Vec<u32> {
    let text = fs::read_to_string(folder.join("noted")).unwrap_or_default();
    let rows = text.lines().filter_map(|line| line.strip_prefix(word));
    let mut jobs: Vec<u32> = rows.map(|job| job.trim().parse().expect("a job")).collect();
    jobs.sort_unstable();
    jobs
}

fn variable(name: &str) -> Option<String> {
    env::var(name).ok()
}

/// The process of a worker. As a test on its own it has no variables, and does nothing.
#[test]
fn work() {
    let folder = match variable(FOLDER) {
        Some(folder) => PathBuf::from(folder),
        None => return,
    };
    let number = variable(NUMBER)
        .and_then(|it| it.parse().ok())
        .expect("a number");
    let dies_at = variable(DIES_AT)
        .and_then(|it| it.parse().ok())
        .expect("a number");
    let file = MappedFile::open(folder.join("words"), WORKERS, JOBS).expect("a file");
    let crew = Crew::new(
        Dying {
            file,
            left: Cell::new(dies_at),
        },
        WORKERS,
        JOBS,
    )
    .expect("a crew");
    let mut worker = crew.worker(number).expect("nobody has this number");
    let perform = |job| note(&folder, "performed ", job);
    worker
        .run(perform, |doubt| note(&folder, "doubt ", doubt.job()))
        .expect("no fault");
}

/// Has a process work, and returns how it ended.
fn ended(folder: &Path, number: u32, dies_at: u32) -> ExitStatus {
    Command::new(env::current_exe().expect("this program"))
        .args(["--exact", "work", "--quiet"])
        .env(FOLDER, folder)
        .env(NUMBER, number.to_string())
        .env(DIES_AT, dies_at.to_string())
        .stdout(process::Stdio::null())
        .status()
        .expect("a process")
}

/// Returns true if this status is that of a process that was killed. Fails if it has failed.
fn was_killed(status: ExitStatus) -> bool {
    assert!(status.success() || status.signal() == Some(9), "{status:?}");
    !status.success()
}

#[test]
fn a_kill_after_which_a_job_is_performed_twice_or_forgotten() {
    let folder = env::temp_dir().join(format!("amo-processes.{}", process::id()));
    let mut kills = 0;
    loop {
        fs::create_dir(&folder).expect("a folder");
        let killed = was_killed(ended(&folder, 1, kills));
        assert!(!was_killed(ended(&folder, 2, NEVER)));
        assert!(!was_killed(ended(&folder, 1, NEVER)));
        check(&folder, kills);
        fs::remove_dir_all(&folder).expect("the folder");
        if !killed {
            break;
        }
        kills += 1;
    }
    assert!(kills > 10, "{kills}"); // 3 loads at the start, and some 6 accesses for each of 2 jobs
}

fn check(folder: &Path, kills: u32) {
    let (performed, doubts) = (noted(folder, "performed "), noted(folder, "doubt "));
    assert!(
        performed.windows(2).all(|pair| pair[0] < pair[1]),
        "access {kills}: {performed:?}"
    );
    let file = MappedFile::open(folder.join("words"), WORKERS, JOBS).expect("a file");
    let crew = Crew::new(file, WORKERS, JOBS).expect("a crew");
    let standing = crew.standing().expect("no fault");
    assert!(
        standing.recorded.len() as u64 >= crew.bound(),
        "access {kills}: {standing:?}"
    );
    for job in 1..=JOBS {
        let is_recorded = standing.recorded.contains(&job);
        let is_known = performed.contains(&job) || doubts.contains(&job);
        assert_eq!(
            is_recorded, is_known,
            "access {kills}, job {job}: {standing:?}"
        );
    }
}

#[test]
fn two_processes_of_one_number() {
    let folder = folder_of("taken");
    let open = || MappedFile::open(folder.join("words"), WORKERS, JOBS).expect("a file");
    let (one, two) = (
        Crew::new(open(), WORKERS, JOBS),
        Crew::new(open(), WORKERS, JOBS),
    );
    let (one, two) = (one.expect("a crew"), two.expect("a crew"));
    let worker = one.worker(1).expect("nobody has this number");
    assert!(matches!(two.worker(1), Err(Fault::Taken(1))));
    assert!(!ended(&folder, 1, NEVER).success()); // nor can another process
    drop(worker);
    // another test's child may have the lock too, until it becomes its program
    assert!(two.worker_when_free(1).is_ok());
    fs::remove_dir_all(&folder).expect("the folder");
}

#[test]
fn two_workers_of_one_number_by_two_paths() {
    let folder = folder_of("paths");
    let crew_at = |name: &str| {
        let file = MappedFile::open(folder.join(name), WORKERS, JOBS).expect("a file");
        Crew::new(file, WORKERS, JOBS).expect("a crew")
    };
    let one = crew_at("words");
    symlink("words", folder.join("link")).expect("a link");
    let two = crew_at("link");
    let worker = one.worker(1).expect("nobody has this number");
    assert!(matches!(two.worker(1), Err(Fault::Taken(1))));
    // another name of the file has locks of its own, so both would perform each job
    fs::hard_link(folder.join("words"), folder.join("other")).expect("a name");
    refuses(&folder.join("other"), (WORKERS, JOBS), "it is missing");
    drop(worker);
    fs::remove_dir_all(&folder).expect("the folder");
}

/// Has this file refused for these numbers of workers and jobs, for this reason.
fn refuses(path: &Path, numbers: (u32, u32), why: &str) {
    let fault = MappedFile::open(path, numbers.0, numbers.1).expect_err(why);
    assert!(fault.to_string().contains(why), "{fault}: {why}");
}

/// Returns a new folder, whose name has this word.
fn folder_of(word: &str) -> PathBuf {
    let folder = env::temp_dir().join(format!("amo-{word}.{}", process::id()));
    fs::create_dir(&folder).expect("a folder");
    folder
}

#[test]
fn a_file_of_an_earlier_boot() {
    let folder = folder_of("boot");
    let path = folder.join("words");
    MappedFile::open(&path, 2, 3).expect("a file");
    MappedFile::open(&path, 2, 3).expect("the same file");
    for text in ["00000000-0000-0000-0000-000000000000\n2 3\n", ""] {
        fs::write(folder.join("words.boot"), text).expect("room");
        refuses(&path, (2, 3), "an earlier boot");
    }
    fs::remove_dir_all(&folder).expect("the folder");
}

#[test]
fn registers_without_their_note() {
    let folder = folder_of("note");
    let (path, note) = (folder.join("words"), folder.join("words.boot"));
    assert_eq!(all_performed(&path), [1, 2, 3]);
    fs::copy(&path, folder.join("copy")).expect("room");
    refuses(&folder.join("copy"), (1, 3), "it is missing");
    fs::rename(&note, folder.join("kept")).expect("a name");
    refuses(&path, (1, 3), "it is missing");
    symlink("nowhere", &note).expect("a link");
    refuses(&path, (1, 3), "it is missing");
    fs::remove_file(&note).expect("the link");
    symlink("words.boot", &note).expect("a link to itself");
    assert!(MappedFile::open(&path, 1, 3).is_err()); // it can't be looked at
    fs::remove_file(&note).expect("the link");
    fs::rename(folder.join("kept"), &note).expect("a name");
    assert!(all_performed(&path).is_empty());
    fs::remove_dir_all(&folder).expect("the folder");
}

#[test]
fn registers_that_are_gone_and_begin_anew() {
    let folder = folder_of("gone");
    let path = folder.join("words");
    assert_eq!(all_performed(&path), [1, 2, 3]);
    fs::remove_file(&path).expect("the file");
    for _ in 0..2 {
        refuses(&path, (1, 3), "they are gone"); // the first call leaves an empty file
    }
    // a mistake: without the note the jobs are performed twice
    fs::remove_file(folder.join("words.boot")).expect("the note");
    assert_eq!(all_performed(&path), [1, 2, 3]);
    fs::remove_dir_all(&folder).expect("the folder");
}

#[test]
fn registers_whose_maker_was_killed() {
    let folder = folder_of("making");
    let (path, note) = (folder.join("words"), folder.join("words.boot"));
    MappedFile::open(&path, 1, 3).expect("a file");
    let length = fs::metadata(&path).expect("the file").len();
    let whole = fs::read_to_string(&note).expect("the note");
    for size in [0, length] {
        fs::write(&note, format!("{whole}making\n")).expect("room");
        cut(&path, size);
        MappedFile::open(&path, 1, 3).expect("registers that nobody has used");
        assert_eq!(fs::read_to_string(&note).expect("the note"), whole);
        assert_eq!(fs::metadata(&path).expect("the file").len(), length);
    }
    let earlier = "00000000-0000-0000-0000-000000000000\n1 3\nmaking\n".to_owned();
    let other = whole.replace("\n1 3\n", "\n1 4\nmaking\n");
    for text in [whole.clone(), String::new(), earlier, other] {
        fs::write(&note, text).expect("room");
        cut(&path, 0);
        refuses(&path, (1, 3), "they are gone");
    }
    fs::write(&note, format!("{whole}making\n")).expect("room");
    cut(&path, 8);
    refuses(&path, (1, 3), "its second line isn't");
    fs::remove_dir_all(&folder).expect("the folder");
}

/// Empties a file, and gives it a length.
fn cut(path: &Path, length: u64) {
    let file = File::create(path).expect("the file");
    file.set_len(length).expect("a length");
}

/// Returns the jobs that one worker performs over the registers in this file.
fn all_performed(path: &Path) -> Vec<u32> {
    let file = MappedFile::open(path, 1, 3).expect("a file");
    let mut performed = Vec::new();
    let crew = Crew::new(file, 1, 3).expect("a crew");
    let mut worker = crew.worker(1).expect("nobody has this number");
    worker
        .run(|job| performed.push(job), |doubt| panic!("{doubt:?}"))
        .expect("no fault");
    performed
}

#[test]
fn a_file_of_another_run() {
    let folder = folder_of("other");
    let (path, note) = (folder.join("words"), folder.join("words.boot"));
    // beside word 0: 2 announcements, 2 claims and 2 rows of 10, or 3 of each and 3 rows of 6
    assert_eq!(amo::words(2, 9).unwrap(), amo::words(3, 5).unwrap());
    MappedFile::open(&path, 2, 9).expect("a file");
    for numbers in [(3, 5), (2, 8)] {
        refuses(&path, numbers, "its second line isn't");
    }
    let boot = fs::read_to_string(&note).expect("the note");
    fs::write(
        &note,
        boot.lines().next().expect("a line").to_owned() + "\n",
    )
    .expect("room");
    refuses(&path, (2, 9), "its second line isn't `2 9`");
    fs::write(&note, boot).expect("room");
    let file = OpenOptions::new().write(true).open(&path).expect("a file");
    file.set_len(8).expect("a length");
    refuses(&path, (2, 9), "it has 8 bytes");
    fs::remove_dir_all(&folder).expect("the folder");
}

#[test]
fn a_crew_of_other_numbers_than_its_registers() {
    let folder = folder_of("numbers");
    for numbers in [(1, 9), (2, 8), (3, 5)] {
        let file = MappedFile::open(folder.join("words"), 2, 9).expect("a file");
        assert!(matches!(
            Crew::new(file, numbers.0, numbers.1),
            Err(Fault::OtherNumbers(2, 9))
        ));
    }
    let file = MappedFile::open(folder.join("words"), 2, 9).expect("a file");
    Crew::new(file, 2, 9).expect("these numbers");
    fs::remove_dir_all(&folder).expect("the folder");
}

#[test]
fn registers_that_find_no_room_later() {
    let folder = folder_of("room");
    MappedFile::open(folder.join("words"), 16, 4096).expect("a file");
    let found = fs::metadata(folder.join("words")).expect("the file");
    assert!(found.blocks() * 512 >= found.len(), "{}", found.blocks());
    fs::remove_dir_all(&folder).expect("the folder");
}

#[test]
fn a_link_that_leads_elsewhere_while_it_is_opened() {
    let folder = folder_of("link");
    for (name, mark) in [("one", 1), ("two", 2)] {
        let file = MappedFile::open(folder.join(name), 1, 3).expect("a file");
        file.store(1, mark).expect("a register");
    }
    let (link, next, ends) = (
        folder.join("link"),
        folder.join("next"),
        AtomicBool::new(false),
    );
    symlink("one", &link).expect("a link");
    thread::scope(|scope| {
        scope.spawn(|| {
            for name in ["two", "one"].iter().cycle() {
                symlink(name, &next).expect("a link");
                fs::rename(&next, &link).expect("a name");
                if ends.load(SeqCst) {
                    break;
                }
            }
        });
        for _ in 0..10_000 {
            let file = MappedFile::open(&link, 1, 3).expect("one of the two");
            // the path, of which its locks have their names
            let name = if format!("{file:?}").contains("/one\"") {
                1
            } else {
                2
            };
            if file.load(1).expect("a register") != name {
                ends.store(true, SeqCst);
                panic!("registers of one file, and the locks of the other");
            }
        }
        ends.store(true, SeqCst);
    });
    fs::remove_dir_all(&folder).expect("the folder");
}

extern "C" {
    fn fork() -> i32;
    fn waitpid(process: i32, status: *mut i32, options: i32) -> i32;
    fn _exit(status: i32) -> !;
}

/// Returns how many of these calls a child process refuses as another one's worker.
fn refused_in_a_child(worker: &mut amo::Worker<'_, MappedFile>) -> i32 {
    let mut refused = 0;
    if let Step::Perform(job) = worker.step().expect("no fault") {
        // SAFETY: the child makes calls of this crate alone, and ends.
        let child = unsafe { fork() };
        if child == 0 {
            refused += i32::from(matches!(job.done(), Err(Fault::OtherProcess(1))));
            refused += i32::from(matches!(worker.step(), Err(Fault::OtherProcess(1))));
            unsafe { _exit(refused) }
        }
        // SAFETY: the status is this function's own.
        unsafe { waitpid(child, &mut refused, 0) };
        job.done().expect("no fault");
    }
    refused >> 8
}

#[test]
fn a_child_process_that_goes_on() {
    let folder = folder_of("child");
    let file = MappedFile::open(folder.join("words"), 1, 3).expect("a file");
    let crew = Crew::new(file, 1, 3).expect("a crew");
    let mut worker = crew.worker(1).expect("nobody has this number");
    assert_eq!(refused_in_a_child(&mut worker), 2);
    let mut performed = Vec::new();
    worker
        .run(|job| performed.push(job), |doubt| panic!("{doubt:?}"))
        .expect("no fault");
    assert_eq!(performed, [2, 3]);
    fs::remove_dir_all(&folder).expect("the folder");
}
