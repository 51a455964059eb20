//! Registers in a file, for processes.

use crate::crew::words;
use crate::fault::Fault;
use crate::registers::{self, Lock, Registers};
use std::ffi::OsString;
use std::fs::{self, File, OpenOptions};
use std::io::{self, Write};
use std::os::unix::fs::{MetadataExt, OpenOptionsExt};
use std::path::{Path, PathBuf};

/// The file with the id of this boot.
const BOOT: &str = "/proc/sys/kernel/random/boot_id";
/// The last line of the note until the file has registers.
const MAKING: &str = "making\n";

/// Registers in a file that processes map into their memory.
///
/// Choose a file on a local disk, in a folder that nobody cleans. For each worker there is a lock
/// on the file `PATH.NUMBER`, which the kernel drops once the worker's process is gone. `PATH.boot`
/// has the boot of the machine, and the numbers of workers and jobs. **Keep these files together**:
/// if all are gone, every job is handed out again. Remove all of them once no worker lives and no
/// job is to come. Programs in C and in Python may share the file.
///
/// Once the machine was started anew, the file may lack stores, so it is refused. It is refused too
/// if it is missing or empty and `PATH.boot` is there. Registers without `PATH.boot`, such as a
/// copy or a hard link, are refused. If a process is killed while it makes the file, the next one
/// goes on: no worker has begun before the file is made. A file in /dev/shm or /tmp is lost with
/// `PATH.boot`, so new registers are made there, and every job is handed out again.
///
/// # Examples
///
/// ```
/// # fn main() -> Result<(), amo::Fault> {
/// # let folder = std::env::temp_dir().join(format!("amo-file.{}", std::process::id()));
/// # std::fs::create_dir(&folder)?;
/// let path = folder.join("words");
/// let crew = amo::Crew::new(amo::MappedFile::open(&path, 2, 10)?, 2, 10)?;
/// crew.worker(1)?.run(|job| println!("pay {job}"), |_| ())?;
/// # std::fs::remove_dir_all(folder)?;
/// # Ok(())
/// # }
/// ```
#[derive(Debug)]
pub struct MappedFile {
    path: PathBuf,
    map: amo_sys::Map,
    workers: u32,
    jobs: u32,
}

impl MappedFile {
    /// Opens the file of a run with so many workers and jobs, and makes it if it is missing.
    ///
    /// # Errors
    ///
    /// If a number breaks its limit, or the file can't be opened. If it belongs to a run with other
    /// numbers or to an earlier boot of the machine. If its registers or `PATH.boot` are gone.
    ///
    /// # Examples
    ///
    /// ```
    /// assert!(amo::MappedFile::open("/no/such/folder/words", 2, 10).is_err());
    /// ```
    pub fn open(path: impl AsRef<Path>, workers: u32, jobs: u32) -> Result<MappedFile, Fault> {
        let count = words(workers, jobs)?;
        let _made = opened(path.as_ref())?; // a missing file, also at the end of a link
        let path = fs::canonicalize(path)?; // so that a link leads to the same locks
        let note = Note::of(&path, workers, jobs)?;
        let file = opened(&path)?; // by this path, since the link may lead elsewhere by now
        let gate = opened(&path)?; // of its own, since a mapping keeps its file locked
        amo_sys::lock(&gate, true)?; // another process may make the file too
        make_or_check(&file, &path, &note, 8 * count as u64)?;
        let map = amo_sys::Map::new(&file, count)?;
        Ok(MappedFile {
            path,
            map,
            workers,
            jobs,
        })
    }
}

fn opened(path: &Path) -> io::Result<File> {
    OpenOptions::new()
        .read(true)
        .write(true)
        .create(true)
        .truncate(false)
        .mode(0o600)
        .open(path)
}

/// Returns the path of a file beside the registers.
fn beside(path: &Path, ending: &str) -> PathBuf {
    let mut found = OsString::from(path);
    found.push(".");
    found.push(ending);
    found.into()
}

/// Makes the registers of an empty file, or checks those of another one. Goes on with those of a
/// process that was killed while it made them: no worker has begun before the note is whole.
fn make_or_check(file: &File, path: &Path, note: &Note, length: u64) -> io::Result<()> {
    if file.metadata()?.len() == 0 {
        amo_sys::take_room(file, length)?; // since a store without room ends the process
        note.make()?;
    }
    if [0, length].contains(&file.metadata()?.len()) && note.is_making() {
        file.set_len(length)?;
        note.finish()?;
        let (named, opened) = (fs::metadata(path)?, file.metadata()?);
        if (named.dev(), named.ino()) != (opened.dev(), opened.ino()) {
            let why = "it was removed while it was made; never do that, and use another path";
            return Err(refusal(path, why));
        }
    }
    note.check()?;
    let found = file.metadata()?.len();
    if found == length {
        return Ok(());
    }
    let why = format!(
        "it has {found} bytes, and its registers have {length}; perform no job of them again, and \
         use another path for other jobs"
    );
    Err(refusal(path, &why))
}

fn refusal(path: &Path, why: &str) -> io::Error {
    let text = format!("`{}`: {why}", path.display());
    io::Error::new(io::ErrorKind::InvalidData, text)
}

/// The file that shows that registers were made: in which boot, and for how many workers and jobs.
struct Note {
    path: PathBuf,
    boot: Vec<u8>,
    numbers: String,
}

impl Note {
    /// Returns the note that belongs beside these registers.
    fn of(path: &Path, workers: u32, jobs: u32) -> io::Result<Note> {
        Ok(Note {
            path: beside(path, "boot"),
            boot: fs::read(BOOT)?,
            numbers: format!("{workers} {jobs}\n"),
        })
    }

    /// Makes the file, and has it on the disk when this returns. After a kill it is there, with the
    /// same last line. If it has another text, registers were made, and are gone.
    fn make(&self) -> io::Result<()> {
        let made = OpenOptions::new()
            .write(true)
            .create_new(true)
            .open(&self.path);
        let mut file = match made {
            Err(error) if error.kind() == io::ErrorKind::AlreadyExists => {
                if !self.is_making() {
                    return Err(self.refusal(
                        "it shows that registers were made, and they are gone; perform no job of \
                         them again, and use another path for other jobs",
                    ));
                }
                self.opened()?
            }
            made => made?,
        };
        file.write_all(&self.making())?;
        file.sync_all()?;
        // since otherwise a crash of the machine can lose the name of the file
        let folder = self.path.parent().filter(|it| !it.as_os_str().is_empty());
        File::open(folder.unwrap_or_else(|| Path::new(".")))?.sync_all()
    }

    /// Returns the text of the file until the registers are made.
    fn making(&self) -> Vec<u8> {
        [&self.boot[..], self.numbers.as_bytes(), MAKING.as_bytes()].concat()
    }

    /// Returns true if registers for this note are being made, or a process was killed at that.
    fn is_making(&self) -> bool {
        matches!(fs::read(&self.path), Ok(found) if found == self.making())
    }

    /// Takes the last line from the file, since the registers are made.
    fn finish(&self) -> io::Result<()> {
        let length = self.boot.len() + self.numbers.len();
        self.opened()?.set_len(length as u64)
    }

    fn opened(&self) -> io::Result<File> {
        OpenOptions::new().write(true).open(&self.path)
    }

    /// Refuses registers whose note is missing, or is that of another boot or of other numbers.
    fn check(&self) -> io::Result<()> {
        let found = fs::read(&self.path).map_err(|error| match error.kind() {
            io::ErrorKind::NotFound => self.refusal(
                "it is missing, so the registers may be a copy, or have another name; give the \
                 path by which they were made, or another path for other jobs",
            ),
            _ => error,
        })?;
        match found.strip_prefix(&self.boot[..]) {
            Some(numbers) if numbers == self.numbers.as_bytes() => Ok(()),
            Some(_) => Err(self.refusal(&format!(
                "its second line isn't `{}`, the workers and jobs that are given; give those of \
                 the run that made it. Use another path only for other jobs: there each job is \
                 handed out again",
                self.numbers.trim_end()
            ))),
            None => Err(self.refusal(
                "the registers are of an earlier boot of the machine, so stores may be lost; \
                 perform no job of them again, and use another path for other jobs",
            )),
        }
    }

    fn refusal(&self, why: &str) -> io::Error {
        refusal(&self.path, why)
    }
}

impl Registers for MappedFile {
    fn load(&self, place: usize) -> io::Result<u64> {
        registers::load(&self.map, place)
    }

    fn store(&self, place: usize, value: u64) -> io::Result<()> {
        registers::store(&self.map, place, value)
    }

    fn numbers(&self) -> Option<(u32, u32)> {
        Some((self.workers, self.jobs))
    }

    fn lock(&self, number: u32, waits: bool) -> io::Result<Option<Lock>> {
        let file = opened(&beside(&self.path, &number.to_string()))?;
        Ok(if amo_sys::lock(&file, waits)? {
            Some(Lock::of(file))
        } else {
            None
        })
    }
}
