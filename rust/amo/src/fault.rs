//! Why a call fails.

use std::error::Error;
use std::fmt;
use std::io;

/// Why a call fails.
///
/// # Examples
///
/// ```
/// let fault = amo::words(0, 10).unwrap_err();
/// assert_eq!(fault.to_string(), "workers: a run has one at least; give 1 to 16");
/// ```
#[derive(Debug)]
#[non_exhaustive]
pub enum Fault {
    /// There are more than 4096 jobs.
    TooManyJobs,
    /// There are 0 workers.
    NoWorkers,
    /// There are more than 16 workers.
    TooManyWorkers,
    /// The threshold is below the number of workers.
    BetaLow,
    /// The threshold is above 65535.
    BetaHigh,
    /// No worker of the run has this number.
    NoSuchWorker,
    /// Another thread or process acts as this worker.
    Taken(u32),
    /// The registers were made for so many workers and jobs, and others were given.
    OtherNumbers(u32, u32),
    /// The worker of this number belongs to another process, of which this one is a child.
    OtherProcess(u32),
    /// The registers hold a value that no worker stores, so a job might be performed twice. **Stop
    /// all workers**, and find out what else writes to the registers.
    Damaged,
    /// Memory was refused. The call may be made again.
    NoMemory,
    /// A load, a store or a lock has failed. The worker begins again at its next step.
    Registers(io::Error),
}

impl Fault {
    /// Returns the fault of a code of libamo.
    pub(crate) fn of(code: u32) -> Fault {
        match code {
            1 => Fault::TooManyJobs,
            2 => Fault::NoWorkers,
            3 => Fault::TooManyWorkers,
            4 => Fault::BetaLow,
            5 => Fault::BetaHigh,
            6 => Fault::NoSuchWorker,
            amo_sys::NO_MEMORY => Fault::NoMemory,
            _ => Fault::Damaged,
        }
    }
}

impl From<io::Error> for Fault {
    fn from(error: io::Error) -> Fault {
        Fault::Registers(error)
    }
}

impl fmt::Display for Fault {
    fn fmt(&self, out: &mut fmt::Formatter<'_>) -> fmt::Result {
        let text = match self {
            Fault::TooManyJobs => "jobs: a run has at most 4096; make several runs",
            Fault::NoWorkers => "workers: a run has one at least; give 1 to 16",
            Fault::TooManyWorkers => "workers: a run has at most 16; give 1 to 16",
            Fault::BetaLow => "beta: it is below the number of workers; give that or more",
            Fault::BetaHigh => "beta: it is above 65535; give less",
            Fault::NoSuchWorker => "number: no worker has it; give 1 to the number of workers",
            Fault::Damaged => {
                "registers: they hold a value that no worker stores; stop all workers, and find \
                 out what else writes to them"
            }
            Fault::NoMemory => "libamo: memory was refused; free some, and call again",
            Fault::Taken(number) => {
                return write!(
                    out,
                    "worker {number}: another thread or process has this number; wait until that \
                     has ended, or give another number"
                )
            }
            Fault::OtherNumbers(workers, jobs) => {
                return write!(
                    out,
                    "registers: they were made for {workers} workers and {jobs} jobs; give these \
                     numbers, or other registers for other jobs"
                )
            }
            Fault::OtherProcess(number) => {
                return write!(
                    out,
                    "worker {number}: it belongs to the process that began it; begin a worker in \
                     the process that uses it"
                )
            }
            Fault::Registers(error) => return write!(out, "registers: {error}"),
        };
        out.write_str(text)
    }
}

impl Error for Fault {
    fn source(&self) -> Option<&(dyn Error + 'static)> {
        match self {
            Fault::Registers(error) => Some(error),
            _ => None,
        }
    }
}
