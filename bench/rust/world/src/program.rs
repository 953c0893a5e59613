//! The frame of a program: its words, its streams, its status, and the line that tells a fault.

use std::collections::TryReserveError;
use std::env;
use std::fmt::{self, Display, Formatter};
use std::io::{self, BufRead, ErrorKind, Write};
use std::process::ExitCode;

/// Why a run does not end well.
pub enum Fault {
    /// The words are not those of the command.
    Usage,
    /// A read of standard input failed.
    Read,
    /// Memory was refused, other than the small buffers of `std`, for which it ends the process.
    Memory,
    /// This line of the input is the first that is none of a schedule.
    BadLine(u64),
    /// A write to standard output failed.
    Write,
}

impl Fault {
    /// Why a read failed.
    pub fn of_read(error: io::Error) -> Self {
        match error.kind() {
            ErrorKind::OutOfMemory => Fault::Memory,
            _ => Fault::Read,
        }
    }

    /// Why a write failed.
    pub fn of_write(_error: io::Error) -> Self {
        Fault::Write
    }

    fn status(&self) -> u8 {
        match self {
            Fault::Usage | Fault::BadLine(_) => 2,
            Fault::Read | Fault::Memory | Fault::Write => 1,
        }
    }
}

impl From<TryReserveError> for Fault {
    fn from(_error: TryReserveError) -> Self {
        Fault::Memory
    }
}

impl Display for Fault {
    fn fmt(&self, f: &mut Formatter<'_>) -> fmt::Result {
        match self {
            Fault::Usage => f.write_str("usage: listed world | single world"),
            Fault::Read => f.write_str("read failed"),
            Fault::Memory => f.write_str("out of memory"),
            Fault::BadLine(line) => write!(f, "bad line {line}"),
            Fault::Write => f.write_str("write failed"),
        }
    }
}

/// Runs a program that plays the schedule on standard input, if its word asks for that.
///
/// A stream that is closed from the start is to `std` an empty one, or one that takes everything.
pub fn run<P>(play: P) -> ExitCode
where
    P: FnOnce(&mut dyn BufRead, &mut dyn Write) -> Result<(), Fault>,
{
    let done = if env::args_os().skip(1).eq(["world"]) {
        play(&mut io::stdin().lock(), &mut io::stdout().lock())
    } else {
        Err(Fault::Usage)
    };
    match done {
        Ok(()) => ExitCode::SUCCESS,
        Err(fault) => {
            // A line that cannot be written changes no status.
            let _ = writeln!(io::stderr(), "{fault}");
            ExitCode::from(fault.status())
        }
    }
}
