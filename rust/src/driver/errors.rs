//! Why there is no driver, or it doesn't go on.

use crate::errors::{Gone, NoThread, OutOfMemory, VoteError};
use crate::positions::View;
use crate::validator::{PollError, StartError};
use std::error::Error;
use std::fmt;
use std::io;

/// Why a driver doesn't go on. But for `OutOfMemory` it has ended then, and the validator is to be
/// started again by its disk.
#[non_exhaustive]
#[derive(Clone, Copy, Debug, PartialEq, Eq, Hash)]
pub enum DriveError<E> {
    /// Memory was refused. The same call may succeed later, and nothing is lost.
    OutOfMemory,
    /// The store failed, so nobody knows what is written.
    Store(E),
    /// The store, the signer or the verifier has panicked.
    Gone,
    /// The verifier gave another number of verdicts than there were signatures.
    Verdicts {
        /// How many there were.
        wanted: usize,
        /// How many verdicts there were.
        given: usize,
    },
    /// The leader that was named for a view takes no part.
    Leader(View),
    /// The validator says so.
    Validator(PollError),
    /// It ended before.
    Ended,
}

impl<E: fmt::Display> fmt::Display for DriveError<E> {
    fn fmt(&self, f: &mut fmt::Formatter<'_>) -> fmt::Result {
        match self {
            DriveError::OutOfMemory => return f.write_str("out of memory"),
            DriveError::Store(error) => write!(f, "the store failed: {error}")?,
            DriveError::Gone => f.write_str("the store, the signer or the verifier panicked")?,
            DriveError::Verdicts { wanted, given } => {
                write!(
                    f,
                    "the verifier gave {given} verdicts on {wanted} signatures"
                )?;
            }
            DriveError::Leader(view) => write!(f, "the leader of view {view} takes no part")?,
            DriveError::Validator(error) => error.fmt(f)?,
            DriveError::Ended => f.write_str("the driver has ended")?,
        }
        f.write_str(": start the validator again by its disk")
    }
}

impl<E: Error + 'static> Error for DriveError<E> {
    fn source(&self) -> Option<&(dyn Error + 'static)> {
        match self {
            DriveError::Store(error) => Some(error),
            DriveError::Validator(error) => Some(error),
            _ => None,
        }
    }
}

impl<E> From<OutOfMemory> for DriveError<E> {
    fn from(_: OutOfMemory) -> Self {
        DriveError::OutOfMemory
    }
}

impl<E> From<Gone> for DriveError<E> {
    fn from(_: Gone) -> Self {
        DriveError::Gone
    }
}

impl<E> From<PollError> for DriveError<E> {
    fn from(error: PollError) -> Self {
        match error {
            PollError::OutOfMemory => DriveError::OutOfMemory,
            PollError::NoLeader(view, _) => DriveError::Leader(view),
            other => DriveError::Validator(other),
        }
    }
}

impl<E> From<VoteError> for DriveError<E> {
    fn from(error: VoteError) -> Self {
        PollError::from(error).into()
    }
}

/// Why there is no driver with threads.
#[non_exhaustive]
#[derive(Debug)]
pub enum OpenError {
    /// The files aren't opened.
    Io(io::Error),
    /// No validator is made of what they have.
    Start(StartError),
    /// The system gives no thread.
    NoThread,
}

impl fmt::Display for OpenError {
    fn fmt(&self, f: &mut fmt::Formatter<'_>) -> fmt::Result {
        match self {
            OpenError::Io(error) => error.fmt(f),
            OpenError::Start(error) => error.fmt(f),
            OpenError::NoThread => NoThread.fmt(f),
        }
    }
}

impl Error for OpenError {
    fn source(&self) -> Option<&(dyn Error + 'static)> {
        match self {
            OpenError::Io(error) => Some(error),
            OpenError::Start(error) => Some(error),
            OpenError::NoThread => None,
        }
    }
}

impl From<io::Error> for OpenError {
    fn from(error: io::Error) -> Self {
        OpenError::Io(error)
    }
}

impl From<StartError> for OpenError {
    fn from(error: StartError) -> Self {
        OpenError::Start(error)
    }
}

impl From<NoThread> for OpenError {
    fn from(_: NoThread) -> Self {
        OpenError::NoThread
    }
}
