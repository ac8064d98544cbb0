//! Why calls are refused. Each call has an error that says no more than it can answer, and each of
//! these is an [`Error`] too, for who makes many calls in one function.

use crate::answers::OwnFault;
use std::fmt;

/// Why a call was refused. The round or validator is as it was, but where it is `Gone`.
#[non_exhaustive]
#[derive(Clone, Copy, Debug, PartialEq, Eq, Hash)]
pub enum Error {
    /// The scheme has no participant.
    NoParticipants,
    /// It is of another round, or was handed out by another. Nobody is to be blocked for that: a
    /// peer may be a view ahead.
    Elsewhere,
    /// Memory was refused. The same call may succeed later.
    OutOfMemory,
    /// Another leader of the round was named before.
    LeaderChanged,
    /// No participant has this index.
    UnknownParticipant,
    /// The own vote doesn't attest, as the scheme says.
    NotVerified,
    /// The certificate doesn't certify what it names, as the scheme says. Who sent it is to be
    /// blocked.
    Forged,
    /// The own vote is refused beside an earlier one.
    Own(OwnFault),
    /// The bytes of a signature are more than 96, or the scheme doesn't make the same signature of
    /// them again.
    SignatureBytes,
    /// What the scheme assembled of a quorum doesn't certify, as it says itself. It isn't handed out,
    /// since peers would block this node for it.
    BadAssembly,
    /// The thread on which the value lives has ended, or a job of it has panicked, which took the
    /// value with it. Where that was a round, what it knew of own votes is gone too: see
    /// [`Round::accept_vote`](crate::Round::accept_vote). A validator is started again by its disk.
    Gone,
    /// The system gives no thread.
    NoThread,
}

impl fmt::Display for Error {
    fn fmt(&self, f: &mut fmt::Formatter<'_>) -> fmt::Result {
        match self {
            Error::NoParticipants => f.write_str("no participants"),
            Error::Elsewhere => f.write_str("of another round"),
            Error::OutOfMemory => f.write_str("out of memory"),
            Error::LeaderChanged => f.write_str("leader changed within round"),
            Error::UnknownParticipant => f.write_str("no participant has this index"),
            Error::NotVerified => f.write_str("own vote doesn't attest"),
            Error::Forged => f.write_str("certificate doesn't certify"),
            Error::Own(fault) => fault.fmt(f),
            Error::SignatureBytes => f.write_str("signature isn't its bytes"),
            Error::BadAssembly => f.write_str("assembled certificate doesn't certify"),
            Error::Gone => f.write_str("what lived on the thread is gone"),
            Error::NoThread => f.write_str("the system gives no thread"),
        }
    }
}

impl std::error::Error for Error {
    fn source(&self) -> Option<&(dyn std::error::Error + 'static)> {
        match self {
            Error::Own(fault) => Some(fault),
            _ => None,
        }
    }
}

impl From<OwnFault> for Error {
    fn from(fault: OwnFault) -> Self {
        Error::Own(fault)
    }
}

/// The library answered a code that the call doesn't have. Crate and library have one version, since
/// they refer to a symbol that has its number, so that can't be.
#[cold]
pub(crate) fn unknown(answer: u8) -> ! {
    panic!("the library answered {answer}, which the call doesn't have")
}

/// Memory was refused. The same call may succeed later.
#[derive(Clone, Copy, Debug, PartialEq, Eq, Hash)]
pub struct OutOfMemory;

impl fmt::Display for OutOfMemory {
    fn fmt(&self, f: &mut fmt::Formatter<'_>) -> fmt::Result {
        Error::OutOfMemory.fmt(f)
    }
}

impl std::error::Error for OutOfMemory {}

impl From<OutOfMemory> for Error {
    fn from(_: OutOfMemory) -> Self {
        Error::OutOfMemory
    }
}

/// What lived on the thread is gone: a job of it has panicked, which took the value with it, or the
/// thread has ended. Where that was a round, what it knew of own votes is gone too: see
/// [`Round::accept_vote`](crate::Round::accept_vote). A validator is started again by its disk.
#[derive(Clone, Copy, Debug, PartialEq, Eq, Hash)]
pub struct Gone;

impl fmt::Display for Gone {
    fn fmt(&self, f: &mut fmt::Formatter<'_>) -> fmt::Result {
        Error::Gone.fmt(f)
    }
}

impl std::error::Error for Gone {}

impl From<Gone> for Error {
    fn from(_: Gone) -> Self {
        Error::Gone
    }
}

/// The system gives no thread.
#[derive(Clone, Copy, Debug, PartialEq, Eq, Hash)]
pub struct NoThread;

impl fmt::Display for NoThread {
    fn fmt(&self, f: &mut fmt::Formatter<'_>) -> fmt::Result {
        Error::NoThread.fmt(f)
    }
}

impl std::error::Error for NoThread {}

impl From<NoThread> for Error {
    fn from(_: NoThread) -> Self {
        Error::NoThread
    }
}

/// An error of some of the reasons of [`Error`].
macro_rules! some_of {
    ($(#[$doc:meta])* $name:ident: $($(#[$what:meta])* $reason:ident),+) => {
        $(#[$doc])*
        #[non_exhaustive]
        #[derive(Clone, Copy, Debug, PartialEq, Eq, Hash)]
        pub enum $name {
            $($(#[$what])* $reason),+
        }

        impl fmt::Display for $name {
            fn fmt(&self, f: &mut fmt::Formatter<'_>) -> fmt::Result {
                Error::from(*self).fmt(f)
            }
        }

        impl std::error::Error for $name {}

        impl From<$name> for Error {
            fn from(error: $name) -> Self {
                match error {
                    $($name::$reason => Error::$reason),+
                }
            }
        }
    };
}

some_of! {
    /// Why there is no round.
    NewError:
    /// The scheme has no participant.
    NoParticipants,
    /// Memory was refused. The same call may succeed later.
    OutOfMemory
}

some_of! {
    /// Why a validator doesn't take in a vote or verdicts.
    VoteError:
    /// Memory was refused. The same call may succeed later.
    OutOfMemory,
    /// The bytes of a signature are more than 96, or the scheme doesn't make the same signature of
    /// them again.
    SignatureBytes
}

some_of! {
    /// Why a validator doesn't take in a signature of its own. But for memory, nothing is written,
    /// and the same is given to be signed again once a time is over.
    SignError:
    /// Memory was refused. The same call may succeed later.
    OutOfMemory,
    /// It doesn't attest, as the verifier says.
    NotVerified,
    /// The bytes of the signature are more than 96, or the scheme doesn't make the same signature of
    /// them again.
    SignatureBytes
}

some_of! {
    /// Why a round doesn't take in a vote of a peer, or verdicts.
    RoundError:
    /// It is of another round, or was handed out by another. Nobody is to be blocked for that: a
    /// peer may be a view ahead.
    Elsewhere,
    /// Memory was refused. The same call may succeed later.
    OutOfMemory,
    /// The bytes of a signature are more than 96, or the scheme doesn't make the same signature of
    /// them again.
    SignatureBytes
}

some_of! {
    /// Why a round doesn't take in a certificate.
    CertificateError:
    /// It is of another round. Nobody is to be blocked for that: a peer may be a view ahead.
    Elsewhere,
    /// It doesn't certify what it names, as the scheme says. Who sent it is to be blocked.
    Forged,
    /// Memory was refused. The same call may succeed later.
    OutOfMemory
}

some_of! {
    /// Why a round names no leader.
    LeaderError:
    /// No participant has this index.
    UnknownParticipant,
    /// Another leader of the round was named before.
    LeaderChanged
}

some_of! {
    /// Why a round makes no construction.
    ConstructError:
    /// Memory was refused. The same call may succeed later.
    OutOfMemory,
    /// The scheme doesn't make the same signature of its bytes again.
    SignatureBytes,
    /// What the scheme assembled of a quorum doesn't certify, as it says itself. It isn't handed
    /// out, since peers would block this node for it.
    BadAssembly
}

some_of! {
    /// Why nothing is said of a report.
    ConvictError:
    /// The scheme has no participant.
    NoParticipants,
    /// The bytes of a signature are more than 96.
    SignatureBytes
}

/// Why a round doesn't take in a vote of the node's own.
#[non_exhaustive]
#[derive(Clone, Copy, Debug, PartialEq, Eq, Hash)]
pub enum OwnError {
    /// It is of another round.
    Elsewhere,
    /// It doesn't attest, as the scheme says, or its signer takes no part.
    NotVerified,
    /// It is refused beside an earlier one.
    Own(OwnFault),
    /// Memory was refused. Hand in no other own vote until this one is answered otherwise.
    OutOfMemory,
    /// The bytes of a signature are more than 96, or the scheme doesn't make the same signature of
    /// them again.
    SignatureBytes,
}

impl fmt::Display for OwnError {
    fn fmt(&self, f: &mut fmt::Formatter<'_>) -> fmt::Result {
        Error::from(*self).fmt(f)
    }
}

impl std::error::Error for OwnError {
    fn source(&self) -> Option<&(dyn std::error::Error + 'static)> {
        match self {
            OwnError::Own(fault) => Some(fault),
            _ => None,
        }
    }
}

impl From<OwnError> for Error {
    fn from(error: OwnError) -> Self {
        match error {
            OwnError::Elsewhere => Error::Elsewhere,
            OwnError::NotVerified => Error::NotVerified,
            OwnError::Own(fault) => Error::Own(fault),
            OwnError::OutOfMemory => Error::OutOfMemory,
            OwnError::SignatureBytes => Error::SignatureBytes,
        }
    }
}

/// An error that memory may be refused, and that a signature may not be its bytes.
macro_rules! is_met_in {
    ($($name:ident),+) => {
        $(impl From<VoteError> for $name {
            fn from(error: VoteError) -> Self {
                match error {
                    VoteError::OutOfMemory => $name::OutOfMemory,
                    VoteError::SignatureBytes => $name::SignatureBytes,
                }
            }
        })+
    };
}

is_met_in!(SignError, RoundError, OwnError, ConstructError);

/// An error that memory may be refused.
macro_rules! takes_memory {
    ($($name:ident),+) => {
        $(impl From<OutOfMemory> for $name {
            fn from(_: OutOfMemory) -> Self {
                $name::OutOfMemory
            }
        })+
    };
}

takes_memory!(VoteError, SignError, RoundError, ConstructError);
