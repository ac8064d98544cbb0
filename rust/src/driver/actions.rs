//! What a driver gives to be done, and what it answers.

#[cfg(doc)]
use super::Driver;
use super::Message;
use crate::messages::{Activity, Proposal, Sha256Digest, Subject};
use crate::positions::{Participant, View};
use crate::validator::{Cause, Life};
use std::fmt;

/// What an application is to do. Each is given once. With a later version that has another one a
/// program doesn't compile until it does that too.
#[must_use = "it isn't given again"]
#[derive(Debug)]
pub enum Action<G, E> {
    /// Nothing, until something comes: a message, an answer, or the end of a timer.
    Wait,
    /// Send this to all others. Whom it doesn't reach gets it after [`Driver::expire`].
    Send(Message<G>),
    /// This view is entered: start its timer, as by [`Driver::patience`]. Once it is over call
    /// [`Driver::expire`], and start it again. Where its leader is blocked, or absent, the view is
    /// given up already.
    Enter {
        /// The view.
        view: View,
        /// Who leads it.
        leader: Participant,
    },
    /// Make a payload, make it last, send it to all others, and call [`Driver::propose`]. What
    /// isn't ready may be proposed later.
    Propose(Propose),
    /// Find out whether this proposal is valid, and call [`Driver::judge`]. A payload that isn't
    /// here is waited for, and lasts before the proposal is called valid: it may be final then, and
    /// nobody else may have it.
    Judge(Judge),
    /// Send these the payload of this proposal, which may lack it.
    Forward(Proposal, Vec<Participant>),
    /// This proposal is final, and so are all that it builds on. After a start the last one comes
    /// again.
    Final(Proposal),
    /// Drop what this participant sends, and close its connection.
    Block(Participant, Cause),
    /// There is no signature for this, so no vote of it is sent. Nothing is to be done for the
    /// validator: it goes on without, and asks again after [`Driver::expire`].
    Unsigned(Subject, Unsigned<E>),
}

/// That a payload is wanted.
#[must_use = "its view is lost without a payload"]
#[derive(Debug)]
pub struct Propose {
    pub(super) view: View,
    pub(super) parent: View,
    pub(super) before: Option<Sha256Digest>,
    pub(super) life: Life,
}

impl Propose {
    /// The view that it is for.
    pub fn view(&self) -> View {
        self.view
    }

    /// The view of the proposal that it builds on.
    pub fn parent(&self) -> View {
        self.parent
    }

    /// The payload of that. None where it builds on the start, which view 0 is.
    pub fn before(&self) -> Option<Sha256Digest> {
        self.before
    }
}

/// That somebody is to find out whether a proposal is valid.
#[must_use = "its view is lost where nobody judges"]
#[derive(Debug)]
pub struct Judge {
    pub(super) proposal: Proposal,
    pub(super) before: Option<Sha256Digest>,
    pub(super) life: Life,
}

impl Judge {
    /// The proposal.
    pub fn proposal(&self) -> &Proposal {
        &self.proposal
    }

    /// The payload of what it builds on. None where that is the start, which view 0 is.
    pub fn before(&self) -> Option<Sha256Digest> {
        self.before
    }
}

/// What became of a payload or a judgement.
#[non_exhaustive]
#[derive(Clone, Copy, Debug, PartialEq, Eq, Hash)]
pub enum Reply {
    /// The validator has it, and votes by it where its rules allow that.
    Taken,
    /// A later view is final, or this one, so it came too late.
    Over,
    /// Another driver wanted it, as one of before a start. Nothing is done.
    OtherLife,
}

/// Why there is no signature.
#[non_exhaustive]
#[derive(Clone, Copy, Debug, PartialEq, Eq, Hash)]
pub enum Unsigned<E> {
    /// The signer says so.
    Refused(E),
    /// What it made doesn't attest, as the verifier says. All others would block for it.
    NotVerified,
    /// It has more than 96 bytes.
    SignatureBytes,
    /// The signer hasn't answered for long: sixteen others wait for it.
    Busy,
}

impl<E: fmt::Display> fmt::Display for Unsigned<E> {
    fn fmt(&self, f: &mut fmt::Formatter<'_>) -> fmt::Result {
        match self {
            Unsigned::Refused(error) => write!(f, "the signer refuses: {error}"),
            Unsigned::NotVerified => f.write_str("the signature doesn't attest"),
            Unsigned::SignatureBytes => f.write_str("the signature has too many bytes"),
            Unsigned::Busy => f.write_str("the signer doesn't answer"),
        }
    }
}

/// What became of a peer's message.
#[must_use = "it says what became of the message"]
#[non_exhaustive]
#[derive(Clone, Copy, Debug, PartialEq, Eq, Hash)]
pub enum Heard<G> {
    /// It was taken in.
    Taken,
    /// It says nothing new.
    Known,
    /// It waits for the verifier's thread. Where it doesn't certify, its sender is given to be
    /// blocked.
    Verifying,
    /// Its sender is given to be blocked for it. Two votes that contradict each other are evidence,
    /// of which [`convicted`](crate::convicted) says whether it convicts.
    Faulty(Cause, Option<Activity<G>>),
    /// It is of a view that is over, so it wasn't taken in. A peer that sends such for a while fell
    /// behind: send it [`Driver::help`]. It may just be a bit late.
    Behind,
    /// It is of a view that is too far ahead, so it wasn't taken in. This validator may have fallen
    /// behind: a certificate of any later view takes it there.
    Ahead,
    /// It is of another epoch.
    OtherEpoch,
    /// Its sender was blocked before, so it wasn't looked at.
    Blocked,
    /// Its sender takes no part, so it wasn't looked at.
    Unknown,
    /// Its sender is this validator, so it wasn't looked at.
    Own,
    /// Its signature has more than 96 bytes, so it wasn't looked at.
    SignatureBytes,
    /// As many certificates of its sender wait to be verified as may, so it wasn't looked at. It is
    /// sent again, as what is lost.
    Full,
}
