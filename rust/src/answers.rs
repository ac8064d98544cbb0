//! What rounds answer.

use crate::messages::{Activity, Certificate, Kind};
use crate::positions::Participant;
use std::fmt;

/// How a round keeps its votes.
#[derive(Clone, Copy, Debug, PartialEq, Eq, Hash)]
pub enum Mode {
    /// In full, as evidence, to its end.
    Retaining,
    /// In full until their kind is certified, and as facts of each signer from then on.
    Releasing,
    /// As facts from the start, since the view was skipped and makes no certificate.
    Skipped,
}

/// Why the sender of a vote is to be blocked.
#[derive(Clone, Copy, Debug, PartialEq, Eq, Hash)]
pub enum BlockReason {
    /// The sender is no participant of the round's scheme.
    UnknownParticipant,
    /// The notarize names another signer than its sender.
    NotarizeSignerMismatch,
    /// The nullify names another signer than its sender.
    NullifySignerMismatch,
    /// The finalize names another signer than its sender.
    FinalizeSignerMismatch,
    /// An earlier notarize of the signer was for another proposal.
    ConflictingNotarize,
    /// The nullify differs from the one that is kept, which can only be in its signature.
    ConflictingNullify,
    /// An earlier finalize of the signer was for another proposal.
    ConflictingFinalize,
    /// The vote differs from the one that is kept in its signature alone.
    InvalidSignature,
    /// The signer of the nullify has finalized before.
    NullifyAfterFinalize,
    /// The signer of the finalize has nullified before.
    FinalizeAfterNullify,
}

impl BlockReason {
    /// Its text, which is the original's.
    pub const fn as_str(&self) -> &'static str {
        match self {
            BlockReason::UnknownParticipant => "unknown participant",
            BlockReason::NotarizeSignerMismatch => "notarize signer mismatch",
            BlockReason::NullifySignerMismatch => "nullify signer mismatch",
            BlockReason::FinalizeSignerMismatch => "finalize signer mismatch",
            BlockReason::ConflictingNotarize => "conflicting notarize",
            BlockReason::ConflictingNullify => "conflicting nullify",
            BlockReason::ConflictingFinalize => "conflicting finalize",
            BlockReason::InvalidSignature => "invalid signature",
            BlockReason::NullifyAfterFinalize => "nullify after finalize",
            BlockReason::FinalizeAfterNullify => "finalize after nullify",
        }
    }
}

impl fmt::Display for BlockReason {
    fn fmt(&self, f: &mut fmt::Formatter<'_>) -> fmt::Result {
        f.write_str(self.as_str())
    }
}

/// The answer to a network vote.
#[must_use = "it may say that the sender is to be blocked"]
#[derive(Clone, Copy, Debug, PartialEq, Eq, Hash)]
pub struct Admission<G> {
    /// Whether it was taken as its signer's first of its kind.
    pub added: bool,
    /// Why its sender is to be blocked, if it is. It is the sender, also where the vote names
    /// another signer. To block it is the caller's matter: a round goes on taking in its votes. A
    /// validator gives it to be blocked.
    pub block: Option<BlockReason>,
    /// The vote, where it was added, or evidence of two that contradict each other. It may be none
    /// beside a block: the earlier vote isn't kept in full for ever.
    pub report: Option<Activity<G>>,
}

/// What came of an own vote: **it is to be sent only where this is `ToSend`.** That a call wasn't
/// refused isn't enough.
#[must_use = "only a vote that is `ToSend` may be sent"]
#[derive(Clone, Copy, Debug, PartialEq, Eq, Hash)]
pub enum Outcome<G> {
    /// It was added as the first of its kind and signer, and **is to be sent**. To send it again,
    /// send the same bytes, and never sign it anew.
    ToSend {
        /// The vote, as what is reported of it.
        report: Activity<G>,
        /// Whether votes of its kind are kept in full.
        retained: bool,
    },
    /// There was one before: a nullify, or a vote of which nothing that is kept shows that the two
    /// differ. It **isn't to be sent**: if it differs, whoever has the earlier one blocks this node.
    Duplicate {
        /// Whether votes of its kind are kept in full.
        retained: bool,
    },
}

/// Why an own vote is refused. Nothing changes then.
#[derive(Clone, Copy, Debug, PartialEq, Eq, Hash)]
pub enum OwnFault {
    /// A notarize of its signer is kept, equal to this one or not.
    DuplicateNotarize,
    /// A finalize of its signer is kept, equal to this one or not.
    DuplicateFinalize,
    /// An earlier vote of its kind and signer isn't kept, and only one of the two is for the
    /// selected proposal.
    Conflicting,
    /// A finalize of its signer was seen: who finalizes a view doesn't give up on it.
    NullifyAfterFinalize,
    /// A nullify of its signer was seen: who gave up on a view doesn't finalize it.
    FinalizeAfterNullify,
}

impl OwnFault {
    /// Its text.
    pub const fn as_str(&self) -> &'static str {
        match self {
            OwnFault::DuplicateNotarize => "duplicate notarize",
            OwnFault::DuplicateFinalize => "duplicate finalize",
            OwnFault::Conflicting => "conflicting constructed vote",
            OwnFault::NullifyAfterFinalize => "nullify after finalize",
            OwnFault::FinalizeAfterNullify => "finalize after nullify",
        }
    }
}

impl fmt::Display for OwnFault {
    fn fmt(&self, f: &mut fmt::Formatter<'_>) -> fmt::Result {
        f.write_str(self.as_str())
    }
}

impl std::error::Error for OwnFault {}

/// What one attempt at a certificate did. It is given once.
#[must_use = "its certificate isn't given again"]
#[derive(Clone, Debug, PartialEq, Eq, Hash)]
pub struct Batch<C> {
    /// How many pending votes were looked at.
    pub processed: usize,
    /// The signers whose votes were found not to attest, in the order in which they were looked at.
    /// They are to be blocked: a vote is taken in from its signer alone.
    pub invalid: Vec<Participant>,
    /// The certificate, if one was made, which is to be sent. It is recorded already, and isn't
    /// given again.
    pub certificate: Option<Certificate<C>>,
    /// Whether the votes could have been a quorum, but had to be sorted one by one.
    pub fallback: bool,
}

impl<C> Batch<C> {
    /// The kind of its certificate, if one was made.
    pub fn kind(&self) -> Option<Kind> {
        self.certificate.as_ref().map(Certificate::kind)
    }
}
