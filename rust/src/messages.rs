//! Proposals, votes, certificates, and what is reported of them. `G` is a scheme's signature, `C`
//! its certificate.

use crate::positions::{Participant, Round, View};
use std::fmt;

/// The digest of a payload. A round compares its bytes, and computes none.
#[derive(Clone, Copy, PartialEq, Eq, PartialOrd, Ord, Hash)]
pub struct Sha256Digest(pub [u8; 32]);

impl fmt::Display for Sha256Digest {
    /// In lower hexadecimal digits, two for each byte.
    fn fmt(&self, f: &mut fmt::Formatter<'_>) -> fmt::Result {
        self.0.iter().try_for_each(|byte| write!(f, "{byte:02x}"))
    }
}

impl fmt::Debug for Sha256Digest {
    fn fmt(&self, f: &mut fmt::Formatter<'_>) -> fmt::Result {
        write!(f, "Sha256Digest({self})")
    }
}

/// What a leader proposes for a round, on top of the proposal of the view `parent`.
#[derive(Clone, Copy, Debug, PartialEq, Eq, Hash)]
pub struct Proposal {
    /// The round that it is for.
    pub round: Round,
    /// The view of the proposal that it builds on. Nothing says that it is an earlier one.
    pub parent: View,
    /// The digest of what is proposed.
    pub payload: Sha256Digest,
}

impl Proposal {
    /// The proposal of a payload for a round.
    pub const fn new(round: Round, parent: View, payload: Sha256Digest) -> Self {
        Proposal {
            round,
            parent,
            payload,
        }
    }
}

/// A kind of certificate, and of the votes that it is made of.
#[derive(Clone, Copy, Debug, PartialEq, Eq, PartialOrd, Ord, Hash)]
pub enum Kind {
    /// Of notarizes.
    Notarization,
    /// Of nullifies.
    Nullification,
    /// Of finalizes.
    Finalization,
}

impl Kind {
    /// Its name.
    pub const fn as_str(&self) -> &'static str {
        match self {
            Kind::Notarization => "notarization",
            Kind::Nullification => "nullification",
            Kind::Finalization => "finalization",
        }
    }
}

impl fmt::Display for Kind {
    fn fmt(&self, f: &mut fmt::Formatter<'_>) -> fmt::Result {
        f.write_str(self.as_str())
    }
}

/// What a signer signs: a kind of vote with its context, which is the round number for a nullify
/// and the proposal for the others.
#[derive(Clone, Copy, Debug, PartialEq, Eq, Hash)]
pub enum Subject {
    /// That its signer votes to notarize the proposal.
    Notarize {
        /// The proposal.
        proposal: Proposal,
    },
    /// That the round is given up.
    Nullify {
        /// The round.
        round: Round,
    },
    /// That the notarized proposal is final.
    Finalize {
        /// The proposal.
        proposal: Proposal,
    },
}

impl Subject {
    /// The kind of certificate that votes of it make.
    pub fn kind(&self) -> Kind {
        match self {
            Subject::Notarize { .. } => Kind::Notarization,
            Subject::Nullify { .. } => Kind::Nullification,
            Subject::Finalize { .. } => Kind::Finalization,
        }
    }

    /// The round that it is of.
    pub fn round(&self) -> Round {
        match self {
            Subject::Notarize { proposal } | Subject::Finalize { proposal } => proposal.round,
            Subject::Nullify { round } => *round,
        }
    }

    /// The proposal, unless it is that of a nullify.
    pub fn proposal(&self) -> Option<Proposal> {
        match self {
            Subject::Notarize { proposal } | Subject::Finalize { proposal } => Some(*proposal),
            Subject::Nullify { .. } => None,
        }
    }
}

/// A signature with the index of its signer. Only a scheme can verify it.
#[derive(Clone, Copy, Debug, PartialEq, Eq, Hash)]
pub struct Attestation<G> {
    /// Who signed it, as it says itself.
    pub signer: Participant,
    /// The signature.
    pub signature: G,
}

impl<G> Attestation<G> {
    /// The attestation of a signer.
    pub const fn new(signer: Participant, signature: G) -> Self {
        Attestation { signer, signature }
    }
}

/// A vote to certify a proposal.
#[derive(Clone, Copy, Debug, PartialEq, Eq, Hash)]
pub struct Notarize<G> {
    /// What it is for.
    pub proposal: Proposal,
    /// Its signature, with the index of its signer.
    pub attestation: Attestation<G>,
}

/// A vote to give a round up.
#[derive(Clone, Copy, Debug, PartialEq, Eq, Hash)]
pub struct Nullify<G> {
    /// What it is for.
    pub round: Round,
    /// Its signature, with the index of its signer.
    pub attestation: Attestation<G>,
}

/// A vote to make a notarized proposal final.
#[derive(Clone, Copy, Debug, PartialEq, Eq, Hash)]
pub struct Finalize<G> {
    /// What it is for.
    pub proposal: Proposal,
    /// Its signature, with the index of its signer.
    pub attestation: Attestation<G>,
}

/// A vote of any kind. Two are equal where all their parts are, the signature included.
#[derive(Clone, Copy, Debug, PartialEq, Eq, Hash)]
pub enum Vote<G> {
    /// To certify a proposal.
    Notarize(Notarize<G>),
    /// To give a round up.
    Nullify(Nullify<G>),
    /// To make a notarized proposal final.
    Finalize(Finalize<G>),
}

impl<G> Vote<G> {
    /// The vote for the subject, with the attestation of it.
    pub fn new(subject: Subject, attestation: Attestation<G>) -> Self {
        match subject {
            Subject::Notarize { proposal } => Vote::Notarize(Notarize {
                proposal,
                attestation,
            }),
            Subject::Nullify { round } => Vote::Nullify(Nullify { round, attestation }),
            Subject::Finalize { proposal } => Vote::Finalize(Finalize {
                proposal,
                attestation,
            }),
        }
    }

    /// The kind of certificate that it is for.
    pub fn kind(&self) -> Kind {
        match self {
            Vote::Notarize(_) => Kind::Notarization,
            Vote::Nullify(_) => Kind::Nullification,
            Vote::Finalize(_) => Kind::Finalization,
        }
    }

    /// What its signer signs.
    pub fn subject(&self) -> Subject {
        match self {
            Vote::Notarize(vote) => Subject::Notarize {
                proposal: vote.proposal,
            },
            Vote::Nullify(vote) => Subject::Nullify { round: vote.round },
            Vote::Finalize(vote) => Subject::Finalize {
                proposal: vote.proposal,
            },
        }
    }

    /// The signature on its subject, with the index of its signer.
    pub fn attestation(&self) -> &Attestation<G> {
        match self {
            Vote::Notarize(vote) => &vote.attestation,
            Vote::Nullify(vote) => &vote.attestation,
            Vote::Finalize(vote) => &vote.attestation,
        }
    }

    /// Who signed it, as it says itself.
    pub fn signer(&self) -> Participant {
        self.attestation().signer
    }

    /// The round that it is of.
    pub fn round(&self) -> Round {
        self.subject().round()
    }

    /// The proposal that it is for, unless it is a nullify.
    pub fn proposal(&self) -> Option<Proposal> {
        self.subject().proposal()
    }
}

/// That a quorum notarized a proposal.
#[derive(Clone, Copy, Debug, PartialEq, Eq, Hash)]
pub struct Notarization<C> {
    /// What it is for.
    pub proposal: Proposal,
    /// What the scheme has made.
    pub certificate: C,
}

/// That a quorum gave a round up.
#[derive(Clone, Copy, Debug, PartialEq, Eq, Hash)]
pub struct Nullification<C> {
    /// What it is for.
    pub round: Round,
    /// What the scheme has made.
    pub certificate: C,
}

/// That a quorum made a proposal final.
#[derive(Clone, Copy, Debug, PartialEq, Eq, Hash)]
pub struct Finalization<C> {
    /// What it is for.
    pub proposal: Proposal,
    /// What the scheme has made.
    pub certificate: C,
}

/// A certificate of any kind.
#[derive(Clone, Copy, Debug, PartialEq, Eq, Hash)]
pub enum Certificate<C> {
    /// That a quorum notarized a proposal.
    Notarization(Notarization<C>),
    /// That a quorum gave a round up.
    Nullification(Nullification<C>),
    /// That a quorum made a proposal final.
    Finalization(Finalization<C>),
}

impl<C> Certificate<C> {
    /// The certificate that a quorum signed the subject.
    pub fn new(subject: Subject, certificate: C) -> Self {
        match subject {
            Subject::Notarize { proposal } => Certificate::Notarization(Notarization {
                proposal,
                certificate,
            }),
            Subject::Nullify { round } => {
                Certificate::Nullification(Nullification { round, certificate })
            }
            Subject::Finalize { proposal } => Certificate::Finalization(Finalization {
                proposal,
                certificate,
            }),
        }
    }

    /// The kind of votes that it is made of.
    pub fn kind(&self) -> Kind {
        self.subject().kind()
    }

    /// What each signer behind it signed.
    pub fn subject(&self) -> Subject {
        match self {
            Certificate::Notarization(made) => Subject::Notarize {
                proposal: made.proposal,
            },
            Certificate::Nullification(made) => Subject::Nullify { round: made.round },
            Certificate::Finalization(made) => Subject::Finalize {
                proposal: made.proposal,
            },
        }
    }

    /// What the scheme has made, without what it is for.
    pub fn content(&self) -> &C {
        match self {
            Certificate::Notarization(made) => &made.certificate,
            Certificate::Nullification(made) => &made.certificate,
            Certificate::Finalization(made) => &made.certificate,
        }
    }

    /// The same, taken out.
    pub fn into_content(self) -> C {
        match self {
            Certificate::Notarization(made) => made.certificate,
            Certificate::Nullification(made) => made.certificate,
            Certificate::Finalization(made) => made.certificate,
        }
    }

    /// The round that it is of.
    pub fn round(&self) -> Round {
        self.subject().round()
    }

    /// The proposal that it is for, unless it is a nullification.
    pub fn proposal(&self) -> Option<Proposal> {
        self.subject().proposal()
    }
}

/// What is reported: a vote that is new, or two votes of one signer that contradict each other, as
/// evidence against it. Nothing says that a reported vote attests.
#[derive(Clone, Copy, Debug, PartialEq, Eq, Hash)]
pub enum Activity<G> {
    /// A new notarize.
    Notarize(Notarize<G>),
    /// A new nullify.
    Nullify(Nullify<G>),
    /// A new finalize.
    Finalize(Finalize<G>),
    /// Two notarizes for two proposals, the earlier one first.
    ConflictingNotarize(Notarize<G>, Notarize<G>),
    /// Two finalizes for two proposals, the earlier one first.
    ConflictingFinalize(Finalize<G>, Finalize<G>),
    /// A nullify beside a finalize, whichever was earlier.
    NullifyFinalize(Nullify<G>, Finalize<G>),
}

impl<G> Activity<G> {
    /// Who signed what is reported, as it says itself.
    pub fn signer(&self) -> Participant {
        match self {
            Activity::Notarize(vote) | Activity::ConflictingNotarize(_, vote) => {
                vote.attestation.signer
            }
            Activity::Nullify(vote) => vote.attestation.signer,
            Activity::Finalize(vote) | Activity::ConflictingFinalize(_, vote) => {
                vote.attestation.signer
            }
            Activity::NullifyFinalize(_, vote) => vote.attestation.signer,
        }
    }
}
