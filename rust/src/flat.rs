//! The library's flat values, to and from this crate's.

use crate::answers::{BlockReason, Mode, OwnFault};
use crate::errors::{VoteError, unknown};
use crate::ffi::{self, code};
use crate::messages::{
    Activity, Attestation, Finalize, Kind, Notarize, Nullify, Proposal, Sha256Digest, Subject, Vote,
};
use crate::positions::{Epoch, Participant, Round, View};

pub(crate) fn flat_proposal(proposal: &Proposal) -> ffi::Proposal {
    ffi::Proposal {
        epoch: proposal.round.epoch.get(),
        view: proposal.round.view.get(),
        parent: proposal.parent.get(),
        payload: proposal.payload.0,
    }
}

/// The subject's proposal, or its round alone.
pub(crate) fn flat_subject(subject: &Subject) -> ffi::Proposal {
    match subject {
        Subject::Notarize { proposal } | Subject::Finalize { proposal } => flat_proposal(proposal),
        Subject::Nullify { round } => flat_round(round),
    }
}

/// A proposal of which the round alone counts.
pub(crate) fn flat_round(round: &Round) -> ffi::Proposal {
    ffi::Proposal {
        epoch: round.epoch.get(),
        view: round.view.get(),
        ..ffi::Proposal::default()
    }
}

/// An attestation, by the bytes of its signature.
#[inline]
pub(crate) fn flat_attestation<G: AsRef<[u8]>>(
    attestation: &Attestation<G>,
) -> Result<ffi::Attestation, VoteError> {
    let signature = attestation.signature.as_ref();
    let mut flat = ffi::Attestation {
        signer: attestation.signer.get(),
        ..ffi::Attestation::default()
    };
    flat.bytes
        .get_mut(..signature.len())
        .ok_or(VoteError::SignatureBytes)?
        .copy_from_slice(signature);
    flat.length = signature.len() as u8;
    Ok(flat)
}

/// The attestation of these bytes.
pub(crate) fn attestation_of<G: for<'b> TryFrom<&'b [u8]>>(
    flat: &ffi::Attestation,
) -> Result<Attestation<G>, VoteError> {
    let signature = flat.bytes.get(..usize::from(flat.length));
    let signature = signature.and_then(|bytes| G::try_from(bytes).ok());
    let signature = signature.ok_or(VoteError::SignatureBytes)?;
    Ok(Attestation::new(Participant::new(flat.signer), signature))
}

#[inline]
pub(crate) fn flat_vote<G: AsRef<[u8]>>(vote: &Vote<G>) -> Result<ffi::Vote, VoteError> {
    let (kind, proposal) = match vote {
        Vote::Notarize(vote) => (Kind::Notarization, flat_proposal(&vote.proposal)),
        Vote::Nullify(vote) => (Kind::Nullification, flat_round(&vote.round)),
        Vote::Finalize(vote) => (Kind::Finalization, flat_proposal(&vote.proposal)),
    };
    Ok(ffi::Vote {
        proposal,
        attestation: flat_attestation(vote.attestation())?,
        kind: kind_code(kind),
    })
}

/// What is reported of a vote.
#[inline]
pub(crate) fn report_of<G: Clone + for<'b> TryFrom<&'b [u8]>>(
    answer: &ffi::Admission,
    vote: &Vote<G>,
) -> Result<Option<Activity<G>>, VoteError> {
    Ok(match answer.report {
        code::REPORT_NONE => None,
        // Of one vote it is this one, which is new.
        code::REPORT_NOTARIZE | code::REPORT_NULLIFY | code::REPORT_FINALIZE => Some(match vote {
            Vote::Notarize(vote) => Activity::Notarize(vote.clone()),
            Vote::Nullify(vote) => Activity::Nullify(vote.clone()),
            Vote::Finalize(vote) => Activity::Finalize(vote.clone()),
        }),
        _ => Some(contradiction_of(answer)?),
    })
}

/// The report of two votes.
#[cold]
fn contradiction_of<G: for<'b> TryFrom<&'b [u8]>>(
    answer: &ffi::Admission,
) -> Result<Activity<G>, VoteError> {
    let (first, second) = (&answer.first, &answer.second);
    Ok(match answer.report {
        code::REPORT_CONFLICTING_NOTARIZE => {
            Activity::ConflictingNotarize(notarize_of(first)?, notarize_of(second)?)
        }
        code::REPORT_CONFLICTING_FINALIZE => {
            Activity::ConflictingFinalize(finalize_of(first)?, finalize_of(second)?)
        }
        code::REPORT_NULLIFY_FINALIZE => {
            Activity::NullifyFinalize(nullify_of(first)?, finalize_of(second)?)
        }
        other => unknown(other),
    })
}

/// A vote of any kind.
pub(crate) fn vote_of<G: for<'b> TryFrom<&'b [u8]>>(
    flat: &ffi::Vote,
) -> Result<Vote<G>, VoteError> {
    let subject = subject_of(kind_of(flat.kind), &flat.proposal);
    Ok(Vote::new(subject, attestation_of(&flat.attestation)?))
}

fn notarize_of<G: for<'b> TryFrom<&'b [u8]>>(flat: &ffi::Vote) -> Result<Notarize<G>, VoteError> {
    Ok(Notarize {
        proposal: proposal_of(&flat.proposal),
        attestation: attestation_of(&flat.attestation)?,
    })
}

fn nullify_of<G: for<'b> TryFrom<&'b [u8]>>(flat: &ffi::Vote) -> Result<Nullify<G>, VoteError> {
    Ok(Nullify {
        round: round_of(&flat.proposal),
        attestation: attestation_of(&flat.attestation)?,
    })
}

fn finalize_of<G: for<'b> TryFrom<&'b [u8]>>(flat: &ffi::Vote) -> Result<Finalize<G>, VoteError> {
    Ok(Finalize {
        proposal: proposal_of(&flat.proposal),
        attestation: attestation_of(&flat.attestation)?,
    })
}

pub(crate) fn round_of(flat: &ffi::Proposal) -> Round {
    Round::new(Epoch::new(flat.epoch), View::new(flat.view))
}

pub(crate) fn proposal_of(flat: &ffi::Proposal) -> Proposal {
    Proposal::new(
        round_of(flat),
        View::new(flat.parent),
        Sha256Digest(flat.payload),
    )
}

pub(crate) fn kind_code(kind: Kind) -> u8 {
    match kind {
        Kind::Notarization => code::NOTARIZATION,
        Kind::Nullification => code::NULLIFICATION,
        Kind::Finalization => code::FINALIZATION,
    }
}

pub(crate) fn mode_code(mode: Mode) -> u8 {
    match mode {
        Mode::Retaining => code::RETAINING,
        Mode::Releasing => code::RELEASING,
        Mode::Skipped => code::SKIPPED,
    }
}

pub(crate) fn kind_of(flat: u8) -> Kind {
    match flat {
        code::NOTARIZATION => Kind::Notarization,
        code::NULLIFICATION => Kind::Nullification,
        code::FINALIZATION => Kind::Finalization,
        other => unknown(other),
    }
}

/// The subject of a kind with its proposal, or with its round alone.
pub(crate) fn subject_of(kind: Kind, flat: &ffi::Proposal) -> Subject {
    match kind {
        Kind::Notarization => Subject::Notarize {
            proposal: proposal_of(flat),
        },
        Kind::Nullification => Subject::Nullify {
            round: round_of(flat),
        },
        Kind::Finalization => Subject::Finalize {
            proposal: proposal_of(flat),
        },
    }
}

#[inline]
pub(crate) fn block_of(flat: u8) -> Option<BlockReason> {
    Some(match flat {
        code::BLOCK_NONE => return None,
        code::BLOCK_UNKNOWN_PARTICIPANT => BlockReason::UnknownParticipant,
        code::BLOCK_NOTARIZE_SIGNER_MISMATCH => BlockReason::NotarizeSignerMismatch,
        code::BLOCK_NULLIFY_SIGNER_MISMATCH => BlockReason::NullifySignerMismatch,
        code::BLOCK_FINALIZE_SIGNER_MISMATCH => BlockReason::FinalizeSignerMismatch,
        code::BLOCK_CONFLICTING_NOTARIZE => BlockReason::ConflictingNotarize,
        code::BLOCK_CONFLICTING_NULLIFY => BlockReason::ConflictingNullify,
        code::BLOCK_CONFLICTING_FINALIZE => BlockReason::ConflictingFinalize,
        code::BLOCK_INVALID_SIGNATURE => BlockReason::InvalidSignature,
        code::BLOCK_NULLIFY_AFTER_FINALIZE => BlockReason::NullifyAfterFinalize,
        code::BLOCK_FINALIZE_AFTER_NULLIFY => BlockReason::FinalizeAfterNullify,
        other => unknown(other),
    })
}

/// Why the library refuses an own vote.
pub(crate) fn own_fault(answer: u8) -> OwnFault {
    match answer {
        code::DUPLICATE_NOTARIZE => OwnFault::DuplicateNotarize,
        code::DUPLICATE_FINALIZE => OwnFault::DuplicateFinalize,
        code::CONFLICTING => OwnFault::Conflicting,
        code::NULLIFY_AFTER_FINALIZE => OwnFault::NullifyAfterFinalize,
        code::FINALIZE_AFTER_NULLIFY => OwnFault::FinalizeAfterNullify,
        other => unknown(other),
    }
}
