//! Whom a report convicts.

use crate::errors::{ConvictError, unknown};
use crate::ffi::{self, code};
use crate::flat::flat_vote;
use crate::messages::{Activity, Vote};
use crate::positions::Participant;
use crate::scheme::Scheme;
use std::slice;

/// The participant that a report convicts: the signer of two votes that contradict each other and
/// both attest, as the scheme says.
///
/// A round reports two votes that contradict each other without having them verified, so a report
/// is its node's word, and this makes evidence of it. It rests on the scheme alone: whoever has the
/// report and the scheme can ask again. That the convicted one has signed both follows where nobody
/// else can make a signature of its that attests.
///
/// A report of one vote convicts nobody. The scheme is asked only where the two votes would convict
/// their signer if both attest: about each by itself.
///
/// ```
/// # include!(concat!(env!("CARGO_MANIFEST_DIR"), "/tests/toy/mod.rs"));
/// use batcher::{Activity, Participant, Round, Vote, convicted};
/// # fn main() -> Result<(), batcher::Error> {
/// let scheme = Toy::new(4);
/// let mut round = Round::new(ROUND, scheme.clone(), true)?;
/// // One vote for a proposal is no evidence.
/// let admission = round.add_network(&KEYS[1], &notarize(1, 7))?;
/// assert_eq!(convicted(&*scheme, &admission.report.unwrap())?, None);
/// // Two for two proposals are.
/// let report = round.add_network(&KEYS[1], &notarize(1, 8))?.report.unwrap();
/// assert_eq!(convicted(&*scheme, &report)?, Some(Participant::new(1)));
/// // A report whose second vote was made up by somebody else convicts nobody.
/// let (Vote::Notarize(one), Vote::Notarize(other)) = (notarize(2, 7), bad(notarize(2, 8))) else {
///     unreachable!()
/// };
/// let made_up = Activity::ConflictingNotarize(one, other);
/// assert_eq!(convicted(&*scheme, &made_up)?, None);
/// # Ok(())
/// # }
/// ```
///
/// # Errors
///
/// `NoParticipants`, and `SignatureBytes` where a signature has more than 96 bytes.
pub fn convicted<S: Scheme>(
    scheme: &S,
    report: &Activity<S::Signature>,
) -> Result<Option<Participant>, ConvictError> {
    let Some([first, second]) = votes_of(report) else {
        return Ok(None);
    };
    let participants = scheme.participants().len();
    if participants == 0 {
        return Err(ConvictError::NoParticipants);
    }
    let flat_vote = |vote| flat_vote(vote).map_err(|_| ConvictError::SignatureBytes);
    let (keys, flat) = (scheme.keys(), [flat_vote(&first)?, flat_vote(&second)?]);
    let ask = |attest: [bool; 2]| {
        let mut convicted = 0;
        match ffi::convicted(participants, &keys, flat.each_ref(), attest, &mut convicted) {
            code::DONE => Ok(Some(Participant::new(convicted))),
            code::IDLE => Ok(None),
            answer => unknown(answer),
        }
    };
    if ask([true; 2])?.is_none() {
        return Ok(None);
    }
    let attests = |vote: &Vote<S::Signature>| {
        let attestation = slice::from_ref(vote.attestation());
        scheme.verify_attestations(&vote.subject(), attestation) == [true]
    };
    ask([attests(&first), attests(&second)])
}

/// The two votes of a report, if there are two.
fn votes_of<G: Clone>(report: &Activity<G>) -> Option<[Vote<G>; 2]> {
    match report {
        Activity::Notarize(_) | Activity::Nullify(_) | Activity::Finalize(_) => None,
        Activity::ConflictingNotarize(first, second) => {
            Some([first.clone(), second.clone()].map(Vote::Notarize))
        }
        Activity::ConflictingFinalize(first, second) => {
            Some([first.clone(), second.clone()].map(Vote::Finalize))
        }
        Activity::NullifyFinalize(first, second) => {
            Some([Vote::Nullify(first.clone()), Vote::Finalize(second.clone())])
        }
    }
}
