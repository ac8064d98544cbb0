//! What validators send each other, and its bytes.

use super::Signature;
use crate::messages::{Attestation, Certificate, Proposal, Sha256Digest, Subject, Vote};
use crate::positions::{Epoch, Participant, Round, View};
use crate::validator::Listed;

/// What validators send each other.
#[derive(Clone, Debug, PartialEq, Eq, Hash)]
pub enum Message<G> {
    /// A vote, which its signer sends, and nobody else.
    Vote(Vote<G>),
    /// A certificate, which anybody may send.
    Certificate(Listed),
}

/// The version of `docs/FORMATS.md`.
const VERSION: u8 = 1;

impl<G> Message<G> {
    /// What it is about.
    pub fn subject(&self) -> Subject {
        match self {
            Message::Vote(vote) => vote.subject(),
            Message::Certificate(certificate) => certificate.subject(),
        }
    }

    /// The round that it is of.
    pub fn round(&self) -> Round {
        self.subject().round()
    }
}

impl<G: Signature> Message<G> {
    /// Its bytes: `00` for a vote or `01` for a certificate, and then those of `docs/FORMATS.md`,
    /// where a signature is its own bytes.
    pub fn to_bytes(&self) -> Vec<u8> {
        let mut bytes = vec![u8::from(matches!(self, Message::Certificate(_))), VERSION];
        put_subject(&mut bytes, &self.subject());
        match self {
            Message::Vote(vote) => {
                bytes.extend(vote.signer().get().to_be_bytes());
                bytes.extend(vote.attestation().signature.as_ref());
            }
            Message::Certificate(certificate) => bytes.extend(certificate.content()),
        }
        bytes
    }

    /// The message of these bytes. None where they are of no message, as whoever errs or lies sends
    /// them.
    pub fn from_bytes(bytes: &[u8]) -> Option<Self> {
        let ([what, VERSION], mut rest) = bytes.split_first_chunk()? else {
            return None;
        };
        let subject = subject(&mut rest)?;
        match what {
            0 => {
                let signer = Participant::new(u32::from_be_bytes(take(&mut rest)?));
                let signature = G::try_from(rest).ok()?;
                let vote = Vote::new(subject, Attestation::new(signer, signature));
                Some(Message::Vote(vote))
            }
            1 => {
                let certificate = Certificate::new(subject, rest.to_vec());
                Some(Message::Certificate(certificate))
            }
            _ => None,
        }
    }
}

fn put_subject(bytes: &mut Vec<u8>, subject: &Subject) {
    let round = subject.round();
    bytes.push(subject.kind() as u8);
    bytes.extend(round.epoch.get().to_be_bytes());
    bytes.extend(round.view.get().to_be_bytes());
    if let Some(proposal) = subject.proposal() {
        bytes.extend(proposal.parent.get().to_be_bytes());
        bytes.extend(proposal.payload.0);
    }
}

fn subject(bytes: &mut &[u8]) -> Option<Subject> {
    let [kind] = take(bytes)?;
    let round = Round::new(Epoch::new(number(bytes)?), View::new(number(bytes)?));
    if kind == 1 {
        return Some(Subject::Nullify { round });
    }
    let parent = View::new(number(bytes)?);
    let proposal = Proposal::new(round, parent, Sha256Digest(take(bytes)?));
    match kind {
        0 => Some(Subject::Notarize { proposal }),
        2 => Some(Subject::Finalize { proposal }),
        _ => None,
    }
}

fn number(bytes: &mut &[u8]) -> Option<u64> {
    take(bytes).map(u64::from_be_bytes)
}

fn take<const N: usize>(bytes: &mut &[u8]) -> Option<[u8; N]> {
    let (front, rest) = bytes.split_first_chunk()?;
    *bytes = rest;
    Some(*front)
}
