//! Signatures, and what is sent.

use crate::numbers::mixed;
use batcher::positions::Round;
use batcher::validator::{Listed, Wanted};
use batcher::{
    Attestation, Certificate, Epoch, Participant, Proposal, Sha256Digest, Subject, View, Vote,
};

/// A number that nobody but its signer makes, as long as the faulty don't call `sign` for others.
pub type Signature = [u8; 8];

pub fn sign(subject: &Subject, signer: u32) -> Signature {
    let round = subject.round();
    let mut sum = mixed(0xC0FFEE, u64::from(signer) + 1);
    for number in [subject.kind() as u64, round.epoch.get(), round.view.get()] {
        sum = mixed(sum, number);
    }
    if let Some(proposal) = subject.proposal() {
        sum = mixed(sum, proposal.parent.get());
        sum = mixed(sum, number_of(&proposal));
    }
    sum.to_le_bytes()
}

pub fn attests(subject: &Subject, it: &Attestation<Signature>) -> bool {
    it.signature == sign(subject, it.signer.get())
}

pub fn verdicts(wanted: &Wanted<Signature>) -> Vec<bool> {
    let all = wanted.attestations().iter();
    all.map(|it| attests(wanted.subject(), it)).collect()
}

pub fn vote(subject: Subject, signer: u32) -> Vote<Signature> {
    signed_vote(subject, signer, sign(&subject, signer))
}

pub fn signed_vote(subject: Subject, signer: u32, signature: Signature) -> Vote<Signature> {
    let signer = Participant::new(signer);
    Vote::new(subject, Attestation::new(signer, signature))
}

/// Another signature, which attests to nothing.
pub fn spoilt(mut signature: Signature) -> Signature {
    signature[0] ^= 1;
    signature
}

/// A certificate of these attestations, whatever it certifies.
pub fn listed(subject: Subject, signers: &[(u32, Signature)]) -> Listed {
    let mut bytes = (signers.len() as u64).to_be_bytes().to_vec();
    for (signer, signature) in signers {
        bytes.extend(signer.to_be_bytes());
        bytes.push(signature.len() as u8);
        bytes.extend(signature);
        bytes.extend([0; EACH - 4 - 1 - 8]);
    }
    Certificate::new(subject, bytes)
}

/// How many bytes an attestation has in a list.
const EACH: usize = 4 + 1 + 96;

/// The signature of this participant in a list, if it is there.
pub fn signature_in(certificate: &Listed, signer: u32) -> Option<Signature> {
    let lists = certificate.content().get(8..)?.chunks_exact(EACH);
    let mut of_signer = lists.filter(|it| it[..4] == signer.to_be_bytes());
    of_signer.next()?[5..13].try_into().ok()
}

pub fn round(epoch: u64, view: u64) -> Round {
    Round::new(Epoch::new(epoch), View::new(view))
}

/// A proposal whose payload is a number.
pub fn proposal(epoch: u64, view: u64, parent: u64, payload: u64) -> Proposal {
    let mut digest = [0; 32];
    digest[..8].copy_from_slice(&payload.to_be_bytes());
    Proposal::new(round(epoch, view), View::new(parent), Sha256Digest(digest))
}

/// A number of all its payload.
pub fn number_of(proposal: &Proposal) -> u64 {
    let words = proposal.payload.0.chunks_exact(8);
    words.fold(0, |sum, word| {
        let word: [u8; 8] = word.try_into().expect("it has 8 bytes");
        mixed(sum, u64::from_be_bytes(word))
    })
}

pub fn nullify(epoch: u64, view: u64) -> Subject {
    Subject::Nullify {
        round: round(epoch, view),
    }
}

pub enum Message {
    Vote(Vote<Signature>),
    Certificate(Listed),
}

impl Message {
    pub fn subject(&self) -> Subject {
        match self {
            Message::Vote(vote) => vote.subject(),
            Message::Certificate(certificate) => certificate.subject(),
        }
    }
}
