//! The test schemes of `docs/FORMATS.md`: `keyed`, `single` and `sealed`, with a root of zero
//! bytes.

use crate::sha256::digest;
use batcher::{
    Attestation, Certificate, Participant, Proposal, Scheme, Set, Subject, positions::Round, quorum,
};

const ROOT: [u8; 32] = [0; 32];

/// No participant has this index.
const MASTER: u32 = u32::MAX;

pub type Signature = [u8; 32];

#[derive(Clone, Copy, Debug, PartialEq, Eq)]
pub enum Sort {
    Keyed,
    Single,
    Sealed,
}

/// What is made of a quorum.
#[derive(Clone, Debug, PartialEq, Eq)]
pub enum Content {
    List(Vec<Attestation<Signature>>),
    Seal([u8; 32]),
}

/// A scheme whose participants are named 0, 1, and so on.
pub struct TestScheme {
    sort: Sort,
    participants: Set<u64>,
}

impl TestScheme {
    pub fn new(sort: Sort, participants: u32) -> Self {
        let names = (0..u64::from(participants)).collect();
        TestScheme {
            sort,
            participants: Set::new(names).expect("names differ"),
        }
    }

    /// The signature of any index.
    pub fn sign(&self, signer: Participant, subject: &Subject) -> Attestation<Signature> {
        Attestation::new(signer, signed(signer.get(), subject))
    }

    /// A certificate of good attestations by the first participants that are a quorum.
    pub fn certificate(&self, subject: Subject) -> Certificate<Content> {
        let signers = (0..quorum(self.participants.len())).map(Participant::new);
        let attestations: Vec<_> = signers.map(|signer| self.sign(signer, &subject)).collect();
        Certificate::new(subject, self.assemble(&subject, &attestations))
    }

    fn attests(&self, subject: &Subject, attestation: &Attestation<Signature>) -> bool {
        self.participants.key(attestation.signer).is_some()
            && attestation.signature == signed(attestation.signer.get(), subject)
    }
}

impl Scheme for TestScheme {
    type PublicKey = u64;
    type Signature = Signature;
    type Certificate = Content;

    const ASSEMBLED_CERTIFIES: bool = true;

    fn participants(&self) -> &Set<u64> {
        &self.participants
    }

    // Those of so many participants are always the same.
    fn keys(&self) -> [u8; 32] {
        let mut keys = [0; 32];
        keys[..4].copy_from_slice(&self.participants.len().to_be_bytes());
        keys
    }

    fn is_batchable(&self) -> bool {
        self.sort != Sort::Single
    }

    fn aggregates(&self) -> bool {
        self.sort == Sort::Sealed
    }

    fn verify_attestations(
        &self,
        subject: &Subject,
        attestations: &[Attestation<Signature>],
    ) -> Vec<bool> {
        attestations
            .iter()
            .map(|it| self.attests(subject, it))
            .collect()
    }

    // A quorum of good ones is enough, whatever else is there.
    fn verify_together(
        &self,
        subject: &Subject,
        attestations: &[Attestation<Signature>],
        verified: usize,
    ) -> bool {
        let unknown = attestations[verified..].iter();
        let good = verified + unknown.filter(|it| self.attests(subject, it)).count();
        good >= quorum(self.participants.len()) as usize
    }

    fn assemble(&self, subject: &Subject, attestations: &[Attestation<Signature>]) -> Content {
        match self.sort {
            Sort::Keyed | Sort::Single => Content::List(attestations.to_vec()),
            Sort::Sealed => Content::Seal(signed(MASTER, subject)),
        }
    }

    fn verify_certificate(&self, subject: &Subject, certificate: &Content) -> bool {
        match certificate {
            Content::List(attestations) => {
                self.sort != Sort::Sealed
                    && attestations.len() >= quorum(self.participants.len()) as usize
                    && attestations
                        .windows(2)
                        .all(|pair| pair[0].signer < pair[1].signer)
                    && attestations.iter().all(|it| self.attests(subject, it))
            }
            Content::Seal(seal) => self.sort == Sort::Sealed && *seal == signed(MASTER, subject),
        }
    }

    fn certificate_bytes(&self, certificate: &Content) -> impl AsRef<[u8]> {
        match certificate {
            Content::List(attestations) => {
                let bytes = |it: &Attestation<Signature>| {
                    [&it.signer.get().to_be_bytes()[..], &it.signature].concat()
                };
                attestations.iter().flat_map(bytes).collect()
            }
            Content::Seal(seal) => seal.to_vec(),
        }
    }
}

/// What the key of an index signs the subject with.
fn signed(index: u32, subject: &Subject) -> [u8; 32] {
    let key = digest(&[&ROOT, &index.to_be_bytes()]);
    let kind = [subject.kind() as u8];
    match subject {
        Subject::Notarize { proposal } | Subject::Finalize { proposal } => {
            digest(&[&key, &kind, &context(proposal)])
        }
        Subject::Nullify { round } => digest(&[&key, &kind, &numbers(round)]),
    }
}

fn numbers(round: &Round) -> [u8; 16] {
    let mut bytes = [0; 16];
    bytes[..8].copy_from_slice(&round.epoch.get().to_be_bytes());
    bytes[8..].copy_from_slice(&round.view.get().to_be_bytes());
    bytes
}

fn context(proposal: &Proposal) -> [u8; 56] {
    let mut bytes = [0; 56];
    bytes[..16].copy_from_slice(&numbers(&proposal.round));
    bytes[16..24].copy_from_slice(&proposal.parent.get().to_be_bytes());
    bytes[24..].copy_from_slice(&proposal.payload.0);
    bytes
}
