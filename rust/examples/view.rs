//! One view of four validators, as one of them, ada, plays it. It prints what ada sends, and whom
//! it blocks.

use batcher::errors::{CertificateError, OwnError, RoundError};
use batcher::positions::Round as Number;
use batcher::{
    Attestation, Certificate, Epoch, Error, Outcome, Proposal, Round, Scheme, Set, Sha256Digest,
    Subject, View, Vote, quorum,
};
use std::hash::{DefaultHasher, Hash, Hasher};
use std::sync::Arc;

type Key = &'static str;

/// A signature is a hash of who signs what, which protects nothing: yours can't be made by others.
type Signature = [u8; 8];

fn signature_of(key: Key, subject: &Subject) -> Signature {
    let mut hasher = DefaultHasher::new();
    (key, subject).hash(&mut hasher);
    hasher.finish().to_be_bytes()
}

struct Plain {
    participants: Set<Key>,
}

impl Plain {
    // A participant's index is the place of its key in the set, which is sorted.
    fn sign(&self, key: Key, subject: Subject) -> Vote<Signature> {
        let signer = self.participants.index(&key).expect("takes part");
        Vote::new(
            subject,
            Attestation::new(signer, signature_of(key, &subject)),
        )
    }

    fn attests(&self, subject: &Subject, it: &Attestation<Signature>) -> bool {
        let key = self.participants.key(it.signer);
        key.is_some_and(|key| it.signature == signature_of(key, subject))
    }
}

impl Scheme for Plain {
    type PublicKey = Key;
    type Signature = Signature;
    type Certificate = Vec<Attestation<Signature>>;

    fn participants(&self) -> &Set<Key> {
        &self.participants
    }

    // There is one list of keys here. Else it is the hash of theirs.
    fn keys(&self) -> [u8; 32] {
        [0; 32]
    }

    fn verify_attestations(
        &self,
        subject: &Subject,
        attestations: &[Attestation<Signature>],
    ) -> Vec<bool> {
        let each = attestations.iter();
        each.map(|it| self.attests(subject, it)).collect()
    }

    fn assemble(&self, _: &Subject, quorum: &[Attestation<Signature>]) -> Self::Certificate {
        quorum.to_vec()
    }

    // Of a quorum of participants, each once, each attests.
    fn verify_certificate(&self, subject: &Subject, certificate: &Self::Certificate) -> bool {
        certificate.len() >= quorum(self.participants.len()) as usize
            && certificate.is_sorted_by(|one, next| one.signer < next.signer)
            && certificate.iter().all(|it| self.attests(subject, it))
    }

    fn certificate_bytes(&self, certificate: &Self::Certificate) -> impl AsRef<[u8]> {
        certificate
            .iter()
            .flat_map(|it| it.signature)
            .collect::<Vec<_>>()
    }
}

/// Takes in a vote. The sender is who the transport has authenticated.
fn hear(round: &mut Round<Plain>, sender: Key, vote: Vote<Signature>) -> Result<(), Error> {
    match round.add_network(&sender, &vote) {
        Ok(admission) => {
            if let Some(reason) = admission.block {
                println!("block {sender}: {reason}");
            }
        }
        // Nobody is blocked for that, since a peer may be a view ahead.
        Err(RoundError::Elsewhere) => println!("{sender} sends a vote of another round"),
        Err(error) => return Err(error.into()),
    }
    construct(round)
}

/// Takes in a certificate.
fn learn(
    round: &mut Round<Plain>,
    sender: Key,
    certificate: &Certificate<Vec<Attestation<Signature>>>,
) -> Result<(), Error> {
    match round.record_certificate(certificate) {
        Ok(_) | Err(CertificateError::Elsewhere) => {}
        Err(CertificateError::Forged) => {
            println!("block {sender}: its certificate doesn't certify")
        }
        Err(error) => return Err(error.into()),
    }
    construct(round)
}

/// Casts a vote of one's own.
fn cast(round: &mut Round<Plain>, vote: Vote<Signature>) -> Result<(), Error> {
    match round.accept_vote(&vote) {
        // A validator writes the vote down first: after a restart a round knows none of its votes.
        Ok(Outcome::ToSend { .. }) => println!("send a vote for a {}", vote.kind()),
        // An earlier vote is there, with which this one might be found to disagree.
        Ok(Outcome::Duplicate { .. }) => println!("send nothing"),
        Err(OwnError::Own(fault)) => println!("send nothing: {fault}"),
        Err(error) => return Err(error.into()),
    }
    construct(round)
}

/// Makes what certificates can be made, after whatever may have changed that.
fn construct(round: &mut Round<Plain>) -> Result<(), Error> {
    while let Some(batch) = round.try_construct()? {
        for signer in batch.invalid {
            let key = round.scheme().participants().key(signer);
            println!(
                "block {}: its vote doesn't attest",
                key.expect("takes part")
            );
        }
        if let Some(certificate) = batch.certificate {
            println!("send a {}", certificate.kind());
        }
    }
    Ok(())
}

fn main() -> Result<(), Box<dyn std::error::Error>> {
    let participants = Set::new(vec!["dot", "ada", "cyd", "ben"])?;
    let leader = participants.index(&"dot").expect("takes part");
    let scheme = Arc::new(Plain { participants });
    let number = Number::new(Epoch::zero(), View::new(1));
    let round = &mut Round::new(number, scheme.clone(), false)?;
    round.set_leader(leader)?;

    let proposal = Proposal::new(number, View::zero(), Sha256Digest([7; 32]));
    let notarize = Subject::Notarize { proposal };
    hear(round, "dot", scheme.sign("dot", notarize))?;
    hear(round, "ben", scheme.sign("ben", notarize))?;
    cast(round, scheme.sign("ada", notarize))?;

    let finalize = Subject::Finalize { proposal };
    hear(round, "dot", scheme.sign("dot", finalize))?;
    let signer = scheme.sign("cyd", finalize).signer();
    let bad = Attestation::new(signer, signature_of("nobody", &finalize));
    hear(round, "cyd", Vote::new(finalize, bad))?;
    cast(round, scheme.sign("ada", finalize))?;

    let next = Number::new(Epoch::zero(), View::new(2));
    hear(
        round,
        "ben",
        scheme.sign("ben", Subject::Nullify { round: next }),
    )?;
    let nullify = Subject::Nullify { round: number };
    cast(round, scheme.sign("ada", nullify))?;
    let two = ["ada", "cyd"].map(|key| *scheme.sign(key, nullify).attestation());
    learn(round, "cyd", &Certificate::new(nullify, two.to_vec()))?;

    hear(round, "ben", scheme.sign("ben", finalize))?;
    let other = Proposal::new(number, View::zero(), Sha256Digest([8; 32]));
    hear(
        round,
        "dot",
        scheme.sign("dot", Subject::Notarize { proposal: other }),
    )?;
    Ok(())
}
