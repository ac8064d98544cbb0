//! Schemes that don't keep what they owe: the crate answers an error in place of what peers would block
//! this node for, or goes on as if nothing had been.

#[allow(dead_code)]
mod toy;

use batcher::errors::{ConstructError, OwnError, RoundError};
use batcher::{
    Attestation, Certificate, Mode, Outcome, Participant, Round, Scheme, Set, Subject, Vote,
};
use std::panic::{AssertUnwindSafe, catch_unwind};
use std::sync::Arc;
use toy::ROUND;

const SUBJECT: Subject = Subject::Nullify { round: ROUND };

/// A signature of so many bytes. A clone of one that begins with 13 panics.
#[derive(Debug, PartialEq, Eq)]
struct Bytes<const COUNT: usize>([u8; COUNT]);

impl<const COUNT: usize> Clone for Bytes<COUNT> {
    fn clone(&self) -> Self {
        assert!(self.0[0] != 13, "a clone that panics");
        Bytes(self.0)
    }
}

impl<const COUNT: usize> AsRef<[u8]> for Bytes<COUNT> {
    fn as_ref(&self) -> &[u8] {
        &self.0
    }
}

impl<const COUNT: usize> TryFrom<&[u8]> for Bytes<COUNT> {
    type Error = ();

    fn try_from(bytes: &[u8]) -> Result<Self, ()> {
        // One that ends with 7 isn't made again.
        match <[u8; COUNT]>::try_from(bytes) {
            Ok(bytes) if bytes[COUNT - 1] != 7 => Ok(Bytes(bytes)),
            _ => Err(()),
        }
    }
}

/// Each signature is good. A certificate is how many it is assembled of, or one less, where it is
/// sloppy. It says that they are the list, where `IS_LIST`.
struct Sloppy<const COUNT: usize, const IS_LIST: bool> {
    participants: Set<u32>,
    less: usize,
}

impl<const COUNT: usize, const IS_LIST: bool> Scheme for Sloppy<COUNT, IS_LIST> {
    type PublicKey = u32;
    type Signature = Bytes<COUNT>;
    type Certificate = usize;

    const ASSEMBLED_CERTIFIES: bool = IS_LIST;

    fn participants(&self) -> &Set<u32> {
        &self.participants
    }

    fn keys(&self) -> [u8; 32] {
        [0; 32]
    }

    fn verify_attestations(
        &self,
        _: &Subject,
        attestations: &[Attestation<Bytes<COUNT>>],
    ) -> Vec<bool> {
        vec![true; attestations.len()]
    }

    fn assemble(&self, _: &Subject, attestations: &[Attestation<Bytes<COUNT>>]) -> usize {
        attestations.len() - self.less
    }

    fn verify_certificate(&self, _: &Subject, certificate: &usize) -> bool {
        *certificate >= batcher::quorum(self.participants.len()) as usize
    }

    fn certificate_bytes(&self, certificate: &usize) -> impl AsRef<[u8]> {
        certificate.to_be_bytes()
    }
}

fn round<const COUNT: usize, const IS_LIST: bool>(less: usize) -> Round<Sloppy<COUNT, IS_LIST>> {
    let participants = Set::new((0..4).collect()).unwrap();
    Round::in_mode(
        ROUND,
        Arc::new(Sloppy { participants, less }),
        Mode::Retaining,
    )
    .unwrap()
}

fn nullify<const COUNT: usize>(signer: u32, first: u8, last: u8) -> Vote<Bytes<COUNT>> {
    let mut bytes = [0; COUNT];
    bytes[0] = first;
    bytes[COUNT - 1] = last;
    Vote::new(
        SUBJECT,
        Attestation::new(Participant::new(signer), Bytes(bytes)),
    )
}

#[test]
fn what_is_assembled_is_verified() {
    let mut sloppy = round::<8, false>(1);
    let (mut trusted, mut right) = (round::<8, true>(1), round::<8, false>(0));
    for signer in 0..3 {
        let vote = || nullify(signer, 1, 1);
        assert!(sloppy.add_network(&signer, &vote()).unwrap().added);
        assert!(trusted.add_network(&signer, &vote()).unwrap().added);
        assert!(right.add_network(&signer, &vote()).unwrap().added);
    }
    assert_eq!(sloppy.try_construct(), Err(ConstructError::BadAssembly));
    // It was made, and isn't given again.
    assert_eq!(sloppy.try_construct(), Ok(None));
    let of = |certificate: Option<Certificate<usize>>| certificate.map(|it| *it.content());
    let batch = trusted.try_construct().unwrap().unwrap();
    assert_eq!(of(batch.certificate), Some(2));
    let batch = right.try_construct().unwrap().unwrap();
    assert_eq!(of(batch.certificate), Some(3));
}

#[test]
fn signatures_have_96_bytes_at_most() {
    let mut longest = round::<96, true>(0);
    assert!(longest.add_network(&1, &nullify(1, 1, 1)).unwrap().added);
    let mut longer = round::<97, true>(0);
    let answer = longer.add_network(&1, &nullify(1, 1, 1));
    assert_eq!(answer, Err(RoundError::SignatureBytes));
    let own = longer.accept_verified_vote(&nullify(0, 1, 1));
    assert_eq!(own, Err(OwnError::SignatureBytes));
}

#[test]
fn a_signature_that_is_not_made_again_is_an_error() {
    let mut round = round::<8, true>(0);
    for signer in 0..3 {
        let last = if signer == 2 { 7 } else { 1 };
        let vote = nullify(signer, 1, last);
        assert!(round.add_network(&signer, &vote).unwrap().added);
    }
    assert_eq!(round.try_construct(), Err(ConstructError::SignatureBytes));
}

// The library has taken the vote in by then, and the crate keeps nothing that could disagree.
#[test]
fn a_clone_that_panics_leaves_the_round_whole() {
    let mut round = round::<8, true>(0);
    let panics = catch_unwind(AssertUnwindSafe(|| {
        round.add_network(&1, &nullify(1, 13, 1))
    }));
    assert!(panics.is_err());
    // It is a repeat now.
    let again = round.add_network(&1, &nullify(1, 13, 1)).unwrap();
    assert!(!again.added && again.block.is_none());
    for signer in [0, 2] {
        let vote = nullify(signer, 1, 1);
        assert!(round.add_network(&signer, &vote).unwrap().added);
    }
    let own = round.accept_verified_vote(&nullify(3, 1, 1));
    assert!(matches!(own, Ok(Outcome::ToSend { .. })));
    let batch = round.try_construct().unwrap().unwrap();
    assert_eq!(batch.certificate.map(|it| *it.content()), Some(4));
}
