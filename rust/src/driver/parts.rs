//! The three parts that an application brings.

#[cfg(doc)]
use super::{Action, Driver};
use crate::files::Files;
use crate::messages::{Attestation, Subject};
use crate::positions::Participant;
use crate::validator::Write;
use std::fmt;
use std::io;

/// What a signature is to a validator: up to 96 bytes, of which it can be made again.
pub trait Signature: Clone + AsRef<[u8]> + for<'b> TryFrom<&'b [u8]> {}

impl<G: Clone + AsRef<[u8]> + for<'b> TryFrom<&'b [u8]>> Signature for G {}

/// Where a validator keeps what it writes, so that it goes on after a crash.
pub trait Store {
    /// Why something isn't written.
    type Error: fmt::Debug + fmt::Display;

    /// Writes this, and returns once it lasts: a crash leaves all of it from then on, and until
    /// then all or nothing. The bytes come behind those that are there, or take their place, where
    /// it [`replaces`](Write::replaces) them.
    ///
    /// # Errors
    ///
    /// Nobody knows then what is written, so the driver ends. Start again by what the disk has.
    fn write(&mut self, write: &Write) -> Result<(), Self::Error>;
}

impl Store for Files {
    type Error = io::Error;

    fn write(&mut self, write: &Write) -> io::Result<()> {
        Files::write(self, write)
    }
}

/// The key of a validator.
pub trait Signer {
    /// What it makes.
    type Signature: Signature;
    /// Why it makes none.
    type Error: fmt::Debug + fmt::Display;

    /// Signs these bytes, which are the subject's in the namespace of the validator. The subject
    /// says what they are, as for a key that is asked whether it may.
    ///
    /// # Errors
    ///
    /// It refuses, or can't. The vote isn't sent then, the driver says so ([`Action::Unsigned`]),
    /// and asks again after the next [`Driver::expire`], where the vote is still due.
    fn sign(&mut self, subject: &Subject, message: &[u8]) -> Result<Self::Signature, Self::Error>;
}

/// Who knows the keys of all participants.
pub trait Verifier {
    /// What it verifies.
    type Signature: Signature;

    /// Whether a signature is its signer's, on these bytes. All validators say the same: one that
    /// takes the bad for good sends what it is blocked for, and one that takes the good for bad
    /// blocks the honest.
    fn attests(&mut self, check: &Check<'_, Self::Signature>) -> bool;

    /// The same of many, one verdict for each, in their order. They are of up to a few quorums, of
    /// one subject or of several, so a scheme that verifies batches does it here, or several
    /// threads do.
    fn verify(&mut self, checks: &[Check<'_, Self::Signature>]) -> Vec<bool> {
        checks.iter().map(|it| self.attests(it)).collect()
    }
}

/// A signature that is to be verified.
#[derive(Clone, Copy, Debug)]
pub struct Check<'a, G> {
    pub(super) subject: &'a Subject,
    pub(super) message: &'a [u8],
    pub(super) attestation: &'a Attestation<G>,
}

impl<'a, G> Check<'a, G> {
    /// What it is to attest to.
    pub fn subject(&self) -> &'a Subject {
        self.subject
    }

    /// The bytes of that, on which the signature is.
    pub fn message(&self) -> &'a [u8] {
        self.message
    }

    /// Whose signature it is to be.
    pub fn signer(&self) -> Participant {
        self.attestation.signer
    }

    /// The signature.
    pub fn signature(&self) -> &'a G {
        &self.attestation.signature
    }

    /// Both together.
    pub fn attestation(&self) -> &'a Attestation<G> {
        self.attestation
    }
}
