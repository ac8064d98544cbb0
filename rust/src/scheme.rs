//! What a user brings: signatures and certificates.

use crate::messages::{Attestation, Subject};
use crate::positions::Set;

/// Signatures and certificates, for one set of participants.
///
/// What is proved of a round is proved for every scheme, so it holds of this one, on conditions
/// that `docs/RUST.md` lists. The first is that what it says of an attestation depends on the
/// subject, the signer and the signature alone. A round keeps the first verdict on each.
///
/// Where the scheme is batchable, a round asks for verdicts only when a quorum is possible, and for
/// many at once; else as soon as a vote counts. Batchable is the default, and that a scheme doesn't
/// aggregate.
///
/// ```
/// use batcher::{Attestation, Scheme, Set, Subject};
///
/// /// A signature is its signer's index beside the kind, which protects nothing.
/// struct Toy(Set<&'static str>);
///
/// impl Scheme for Toy {
///     type PublicKey = &'static str;
///     type Signature = [u8; 2];
///     type Certificate = Vec<Attestation<Self::Signature>>;
///
///     fn participants(&self) -> &Set<&'static str> {
///         &self.0
///     }
///
///     fn keys(&self) -> [u8; 32] {
///         // There is one list of keys here. Else it is the hash of theirs.
///         [0; 32]
///     }
///
///     fn verify_attestations(
///         &self,
///         subject: &Subject,
///         attestations: &[Attestation<Self::Signature>],
///     ) -> Vec<bool> {
///         let signed = |it: &Attestation<_>| [it.signer.get() as u8, subject.kind() as u8];
///         let is_good = |it: &Attestation<_>| it.signature == signed(it);
///         attestations.iter().map(is_good).collect()
///     }
///
///     fn assemble(
///         &self,
///         _: &Subject,
///         attestations: &[Attestation<Self::Signature>],
///     ) -> Self::Certificate {
///         attestations.to_vec()
///     }
///
///     fn verify_certificate(&self, subject: &Subject, certificate: &Self::Certificate) -> bool {
///         // A quorum, of which no two are by one signer,
///         certificate.len() >= batcher::quorum(self.0.len()) as usize
///             && certificate.windows(2).all(|pair| pair[0].signer < pair[1].signer)
///             // each by a participant,
///             && certificate.iter().all(|it| self.0.key(it.signer).is_some())
///             // and all of which attest.
///             && self.verify_attestations(subject, certificate).into_iter().all(|attests| attests)
///     }
///
///     fn certificate_bytes(&self, certificate: &Self::Certificate) -> impl AsRef<[u8]> {
///         certificate.iter().flat_map(|it| it.signature).collect::<Vec<_>>()
///     }
/// }
///
/// let toy = Toy(Set::new(vec!["ada", "ben", "cyd", "dot"])?);
/// let subject = Subject::Nullify {
///     round: batcher::positions::Round::new(batcher::Epoch(0), batcher::View(1)),
/// };
/// let by = |signers: std::ops::Range<u32>| -> Vec<_> {
///     let signed = |it| [it as u8, subject.kind() as u8];
///     let sign = |it| Attestation::new(batcher::Participant(it), signed(it));
///     signers.map(sign).collect()
/// };
/// assert!(toy.verify_certificate(&subject, &by(0..3)));
/// // Whoever isn't a participant counts for nothing.
/// assert!(!toy.verify_certificate(&subject, &by(4..7)));
/// # Ok::<(), batcher::SetFault>(())
/// ```
pub trait Scheme {
    /// Who a participant is to the network.
    type PublicKey: Ord;

    /// A signature: at most 96 bytes, as [`AsRef`] gives them, of which [`TryFrom`] makes it again.
    /// An array of bytes is one as it is. Signatures with the same bytes are equal: a sender whose
    /// second vote differs from its first in a byte is blocked.
    type Signature: Clone + AsRef<[u8]> + for<'b> TryFrom<&'b [u8]>;

    /// What a quorum of attestations makes.
    type Certificate;

    /// Whether what is assembled of attestations that passed always certifies, as where a
    /// certificate is the list of them. By default that isn't known: then a certificate that was
    /// assembled is verified before it is handed out.
    const ASSEMBLED_CERTIFIES: bool = false;

    /// The keys of the participants. They are the same at each call.
    fn participants(&self) -> &Set<Self::PublicKey>;

    /// Bytes that distinguish the list of their keys from each other list of which there is a scheme
    /// in the process, as its hash does. What is proved is of verdicts by these keys.
    fn keys(&self) -> [u8; 32];

    /// Whether it pays to wait for a quorum before attestations are verified, which is so by
    /// default. A round asks when it is made.
    fn is_batchable(&self) -> bool {
        true
    }

    /// Whether a quorum may be verified as a whole, as where signatures are aggregated. By default
    /// it isn't. A round asks when it is made. Where this is true, [`Scheme::verify_together`] is
    /// asked first, and `verify_attestations` only where that says no.
    fn aggregates(&self) -> bool {
        false
    }

    /// Of each attestation, in order, whether it attests to the subject. They may be verified
    /// together, but what is said of one has nothing to do with the others. Where a round asks,
    /// their signers are participants. `verify_certificate` has to see to that by itself.
    fn verify_attestations(
        &self,
        subject: &Subject,
        attestations: &[Attestation<Self::Signature>],
    ) -> Vec<bool>;

    /// Whether a quorum of attestations passes as a whole, which is enough to make a certificate of
    /// it. The first `verified` of them are known to attest. Where all attest it says so. By
    /// default it asks `verify_attestations` about the others.
    fn verify_together(
        &self,
        subject: &Subject,
        attestations: &[Attestation<Self::Signature>],
        verified: usize,
    ) -> bool {
        let unknown = &attestations[verified..];
        let verdicts = self.verify_attestations(subject, unknown);
        verdicts.len() == unknown.len() && verdicts.into_iter().all(|attests| attests)
    }

    /// The certificate of a quorum of attestations, ascending by signer. Each attests, or they
    /// passed as a whole.
    fn assemble(
        &self,
        subject: &Subject,
        attestations: &[Attestation<Self::Signature>],
    ) -> Self::Certificate;

    /// Whether a certificate that came from elsewhere certifies the subject, by itself: it is made
    /// of a quorum of participants, each once, of whom each attests.
    /// [`Round::record_certificate`](crate::Round::record_certificate) asks.
    fn verify_certificate(&self, subject: &Subject, certificate: &Self::Certificate) -> bool;

    /// The bytes of a certificate, as of those that the network brings. A certificate that certifies
    /// has other bytes than one that doesn't.
    fn certificate_bytes(&self, certificate: &Self::Certificate) -> impl AsRef<[u8]>;
}
