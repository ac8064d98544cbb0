// A scheme for tests and examples, which protects nothing: a signature says itself what it signs.
// It is included, so it names everything by its path.

/// A signature: its signer and what it signs, as numbers, and whether it is good.
pub type Signature = [u8; 7];

pub const KEYS: [&str; 7] = ["ada", "ben", "cyd", "dot", "eve", "fay", "gus"];

pub const ROUND: batcher::positions::Round =
    batcher::positions::Round::new(batcher::Epoch::new(0), batcher::View::new(1));

#[derive(Debug)]
pub struct Toy {
    participants: batcher::Set<&'static str>,
    pub batchable: bool,
    pub aggregates: bool,
    /// How many batches were verified, how many attestations in all, and how many quorums as a
    /// whole.
    pub counts: [std::sync::atomic::AtomicUsize; 3],
}

#[allow(dead_code)]
impl Toy {
    /// The scheme of the first so many keys.
    pub fn new(count: usize) -> std::sync::Arc<Self> {
        Toy::with(count, true, false)
    }

    pub fn with(count: usize, batchable: bool, aggregates: bool) -> std::sync::Arc<Self> {
        std::sync::Arc::new(Toy {
            participants: batcher::Set::new(KEYS[..count].to_vec()).unwrap(),
            batchable,
            aggregates,
            counts: Default::default(),
        })
    }

    pub fn counted(&self) -> [usize; 3] {
        self.counts
            .each_ref()
            .map(|it| it.load(std::sync::atomic::Ordering::SeqCst))
    }

    fn count(&self, place: usize, more: usize) {
        self.counts[place].fetch_add(more, std::sync::atomic::Ordering::SeqCst);
    }
}

pub fn sign(subject: &batcher::Subject, signer: u32) -> Signature {
    let [a, b, c, d] = signer.to_be_bytes();
    let payload = subject.proposal().map_or(0, |it| it.payload.0[0]);
    [a, b, c, d, subject.kind() as u8, payload, 1]
}

pub fn attests(subject: &batcher::Subject, it: &batcher::Attestation<Signature>) -> bool {
    it.signature == sign(subject, it.signer.get())
}

impl batcher::Scheme for Toy {
    type PublicKey = &'static str;
    type Signature = Signature;
    type Certificate = Vec<batcher::Attestation<Signature>>;

    fn participants(&self) -> &batcher::Set<&'static str> {
        &self.participants
    }

    fn keys(&self) -> [u8; 32] {
        [self.participants.len() as u8; 32]
    }

    fn is_batchable(&self) -> bool {
        self.batchable
    }

    fn aggregates(&self) -> bool {
        self.aggregates
    }

    fn verify_attestations(
        &self,
        subject: &batcher::Subject,
        attestations: &[batcher::Attestation<Signature>],
    ) -> Vec<bool> {
        self.count(0, 1);
        self.count(1, attestations.len());
        attestations.iter().map(|it| attests(subject, it)).collect()
    }

    fn verify_together(
        &self,
        subject: &batcher::Subject,
        attestations: &[batcher::Attestation<Signature>],
        _: usize,
    ) -> bool {
        self.count(2, 1);
        attestations.iter().all(|it| attests(subject, it))
    }

    fn assemble(
        &self,
        _: &batcher::Subject,
        attestations: &[batcher::Attestation<Signature>],
    ) -> Self::Certificate {
        attestations.to_vec()
    }

    fn verify_certificate(
        &self,
        subject: &batcher::Subject,
        certificate: &Self::Certificate,
    ) -> bool {
        certificate.len() >= batcher::quorum(self.participants.len()) as usize
            && certificate
                .windows(2)
                .all(|pair| pair[0].signer < pair[1].signer)
            && certificate
                .iter()
                .all(|it| self.participants.key(it.signer).is_some() && attests(subject, it))
    }

    fn certificate_bytes(&self, certificate: &Self::Certificate) -> impl AsRef<[u8]> {
        certificate
            .iter()
            .flat_map(|it| it.signature)
            .collect::<Vec<_>>()
    }
}

/// The certificate of the participants in a range, which certifies where they are a quorum.
#[allow(dead_code)]
pub fn certificate(
    subject: batcher::Subject,
    signers: std::ops::Range<u32>,
) -> batcher::Certificate<Vec<batcher::Attestation<Signature>>> {
    let attestations = signers.map(|signer| *vote(subject, signer).attestation());
    batcher::Certificate::new(subject, attestations.collect())
}

/// A good vote.
#[allow(dead_code)]
pub fn vote(subject: batcher::Subject, signer: u32) -> batcher::Vote<Signature> {
    let signature = sign(&subject, signer);
    let signer = batcher::Participant::new(signer);
    batcher::Vote::new(subject, batcher::Attestation::new(signer, signature))
}

/// The same vote with a signature that is none.
#[allow(dead_code)]
pub fn bad(vote: batcher::Vote<Signature>) -> batcher::Vote<Signature> {
    let mut attestation = *vote.attestation();
    attestation.signature[6] = 0;
    batcher::Vote::new(vote.subject(), attestation)
}

#[allow(dead_code)]
pub fn proposal(payload: u8) -> batcher::Proposal {
    let payload = batcher::Sha256Digest([payload; 32]);
    batcher::Proposal::new(ROUND, batcher::View::zero(), payload)
}

#[allow(dead_code)]
pub fn notarize(signer: u32, payload: u8) -> batcher::Vote<Signature> {
    vote(
        batcher::Subject::Notarize {
            proposal: proposal(payload),
        },
        signer,
    )
}

#[allow(dead_code)]
pub fn nullify(signer: u32) -> batcher::Vote<Signature> {
    vote(batcher::Subject::Nullify { round: ROUND }, signer)
}

#[allow(dead_code)]
pub fn finalize(signer: u32, payload: u8) -> batcher::Vote<Signature> {
    vote(
        batcher::Subject::Finalize {
            proposal: proposal(payload),
        },
        signer,
    )
}
