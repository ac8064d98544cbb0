//! What runs have reached. A preset whose runs don't come to what it is for shows nothing.

macro_rules! marks {
    ($($name:ident: $what:literal,)+) => {
        /// What a run can come to.
        #[derive(Clone, Copy, Debug, PartialEq, Eq)]
        pub enum Mark {
            $($name,)+
        }

        impl Mark {
            pub const ALL: &[Mark] = &[$(Mark::$name,)+];

            pub fn what(self) -> &'static str {
                match self {
                    $(Mark::$name => $what,)+
                }
            }
        }
    };
}

marks! {
    CrashInWrite: "a crash between a write and its confirmation",
    CrashOfAll: "a restart of all",
    CrashAfterRefusal: "a crash right after memory was refused",
    BegunAgain: "one that begins again, since nothing was written",
    AskedAndWaited: "a question that waits for a write",
    ReplacedBehindAppend: "a replacement behind an append",
    SignedInWrite: "a signature that comes during a write",
    StaleAnswer: "an answer to what an earlier life asked",
    LateVerdicts: "verdicts that make nothing yet, or no more",
    FromAhead: "a certificate from beyond the window",
    Partition: "a partition that ends",
    BlockedFaulty: "a faulty one that is blocked",
    TwoProposals: "two proposals of a leader",
    Hoarded: "a certificate that some have alone",
    Junk: "junk",
    Forged: "a forged certificate",
    SignerErred: "a signature of one's own that doesn't attest",
    NextEpoch: "an epoch that is begun on new files",
    OtherEpoch: "a message of an epoch that is over",
    EpochEnded: "one that fell behind an epoch",
    Fork: "two final chains, which more faulty than may be can make",
    RefusedBegin: "memory refused in begin",
    RefusedStart: "memory refused in start",
    RefusedPoll: "memory refused in poll",
    RefusedVote: "memory refused in vote",
    RefusedCertificate: "memory refused in certificate",
    RefusedConclude: "memory refused in conclude",
    RefusedSigned: "memory refused in signed",
    RefusedKept: "memory refused in kept",
    RefusedAttestations: "memory refused in attestations",
    RefusedMessage: "memory refused in message",
    Crash: "a crash",
    Final: "a final view",
    Expired: "a timer that ended",
    GaveUp: "a view that is given up for its leader",
    Event: "an event",
}

/// How often each was come to.
#[derive(Clone)]
pub struct Reached([u64; Mark::ALL.len()]);

impl Reached {
    pub fn none() -> Self {
        Reached([0; Mark::ALL.len()])
    }

    pub fn note(&mut self, mark: Mark) {
        self.0[mark as usize] += 1;
    }

    pub fn times(&self, mark: Mark) -> u64 {
        self.0[mark as usize]
    }

    pub fn add(&mut self, other: &Reached) {
        for (sum, more) in self.0.iter_mut().zip(other.0) {
            *sum += more;
        }
    }
}
