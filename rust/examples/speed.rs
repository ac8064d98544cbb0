//! Prints what calls through the crate take, with signatures of 64 bytes that cost nothing to
//! verify. `docs/RUST.md` has the figures.

use batcher::positions::Round as Number;
use batcher::thread::Host;
use batcher::{Attestation, Epoch, Mode, Participant, Round, Scheme, Set, Subject, View, Vote};
use std::hint::black_box;
use std::sync::Arc;
use std::time::{Duration, Instant};

type Signature = [u8; 64];

const NUMBER: Number = Number::new(Epoch::zero(), View::new(1));

struct Trusting(Set<u32>);

impl Scheme for Trusting {
    type PublicKey = u32;
    type Signature = Signature;
    type Certificate = usize;

    fn participants(&self) -> &Set<u32> {
        &self.0
    }

    fn keys(&self) -> [u8; 32] {
        [0; 32]
    }

    fn verify_attestations(
        &self,
        _: &Subject,
        attestations: &[Attestation<Signature>],
    ) -> Vec<bool> {
        vec![true; attestations.len()]
    }

    fn assemble(&self, _: &Subject, attestations: &[Attestation<Signature>]) -> usize {
        attestations.len()
    }

    fn verify_certificate(&self, _: &Subject, certificate: &usize) -> bool {
        *certificate >= batcher::quorum(self.0.len()) as usize
    }

    fn certificate_bytes(&self, certificate: &usize) -> impl AsRef<[u8]> {
        certificate.to_be_bytes()
    }
}

fn scheme(participants: u32) -> Arc<Trusting> {
    Arc::new(Trusting(
        Set::new((0..participants).collect()).expect("keys differ"),
    ))
}

fn vote(signer: u32) -> Vote<Signature> {
    let mut signature = [7; 64];
    signature[..4].copy_from_slice(&signer.to_be_bytes());
    Vote::new(
        Subject::Nullify { round: NUMBER },
        Attestation::new(Participant::new(signer), signature),
    )
}

/// The shortest of a few times, in nanoseconds for each of so many.
fn shortest(of: u32, mut once: impl FnMut() -> Duration) -> f64 {
    let least = (0..20).map(|_| once()).min().unwrap_or_default();
    least.as_nanos() as f64 / f64::from(of)
}

fn rounds(participants: u32) {
    let scheme = scheme(participants);
    let votes: Vec<_> = (0..participants)
        .map(|signer| (signer, vote(signer)))
        .collect();
    // Enough rounds at once that a clock's tick is small beside them.
    let count = 1 + 20_000 / participants;
    let make = || -> Vec<_> {
        let round = || Round::in_mode(NUMBER, scheme.clone(), Mode::Releasing).unwrap();
        (0..count).map(|_| round()).collect()
    };
    let hear = |round: &mut Round<Trusting>| {
        for (sender, vote) in &votes {
            let _ = black_box(round.add_network(sender, vote).unwrap());
        }
    };
    let made = shortest(count, || {
        let begin = Instant::now();
        let rounds = make();
        let took = begin.elapsed();
        drop(rounds);
        took
    });
    let added = shortest(count * participants, || {
        let mut rounds = make();
        let begin = Instant::now();
        rounds.iter_mut().for_each(hear);
        begin.elapsed()
    });
    let repeated = shortest(count * participants, || {
        let mut rounds = make();
        rounds.iter_mut().for_each(hear);
        let begin = Instant::now();
        rounds.iter_mut().for_each(hear);
        begin.elapsed()
    });
    let constructed = shortest(count * participants, || {
        let mut rounds = make();
        rounds.iter_mut().for_each(hear);
        let begin = Instant::now();
        for round in &mut rounds {
            black_box(round.try_construct().unwrap());
        }
        begin.elapsed()
    });
    println!("{participants:12} {made:9.0} {added:9.0} {repeated:9.0} {constructed:12.0}");
}

fn mailboxes(participants: u32) {
    let scheme = scheme(participants);
    let host = Host::new().expect("a thread");
    let start = || {
        let scheme = scheme.clone();
        host.start(move || Round::in_mode(NUMBER, scheme, Mode::Releasing))
            .expect("a thread")
            .expect("a round")
    };
    let alone = shortest(participants, || {
        let mailbox = start();
        let begin = Instant::now();
        for signer in 0..participants {
            let _ = black_box(
                mailbox
                    .call(move |round| round.add_network(&signer, &vote(signer)))
                    .unwrap()
                    .unwrap(),
            );
        }
        begin.elapsed()
    });
    let posted = shortest(participants, || {
        let mailbox = start();
        let begin = Instant::now();
        let replies: Vec<_> = (0..participants)
            .map(|signer| mailbox.ask(move |round| round.add_network(&signer, &vote(signer))))
            .collect();
        for reply in replies {
            let _ = black_box(reply.wait().unwrap().unwrap());
        }
        begin.elapsed()
    });
    let together = shortest(participants, || {
        let mailbox = start();
        let begin = Instant::now();
        let all = move |round: &mut Round<Trusting>| {
            for signer in 0..participants {
                let _ = black_box(round.add_network(&signer, &vote(signer)).unwrap());
            }
        };
        mailbox.call(all).unwrap();
        begin.elapsed()
    });
    println!("{participants:12} {alone:9.0} {posted:9.0} {together:9.0}");
}

fn main() {
    println!("Nanoseconds, the shortest of 20 runs. Of a construction for each vote in it.");
    println!("participants      made     added  repeated  constructed");
    [4, 10, 100, 1000].into_iter().for_each(rounds);
    println!();
    println!("The same added through a mailbox: one call for each vote,");
    println!("all asked for and then waited for, and one call for all.");
    println!("participants     alone    posted  together");
    [10, 100, 1000].into_iter().for_each(mailboxes);
}
