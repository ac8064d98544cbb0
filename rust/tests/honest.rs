//! Whatever the others send and whatever is certified, who votes once for each thing and repeats
//! its votes as they are is never blocked; and who does more is blocked with evidence of its own
//! alone.

mod toy;

use batcher::{
    Attestation, Batch, Certificate, Mode, Outcome, Participant, Round, Scheme, Step, Subject,
    Vote, Wanted, WantedTogether, quorum,
};
use std::sync::Arc;
use toy::{KEYS, ROUND, Signature, Toy, bad, finalize, notarize, nullify};

/// What looks like chance, the same in each run of a seed.
struct Random(u64);

impl Random {
    fn below(&mut self, bound: u64) -> u64 {
        self.0 = self
            .0
            .wrapping_mul(6364136223846793005)
            .wrapping_add(1442695040888963407);
        (self.0 >> 33) % bound
    }

    fn is_one_in(&mut self, of: u64) -> bool {
        self.below(of) == 0
    }
}

/// The votes that one honest participant casts: two at most.
fn honest_votes(signer: u32, random: &mut Random) -> Vec<Vote<Signature>> {
    let payload = 1 + random.below(2) as u8;
    let last = match random.below(3) {
        0 => finalize(signer, payload),
        _ => nullify(signer),
    };
    vec![notarize(signer, payload), last]
}

fn any_vote(signer: u32, random: &mut Random) -> Vote<Signature> {
    let payload = 1 + random.below(3) as u8;
    let vote = match random.below(3) {
        0 => notarize(signer, payload),
        1 => nullify(signer),
        _ => finalize(signer, payload),
    };
    if random.is_one_in(3) { bad(vote) } else { vote }
}

fn any_subject(random: &mut Random) -> Subject {
    any_vote(0, random).subject()
}

/// What was handed out to be verified.
enum Waiting {
    Each(Wanted<Signature>),
    Together(WantedTogether<Signature>),
}

/// One round, in which 1, 2 and so on are honest, 0 is this node, and the last two are anything.
fn play(seed: u64) {
    let mut random = Random(seed);
    let count = 4 + random.below(4) as u32;
    let scheme = Toy::with(count as usize, !random.is_one_in(3), random.is_one_in(3));
    let mode = [Mode::Retaining, Mode::Releasing, Mode::Skipped][random.below(3) as usize];
    let mut round = Round::in_mode(ROUND, scheme.clone(), mode).unwrap();
    let honest: Vec<_> = (0..count - 2)
        .map(|signer| honest_votes(signer, &mut random))
        .collect();
    let mut waiting = Vec::new();
    for _ in 0..120 {
        match random.below(12) {
            0..4 => {
                // An honest one casts a vote, or repeats it.
                let signer = 1 + random.below(u64::from(count) - 3) as usize;
                let vote = honest[signer][random.below(2) as usize];
                let admission = round.add_network(&KEYS[signer], &vote).unwrap();
                assert_eq!(admission.block, None, "seed {seed}, {vote:?}");
            }
            4..7 => {
                // The others send what they like, in whose name they like.
                let sender = count - 1 - random.below(2) as u32;
                let signer = if random.is_one_in(3) {
                    random.below(9) as u32
                } else {
                    sender
                };
                let vote = any_vote(signer, &mut random);
                let answer = round.add_network(&KEYS[sender as usize], &vote).unwrap();
                if let Some(activity) = answer.report {
                    assert_eq!(activity.signer(), Participant::new(sender), "seed {seed}");
                }
            }
            7 => {
                let vote = honest[0][random.below(2) as usize];
                // Both of what a node casts once are added once.
                let _: Result<Outcome<_>, _> = round.accept_vote(&vote);
            }
            8 => {
                let certificate = Certificate::new(any_subject(&mut random), Vec::new());
                round.record_verified_certificate(&certificate).unwrap();
            }
            9 => {
                let _ = round.set_leader(Participant::new(random.below(u64::from(count)) as u32));
            }
            10 => match round.step().unwrap() {
                // The verdicts may come late.
                Step::Verify(wanted) => waiting.push(Waiting::Each(wanted)),
                Step::VerifyTogether(wanted) => waiting.push(Waiting::Together(wanted)),
                Step::Made(batch) => check(&scheme, batch, count),
                Step::Idle => {}
            },
            _ => hand_in(&mut round, &scheme, &mut waiting, &mut random),
        }
    }
    while let Some(batch) = round.try_construct().unwrap() {
        check(&scheme, batch, count);
    }
}

/// Whom a batch names has sent what doesn't attest, so it is none of the honest; and what a
/// certificate is made of attests.
fn check(scheme: &Toy, batch: Batch<Vec<Attestation<Signature>>>, count: u32) {
    assert!(batch.invalid.iter().all(|signer| signer.get() >= count - 2));
    if let Some(certificate) = batch.certificate {
        let attestations = certificate.content();
        assert!(attestations.len() >= quorum(count) as usize);
        assert!(
            attestations
                .windows(2)
                .all(|pair| pair[0].signer < pair[1].signer)
        );
        let verdicts = scheme.verify_attestations(&certificate.subject(), attestations);
        assert!(verdicts.into_iter().all(|attests| attests));
    }
}

fn hand_in(
    round: &mut Round<Toy>,
    scheme: &Arc<Toy>,
    waiting: &mut Vec<Waiting>,
    random: &mut Random,
) {
    if waiting.is_empty() {
        return;
    }
    match waiting.swap_remove(random.below(waiting.len() as u64) as usize) {
        Waiting::Each(wanted) => {
            let verdicts = scheme.verify_attestations(wanted.subject(), wanted.attestations());
            round.record_verdicts(&wanted, &verdicts).unwrap();
        }
        Waiting::Together(wanted) => {
            let (subject, attestations) = (wanted.subject(), wanted.attestations());
            let passes = scheme.verify_together(subject, attestations, wanted.verified());
            round.record_verdict_together(&wanted, passes).unwrap();
        }
    }
}

#[test]
fn the_honest_are_never_blocked() {
    for seed in 0..3_000 {
        play(seed);
    }
}
