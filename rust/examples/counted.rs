//! Plays rounds for `tools/instructions`, which counts their instructions: each is a row of the
//! benchmark, in which n participants notarize, a certificate is made, they finalize, and another
//! is made. Nothing is printed.
//!
//! usage: counted ROUNDS PARTICIPANTS BYTES COURSE
//!
//! `made` makes the rounds and drops them, `added` hands in the votes too, and `constructed` makes
//! the certificates too. `validator` plays as many views of a validator, which leads each of them, and
//! does all that it gives to be done; what is written goes nowhere. In `notarized` and `nullified`
//! no view is final: in the first each is notarized, and in the second each proposal is bad. In
//! `passed` each view is given up by the others, before it votes. It leads every other view.

use batcher::positions::Round as Number;
use batcher::validator::{Options, Task, Validator};
use batcher::{
    Attestation, Epoch, Participant, Proposal, Round, Scheme, Set, Sha256Digest, Subject, View,
    Vote,
};
use std::hint::black_box;
use std::sync::Arc;

const NUMBER: Number = Number::new(Epoch::zero(), View::new(1));

/// A scheme whose signatures cost nothing to verify.
struct Trusting<const BYTES: usize>(Set<u32>);

impl<const BYTES: usize> Scheme for Trusting<BYTES> {
    type PublicKey = u32;
    type Signature = [u8; BYTES];
    type Certificate = usize;

    fn participants(&self) -> &Set<u32> {
        &self.0
    }

    fn keys(&self) -> [u8; 32] {
        [0; 32]
    }

    fn verify_attestations(
        &self,
        _: &Subject,
        attestations: &[Attestation<[u8; BYTES]>],
    ) -> Vec<bool> {
        vec![true; attestations.len()]
    }

    fn assemble(&self, _: &Subject, attestations: &[Attestation<[u8; BYTES]>]) -> usize {
        attestations.len()
    }

    fn verify_certificate(&self, _: &Subject, certificate: &usize) -> bool {
        *certificate >= batcher::quorum(self.0.len()) as usize
    }

    fn certificate_bytes(&self, certificate: &usize) -> impl AsRef<[u8]> {
        certificate.to_be_bytes()
    }
}

fn vote<const BYTES: usize>(signer: u32, subject: Subject) -> Vote<[u8; BYTES]> {
    let mut signature = [7; BYTES];
    signature[..4].copy_from_slice(&signer.to_be_bytes());
    Vote::new(
        subject,
        Attestation::new(Participant::new(signer), signature),
    )
}

fn play<const BYTES: usize>(rounds: u32, participants: u32, adds: bool, constructs: bool) {
    let keys = Set::new((0..participants).collect()).expect("keys differ");
    let scheme = Arc::new(Trusting::<BYTES>(keys));
    let proposal = Proposal::new(NUMBER, View::zero(), Sha256Digest([7; 32]));
    let votes = [
        Subject::Notarize { proposal },
        Subject::Finalize { proposal },
    ]
    .map(|subject| {
        let each = (0..participants).map(|signer| vote(signer, subject));
        each.collect::<Vec<_>>()
    });
    for _ in 0..rounds {
        let mut round = Round::new(NUMBER, scheme.clone(), true).expect("participants are there");
        round
            .set_leader(Participant::new(0))
            .expect("it takes part");
        for votes in &votes {
            for vote in votes.iter().filter(|_| adds) {
                let sender = vote.signer().get();
                let admission = round.add_network(&sender, vote);
                black_box(&admission);
                assert!(
                    matches!(&admission, Ok(it) if it.added),
                    "each is the first"
                );
            }
            if constructs {
                let batch = round.try_construct().expect("memory is there");
                let certificate = batch.and_then(|it| it.certificate);
                assert_eq!(
                    certificate.map(|it| *it.content()),
                    Some(participants as usize)
                );
            }
        }
    }
}

/// A validator without anything, in epoch 0.
fn begun<const BYTES: usize>(
    participants: u32,
    leader: fn(View) -> Participant,
) -> Validator<[u8; BYTES]> {
    let options = Options {
        epoch: Epoch::zero(),
        me: Participant::new(0),
        participants,
        keys: [0; 32],
        namespace: b"counted",
        ahead: 4,
        track_historical_votes: true,
    };
    Validator::begin(&options, leader).expect("memory is there")
}

/// Writes nowhere, and signs and verifies at no cost. Nothing else is left undone here.
fn attend<const BYTES: usize>(validator: &mut Validator<[u8; BYTES]>, task: Task<[u8; BYTES]>) {
    match task {
        Task::Write(write) => {
            validator
                .wrote(black_box(write))
                .expect("it is of this one");
        }
        Task::Sign(subject) => {
            let own = vote::<BYTES>(0, subject);
            let signature = &own.attestation().signature;
            let _ = validator
                .signed(subject, signature, |_| vec![true])
                .expect("memory is there");
        }
        Task::Verify(wanted) => {
            let verdicts = vec![true; wanted.attestations().len()];
            validator
                .conclude(&wanted, &verdicts)
                .expect("memory is there");
        }
        _ => {}
    }
}

/// It hears this vote of each of the others.
fn hear_all<const BYTES: usize>(
    validator: &mut Validator<[u8; BYTES]>,
    participants: u32,
    subject: Subject,
) {
    for signer in 1..participants {
        hear(validator, signer, subject);
    }
}

fn hear<const BYTES: usize>(validator: &mut Validator<[u8; BYTES]>, signer: u32, subject: Subject) {
    let vote = vote(signer, subject);
    let heard = validator.vote(vote.signer(), &vote);
    black_box(heard.expect("memory is there"));
}

fn payload(view: View) -> Sha256Digest {
    Sha256Digest([view.get() as u8; 32])
}

/// A validator hears the votes of all others in each view, until so many are final.
fn play_validator<const BYTES: usize>(views: u64, participants: u32) {
    let mut validator = begun::<BYTES>(participants, |_| Participant::new(0));
    let mut last = 0;
    while last < views {
        match validator
            .poll()
            .expect("memory is there")
            .expect("it goes on")
        {
            Task::Propose { view, parent } => validator.propose(view, parent, payload(view)),
            Task::SendVote(own) => hear_all(&mut validator, participants, own.subject()),
            Task::Final(proposal) => last = proposal.round.view.get(),
            Task::Judge(_) | Task::Block(..) => unreachable!("all are honest, and it leads"),
            task => attend(&mut validator, task),
        }
    }
}

/// How views end without one that is final.
#[derive(Clone, Copy, PartialEq)]
enum Stall {
    /// Each is notarized, and nobody else votes to finalize it.
    Notarized,
    /// Each proposal is bad, so all vote to nullify its view.
    Nullified,
    /// The others have voted to nullify it before.
    Passed,
}

/// A validator hears the votes of all others in each view, until it is in so many.
fn play_stall<const BYTES: usize>(views: u64, participants: u32, stall: Stall) {
    let mut validator = begun::<BYTES>(participants, |view| {
        Participant::new((view.get() % 2) as u32)
    });
    let are_good = stall == Stall::Notarized;
    let proposal = |view: View, parent: View| {
        Proposal::new(Number::new(Epoch::zero(), view), parent, payload(view))
    };
    loop {
        match validator
            .poll()
            .expect("memory is there")
            .expect("it goes on")
        {
            Task::Enter { view, .. } if view.get() > views => return,
            Task::Enter { view, .. } if stall == Stall::Passed => {
                let round = Number::new(Epoch::zero(), view);
                hear_all(&mut validator, participants, Subject::Nullify { round });
            }
            // It leads the even views.
            Task::Enter { view, .. } if view.get() % 2 == 1 => {
                let parent = View::new(if are_good { view.get() - 1 } else { 0 });
                let proposal = proposal(view, parent);
                hear(&mut validator, 1, Subject::Notarize { proposal });
            }
            Task::Propose { .. } if stall == Stall::Passed => {}
            Task::Propose { view, parent } if are_good => {
                validator.propose(view, parent, payload(view));
            }
            Task::Propose { view, parent } => validator.judge(&proposal(view, parent), false),
            Task::Judge(proposal) => validator.judge(&proposal, are_good),
            Task::SendVote(own) => match own.subject() {
                Subject::Finalize { .. } => {}
                subject => hear_all(&mut validator, participants, subject),
            },
            Task::Final(_) | Task::Block(..) => unreachable!("none is final, and all are honest"),
            task => attend(&mut validator, task),
        }
    }
}

fn main() {
    let words: Vec<_> = std::env::args().skip(1).collect();
    let [rounds, participants, bytes, phase] = &words[..] else {
        panic!("usage: counted ROUNDS PARTICIPANTS BYTES COURSE");
    };
    let number = |word: &str| word.parse::<u32>().expect("a number");
    let (views, others) = (number(rounds).into(), number(participants));
    match (&phase[..], &bytes[..]) {
        ("validator", "8") => return play_validator::<8>(views, others),
        ("validator", "64") => return play_validator::<64>(views, others),
        ("notarized", "64") => return play_stall::<64>(views, others, Stall::Notarized),
        ("nullified", "64") => return play_stall::<64>(views, others, Stall::Nullified),
        ("passed", "64") => return play_stall::<64>(views, others, Stall::Passed),
        _ => {}
    }
    let (adds, constructs) = match &phase[..] {
        "made" => (false, false),
        "added" => (true, false),
        "constructed" => (true, true),
        other => panic!("{other} isn't played, or not with so many bytes"),
    };
    match &bytes[..] {
        "8" => play::<8>(number(rounds), number(participants), adds, constructs),
        "64" => play::<64>(number(rounds), number(participants), adds, constructs),
        other => panic!("signatures of {other} bytes aren't played"),
    }
}
