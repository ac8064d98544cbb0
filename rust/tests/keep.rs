//! What can't be kept for the disk isn't learned: a validator whose vote rests on a certificate has
//! that certificate on its disk, whichever request for memory was refused.

mod refusing;
mod shared;
mod toy;

use batcher::positions::Round;
use batcher::validator::{Listed, Task, Validator};
use batcher::{Certificate, Epoch, Participant, Proposal, Sha256Digest, Subject, View};
use refusing::{again, each_refused_in_turn, uncounted};
use shared::{options, put, verdicts};
use toy::{Signature, sign};

const LEADER: Participant = Participant::new(1);

fn proposal() -> Proposal {
    Proposal {
        round: Round::new(Epoch::zero(), View::new(1)),
        parent: View::zero(),
        payload: Sha256Digest([7; 32]),
    }
}

/// A certificate of the subject, listed as a validator makes it.
fn listed(subject: Subject, signers: [u32; 3]) -> Listed {
    let mut bytes = 3_u64.to_be_bytes().to_vec();
    for signer in signers {
        let signature = sign(&subject, signer);
        bytes.extend(signer.to_be_bytes());
        bytes.push(signature.len() as u8);
        bytes.extend(signature);
        bytes.extend(vec![0; 96 - signature.len()]);
    }
    Certificate::new(subject, bytes)
}

/// Does all that is to be done, with each request for memory of it granted, and gives what is for
/// others.
fn go_on(running: &mut Validator<Signature>, disk: &mut Vec<u8>, me: u32) -> Vec<Task<Signature>> {
    let mut given = Vec::new();
    while let Some(task) = running.poll().unwrap() {
        match task {
            Task::Write(write) => {
                put(disk, &write);
                running.wrote(write).unwrap();
            }
            Task::Sign(subject) => {
                let signature = sign(&subject, me);
                let _ = running.signed(subject, &signature, verdicts).unwrap();
                given.push(Task::Sign(subject));
            }
            Task::Verify(wanted) => {
                running.conclude(&wanted, &verdicts(&wanted)).unwrap();
            }
            other => given.push(other),
        }
    }
    given
}

/// Whether one of these is to sign such a subject.
fn signs(given: &[Task<Signature>], is_it: impl Fn(&Subject) -> bool) -> bool {
    given
        .iter()
        .any(|task| matches!(task, Task::Sign(subject) if is_it(subject)))
}

fn is_finalize(subject: &Subject) -> bool {
    matches!(subject, Subject::Finalize { .. })
}

/// The power goes, and it is started again by its disk.
fn starts_again(disk: &mut Vec<u8>) -> Validator<Signature> {
    let mut next = Validator::start(&options(0), |_: View| LEADER, disk, verdicts).unwrap();
    let _ = go_on(&mut next, disk, 0);
    next
}

/// One hears a notarization, finalizes, and is started again by its disk.
fn of_a_peer(granted: &mut Option<u32>) -> Vec<String> {
    let mut disk = Vec::new();
    let mut running = Validator::begin(&options(0), |_: View| LEADER).unwrap();
    let _ = go_on(&mut running, &mut disk, 0);
    let subject = Subject::Notarize {
        proposal: proposal(),
    };
    let certificate = listed(subject, [1, 2, 3]);
    let answer = again(granted, || {
        running.certificate(Participant::new(3), &certificate, |wanted| {
            uncounted(|| verdicts(wanted))
        })
    });
    let finalizes = signs(&go_on(&mut running, &mut disk, 0), is_finalize);
    let next = starts_again(&mut disk);
    let knows = next.certified(View::new(1)).is_some();
    vec![format!("{answer:?} {finalizes} {knows}")]
}

#[test]
fn what_a_vote_rests_on_is_on_the_disk() {
    each_refused_in_turn("a certificate of a peer", of_a_peer);
    assert_eq!(of_a_peer(&mut None), ["Ok(Answered(Recorded)) true true"]);
}

/// The same of one from beyond the window.
fn from_ahead(granted: &mut Option<u32>) -> Vec<String> {
    let mut disk = Vec::new();
    let mut running = Validator::begin(&options(0), |_: View| LEADER).unwrap();
    let _ = go_on(&mut running, &mut disk, 0);
    let round = Round::new(Epoch::zero(), View::new(40));
    let certificate = listed(Subject::Nullify { round }, [1, 2, 3]);
    let answer = again(granted, || {
        running.certificate(Participant::new(3), &certificate, |wanted| {
            uncounted(|| verdicts(wanted))
        })
    });
    let given = go_on(&mut running, &mut disk, 0).len();
    let first = listed(
        Subject::Notarize {
            proposal: proposal(),
        },
        [1, 2, 3],
    );
    let _ = running.certificate(Participant::new(3), &first, verdicts);
    let _ = go_on(&mut running, &mut disk, 0);
    let mut next = starts_again(&mut disk);
    let again = next.certificate(Participant::new(3), &certificate, verdicts);
    vec![format!("{answer:?} {given} {again:?}")]
}

#[test]
fn what_is_from_ahead_is_on_the_disk() {
    each_refused_in_turn("a certificate from ahead", from_ahead);
}

/// One makes a notarization of votes, finalizes, and is started again by its disk.
fn of_its_own(granted: &mut Option<u32>) -> Vec<String> {
    let mut disk = Vec::new();
    let mut running = Validator::begin(&options(0), |_: View| LEADER).unwrap();
    let _ = go_on(&mut running, &mut disk, 0);
    let subject = Subject::Notarize {
        proposal: proposal(),
    };
    for peer in 1..4 {
        let vote = toy::vote(subject, peer);
        running.vote(Participant::new(peer), &vote).unwrap();
    }
    let mut finalizes = false;
    let mut enters = Vec::new();
    while let Some(task) = running.poll().unwrap() {
        match task {
            Task::Write(write) => {
                put(&mut disk, &write);
                running.wrote(write).unwrap();
            }
            Task::Sign(subject) => {
                finalizes |= is_finalize(&subject);
                let signature = sign(&subject, 0);
                let verify = |wanted: &_| uncounted(|| verdicts(wanted));
                let signed = || running.signed(subject, &signature, verify);
                let _ = again(granted, signed).unwrap();
            }
            Task::Verify(wanted) => {
                let verdicts = verdicts(&wanted);
                again(granted, || running.conclude(&wanted, &verdicts)).unwrap();
            }
            Task::Judge(it) => running.judge(&it, true),
            Task::Enter { view, .. } => enters.push(view),
            _ => {}
        }
    }
    let next = starts_again(&mut disk);
    let knows = next.certified(View::new(1)).is_some();
    vec![format!("{finalizes} {enters:?} {knows}")]
}

#[test]
fn what_it_made_itself_is_on_the_disk() {
    each_refused_in_turn("a certificate of its own", of_its_own);
    assert!(of_its_own(&mut None)[0].ends_with("true"));
}
