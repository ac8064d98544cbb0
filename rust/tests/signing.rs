//! Own signatures are verified before they are written, and those of a disk before they are sent
//! again. A signer that errs, or doesn't answer, keeps its validator from nothing else.

mod shared;
mod toy;

use batcher::errors::SignError;
use batcher::positions::Round;
use batcher::validator::{Listed, Receipt, Signed, StartError, Task, Validator, Verdict, Wanted};
use batcher::{Epoch, Kind, Participant, Proposal, Sha256Digest, Subject, View, Vote};
use shared::{options, put, verdicts};
use toy::{Signature, attests, sign, vote};

fn leader(_: View) -> Participant {
    Participant::new(1)
}

fn round(view: u64) -> Round {
    Round::new(Epoch::zero(), View::new(view))
}

fn nullify(view: u64) -> Subject {
    Subject::Nullify { round: round(view) }
}

fn proposal(view: u64) -> Proposal {
    Proposal {
        round: round(view),
        parent: View::new(view - 1),
        payload: Sha256Digest([7; 32]),
    }
}

fn spoilt(subject: &Subject, signer: u32) -> Signature {
    let mut signature = sign(subject, signer);
    signature[6] = 0;
    signature
}

/// A validator, and what is on its disk.
struct Station {
    running: Validator<Signature>,
    disk: Vec<u8>,
}

impl Station {
    fn new(me: u32) -> Self {
        Station {
            running: Validator::begin(&options(me), leader).unwrap(),
            disk: Vec::new(),
        }
    }

    /// Does what is to be written and verified, and gives what else is to be done.
    fn go_on(&mut self) -> Vec<Task<Signature>> {
        let mut given = Vec::new();
        while let Some(task) = self.running.poll().unwrap() {
            match task {
                Task::Write(write) => {
                    put(&mut self.disk, &write);
                    self.running.wrote(write).unwrap();
                }
                Task::Verify(wanted) => {
                    self.running.conclude(&wanted, &verdicts(&wanted)).unwrap();
                }
                other => given.push(other),
            }
        }
        given
    }

    fn signed(&mut self, subject: Subject, signature: &Signature) -> Result<Signed, SignError> {
        self.running.signed(subject, signature, verdicts)
    }

    fn hear(&mut self, subject: Subject, signer: u32) {
        let heard = self
            .running
            .vote(Participant::new(signer), &vote(subject, signer));
        let _ = heard.unwrap();
    }
}

fn to_sign(given: &[Task<Signature>]) -> Vec<Subject> {
    let subject = |it: &Task<Signature>| match it {
        Task::Sign(subject) => Some(*subject),
        _ => None,
    };
    given.iter().filter_map(subject).collect()
}

fn to_send(given: &[Task<Signature>]) -> Vec<Vote<Signature>> {
    let vote = |it: &Task<Signature>| match it {
        Task::SendVote(vote) => Some(*vote),
        _ => None,
    };
    given.iter().filter_map(vote).collect()
}

fn made(given: Vec<Task<Signature>>) -> Option<Listed> {
    given.into_iter().find_map(|it| match it {
        Task::SendCertificate(made) => Some(made),
        _ => None,
    })
}

/// The station gives this to be signed once the time of view 1 is over.
fn given_up(station: &mut Station, times: usize) {
    let _ = station.running.expire(View::new(1));
    let given = station.go_on();
    assert_eq!(to_sign(&given), vec![nullify(1); times]);
}

#[test]
fn a_bad_signature_is_refused_and_asked_for_again() {
    let mut station = Station::new(0);
    let _ = station.go_on();
    given_up(&mut station, 1);
    let before = station.disk.clone();
    let bad = spoilt(&nullify(1), 0);
    for _ in 0..2 {
        assert_eq!(
            station.signed(nullify(1), &bad),
            Err(SignError::NotVerified)
        );
        // Nothing is written or sent, and it isn't asked for again at once.
        assert!(station.go_on().is_empty());
        assert_eq!(station.disk, before);
        given_up(&mut station, 1);
    }
    let signed = station.signed(nullify(1), &sign(&nullify(1), 0));
    assert_eq!(signed, Ok(Signed::Written));
    let sent = to_send(&station.go_on());
    assert_eq!(sent, [vote(nullify(1), 0)]);
    assert_ne!(station.disk, before);
    // Others take it, and so they take its certificate.
    let mut other = Station::new(1);
    let _ = other.go_on();
    other.hear(nullify(1), 0);
    for signer in 2..4 {
        other.hear(nullify(1), signer);
        station.hear(nullify(1), signer);
    }
    assert!(made(other.go_on()).is_some());
    let made = made(station.go_on()).expect("three are a quorum");
    let mut third = Station::new(2);
    let _ = third.go_on();
    let heard = third
        .running
        .certificate(Participant::new(0), &made, verdicts);
    assert_eq!(heard, Ok(Receipt::Answered(Verdict::Recorded)));
    given_up(&mut station, 0);
}

/// The station is to vote for the proposal of view 1.
fn to_notarize() -> Station {
    let mut station = Station::new(0);
    let _ = station.go_on();
    let subject = Subject::Notarize {
        proposal: proposal(1),
    };
    station.hear(subject, 1);
    let _ = station.go_on();
    station.running.judge(&proposal(1), true);
    assert_eq!(to_sign(&station.go_on()), [subject]);
    station
}

#[test]
fn what_is_signed_is_of_the_namespace() {
    let station = Station::new(0);
    let nullify = [
        &[0, 0, 0, 0, 0, 0, 0, 5][..],
        b"tests",
        &[1],
        &[0; 15],
        &[3],
    ]
    .concat();
    assert_eq!(station.running.message(&self::nullify(3)), Ok(nullify));
    let finalize = Subject::Finalize {
        proposal: proposal(3),
    };
    let message = station.running.message(&finalize).unwrap();
    let end = [&[0; 15][..], &[3], &[0; 7], &[2], &[7; 32]].concat();
    assert_eq!(message[13], 2);
    assert_eq!(message[14..], end);
}

#[test]
fn says_how_far_a_view_is_and_changes_nothing() {
    let begun = Validator::<Signature>::begin(&options(0), leader).unwrap();
    assert_eq!(
        (begun.view(), begun.last_final()),
        (View::zero(), View::zero())
    );
    let mut station = to_notarize();
    let before = station.disk.clone();
    let progress = station.running.progress(View::new(1));
    assert_eq!(progress.leader, Some(Participant::new(1)));
    assert!(progress.has_proposal);
    assert_eq!(progress, station.running.progress(View::new(1)));
    assert!(station.go_on().is_empty());
    assert_eq!(station.disk, before);
    let running = &station.running;
    assert_eq!(
        (running.view(), running.last_final()),
        (View::new(1), View::zero())
    );
    assert!(!running.blocked(Participant::new(1)) && !running.blocked(Participant::new(99)));
    assert_eq!(progress, station.running.expire(View::new(1)));
}

#[test]
fn another_is_signed_meanwhile() {
    let mut station = to_notarize();
    let subject = Subject::Notarize {
        proposal: proposal(1),
    };
    let bad = spoilt(&subject, 0);
    assert_eq!(station.signed(subject, &bad), Err(SignError::NotVerified));
    assert!(station.go_on().is_empty());
    // It is invalid after all, so its view is given up, before the time is over.
    station.running.judge(&proposal(1), false);
    assert_eq!(to_sign(&station.go_on()), [nullify(1)]);
}

#[test]
fn a_sign_that_isnt_answered_keeps_no_view() {
    let mut station = to_notarize();
    for _ in 0..3 {
        given_up(&mut station, 1);
    }
    let signed = station.signed(nullify(1), &sign(&nullify(1), 0));
    assert_eq!(signed, Ok(Signed::Written));
    assert_eq!(to_send(&station.go_on()).len(), 1);
    // Neither does one that comes late.
    let subject = Subject::Notarize {
        proposal: proposal(1),
    };
    let signed = station.signed(subject, &sign(&subject, 0));
    assert_ne!(signed, Ok(Signed::Written));
    let _ = station.go_on();
}

/// The disk of one who voted to finalize what is notarized.
fn written() -> Vec<u8> {
    let mut station = to_notarize();
    let [notarize, finalize] = subjects();
    let signed = station.signed(notarize, &sign(&notarize, 0));
    assert_eq!(signed, Ok(Signed::Written));
    station.hear(notarize, 2);
    let given = station.go_on();
    assert_eq!(to_sign(&given), [finalize]);
    assert!(made(given).is_some());
    let signed = station.signed(finalize, &sign(&finalize, 0));
    assert_eq!(signed, Ok(Signed::Written));
    assert_eq!(to_send(&station.go_on()).len(), 1);
    station.disk
}

fn subjects() -> [Subject; 2] {
    let proposal = proposal(1);
    [
        Subject::Notarize { proposal },
        Subject::Finalize { proposal },
    ]
}

#[test]
fn a_disk_is_verified() {
    let disk = written();
    let [notarize, finalize] = subjects();
    let mut asked = Vec::new();
    let mut started = Validator::start(&options(0), leader, &disk, |wanted| {
        asked.push((*wanted.subject(), wanted.attestations().len()));
        verdicts(wanted)
    })
    .unwrap();
    assert_eq!(asked, [(notarize, 1), (finalize, 1), (notarize, 3)]);
    let mut given = Vec::new();
    while let Some(task) = started.poll().unwrap() {
        if let Task::Verify(wanted) = &task {
            started.conclude(wanted, &verdicts(wanted)).unwrap();
        }
        given.push(task);
    }
    assert_eq!(to_send(&given), [vote(notarize, 0), vote(finalize, 0)]);
    assert_eq!(made(given).map(|it| it.kind()), Some(Kind::Notarization));
}

#[test]
fn a_bad_signature_of_a_disk_is_an_error() {
    let disk = written();
    // The own vote's is bad, or one of the certificate.
    for count in [1, 3] {
        let refuses = |wanted: &Wanted<Signature>| {
            let mut verdicts = verdicts(wanted);
            if verdicts.len() == count {
                verdicts[count - 1] = false;
            }
            verdicts
        };
        let started = Validator::start(&options(0), leader, &disk, refuses);
        assert_eq!(started.err(), Some(StartError::NotVerified));
    }
    // Wherever a bit is turned, nothing is sent that doesn't attest.
    let mut refused = 0;
    for place in 0..disk.len() {
        let mut spoilt = disk.clone();
        spoilt[place] ^= 1;
        let mut started = match Validator::start(&options(0), leader, &spoilt, verdicts) {
            Ok(started) => started,
            Err(error) => {
                refused += usize::from(error == StartError::NotVerified);
                continue;
            }
        };
        while let Some(task) = started.poll().unwrap() {
            match task {
                Task::SendVote(vote) => assert!(attests(&vote.subject(), vote.attestation())),
                Task::SendCertificate(made) => {
                    let wanted = started.attestations(&made).unwrap().expect("it is a list");
                    assert!(verdicts(&wanted).iter().all(|it| *it));
                }
                Task::Write(write) => started.wrote(write).unwrap(),
                _ => {}
            }
        }
    }
    assert!(refused > 0);
}

/// Signatures of any number of bytes.
#[derive(Clone)]
struct Long(Vec<u8>);

impl AsRef<[u8]> for Long {
    fn as_ref(&self) -> &[u8] {
        &self.0
    }
}

impl TryFrom<&[u8]> for Long {
    type Error = ();

    fn try_from(bytes: &[u8]) -> Result<Self, ()> {
        Ok(Long(bytes.to_vec()))
    }
}

#[test]
fn one_with_too_many_bytes_is_a_bad_one() {
    let mut running = Validator::<Long>::begin(&options(0), leader).unwrap();
    let asked = |running: &mut Validator<Long>| {
        let mut count = 0;
        while let Some(task) = running.poll().unwrap() {
            match task {
                Task::Write(write) => running.wrote(write).unwrap(),
                Task::Sign(_) => count += 1,
                _ => {}
            }
        }
        count
    };
    assert_eq!(asked(&mut running), 0);
    for _ in 0..2 {
        let _ = running.expire(View::new(1));
        assert_eq!(asked(&mut running), 1);
        let signed = running.signed(nullify(1), &Long(vec![1; 97]), |_| vec![true]);
        assert_eq!(signed, Err(SignError::SignatureBytes));
        assert_eq!(asked(&mut running), 0);
    }
    let _ = running.expire(View::new(1));
    assert_eq!(asked(&mut running), 1);
    let signed = running.signed(nullify(1), &Long(vec![1; 96]), |_| vec![true]);
    assert_eq!(signed, Ok(Signed::Written));
}
