//! Writes that take their time, on another thread, while the validator goes on: what others see is on
//! the disk, and a write confirms what it had and no more.

mod shared;
mod toy;

use batcher::positions::Round;
use batcher::validator::{KeptError, Task, Validator, Wanted, Write, WroteError};
use batcher::{Epoch, Kind, Participant, Proposal, Sha256Digest, Subject, View};
use shared::{options, put, verdicts};
use toy::{Signature, sign, vote};

const FIRST: Round = Round::new(Epoch::new(0), View::new(1));

fn leader(_: View) -> Participant {
    Participant::new(1)
}

/// A validator of four, and a disk to which somebody else writes.
struct One {
    running: Validator<Signature>,
    disk: Vec<u8>,
    /// What was given to be signed, and to be verified.
    to_sign: Vec<Subject>,
    to_verify: Vec<Wanted<Signature>>,
    /// What was given to be sent, and as final.
    sent: Vec<Subject>,
    finals: Vec<Proposal>,
}

impl One {
    fn of(running: Validator<Signature>, disk: Vec<u8>) -> Self {
        One {
            running,
            disk,
            to_sign: Vec::new(),
            to_verify: Vec::new(),
            sent: Vec::new(),
            finals: Vec::new(),
        }
    }

    /// One that has begun, and is in its first view.
    fn begin() -> Self {
        let mut it = One::of(Validator::begin(&options(0), leader).unwrap(), Vec::new());
        it.go_on();
        it
    }

    /// The power goes, and it starts again by what is on the disk.
    fn start_again(self) -> Self {
        let running = Validator::start(&options(0), leader, &self.disk, verdicts).unwrap();
        let mut it = One::of(running, self.disk);
        it.go_on();
        it
    }

    /// Does what is to be done until nothing is, or until something is to be written.
    fn next_write(&mut self) -> Option<Write> {
        while let Some(task) = self.running.poll().unwrap() {
            match task {
                Task::Write(write) => return Some(write),
                Task::Sign(subject) => self.to_sign.push(subject),
                Task::Verify(wanted) => self.to_verify.push(wanted),
                Task::SendVote(vote) => self.sent.push(vote.subject()),
                Task::Final(proposal) => self.finals.push(proposal),
                _ => {}
            }
        }
        None
    }

    fn put(&mut self, write: &Write) {
        put(&mut self.disk, write);
    }

    fn go_on(&mut self) {
        while let Some(write) = self.next_write() {
            self.put(&write);
            self.running.wrote(write).unwrap();
        }
    }

    fn hear(&mut self, subject: Subject) {
        for signer in 1..4 {
            let vote = vote(subject, signer);
            self.running.vote(vote.signer(), &vote).unwrap();
        }
    }

    fn verify(&mut self) {
        for wanted in std::mem::take(&mut self.to_verify) {
            self.running.conclude(&wanted, &verdicts(&wanted)).unwrap();
        }
    }

    fn sign(&mut self) {
        for subject in std::mem::take(&mut self.to_sign) {
            let signature = sign(&subject, 0);
            let _ = self.running.signed(subject, &signature, verdicts).unwrap();
        }
    }
}

/// It is to nullify its first view, and to write that another view is final. The signature comes
/// while that is being written.
fn signs_in_a_write() -> (One, Write) {
    let mut it = One::begin();
    it.running.expire(View::new(1));
    it.go_on();
    assert_eq!(it.to_sign, [Subject::Nullify { round: FIRST }]);
    let proposal = Proposal::new(FIRST, View::zero(), Sha256Digest([7; 32]));
    it.hear(Subject::Notarize { proposal });
    it.hear(Subject::Finalize { proposal });
    let write = loop {
        if let Some(write) = it.next_write() {
            break write;
        }
        it.verify();
    };
    it.sign();
    (it, write)
}

#[test]
fn what_is_sent_is_on_the_disk() {
    let (mut it, write) = signs_in_a_write();
    // It goes on meanwhile, and sends nothing of its own.
    assert!(it.next_write().is_none() && it.sent.is_empty());
    it.put(&write);
    it.running.wrote(write).unwrap();
    // What was signed since is given next, ..
    let next = it.next_write().expect("it isn't written");
    assert!(it.sent.is_empty());
    // .. and until it is written, a crash leaves a validator that didn't sign it.
    let running = Validator::start(&options(0), leader, &it.disk, verdicts).unwrap();
    let mut without = One::of(running, it.disk.clone());
    without.go_on();
    assert!(without.sent.is_empty());
    it.put(&next);
    it.running.wrote(next).unwrap();
    it.go_on();
    let sent = it.sent.clone();
    let again = it.start_again();
    assert!(!sent.is_empty() && sent.iter().all(|it| again.sent.contains(it)));
}

/// So a crash leaves a validator that gives it again.
#[test]
fn what_is_final_is_on_the_disk() {
    let mut it = One::begin();
    let proposal = Proposal::new(FIRST, View::zero(), Sha256Digest([7; 32]));
    it.hear(Subject::Notarize { proposal });
    it.hear(Subject::Finalize { proposal });
    let mut writes = 0;
    while it.finals.is_empty() {
        match it.next_write() {
            Some(write) => {
                assert!(it.finals.is_empty(), "it is in this write");
                it.put(&write);
                it.running.wrote(write).unwrap();
                writes += 1;
            }
            None => it.verify(),
        }
    }
    assert!(writes > 0);
    let again = it.start_again();
    assert_eq!(again.finals, [proposal]);
}

#[test]
fn what_is_kept_is_shown_once_all_is_written() {
    let mut it = One::begin();
    let subject = Subject::Nullify { round: FIRST };
    it.hear(subject);
    it.running.expire(View::new(1));
    it.go_on();
    // The signature, the verdicts and a question for the certificate come at once.
    it.sign();
    it.verify();
    assert!(it.running.has_certificate(Kind::Nullification, FIRST));
    let kept = |it: &One| it.running.kept(Kind::Nullification, FIRST);
    assert_eq!(kept(&it), Err(KeptError::NotWritten));
    let write = it.next_write().expect("a vote isn't written");
    assert_eq!(kept(&it), Err(KeptError::NotWritten));
    it.put(&write);
    it.running.wrote(write).unwrap();
    it.go_on();
    assert!(kept(&it).unwrap().is_some());
    let again = it.start_again();
    assert_eq!(again.sent, [subject]);
}

/// Where a proposal is certified is no vote of its own.
#[test]
fn what_is_certified_is_known_at_once() {
    let mut it = One::begin();
    let proposal = Proposal::new(FIRST, View::zero(), Sha256Digest([7; 32]));
    it.hear(Subject::Notarize { proposal });
    it.go_on();
    it.verify();
    assert_eq!(it.running.certified(View::new(1)), Some(proposal));
    it.go_on();
    it.sign();
    let write = it.next_write().expect("a vote isn't written");
    assert_eq!(it.running.certified(View::new(1)), Some(proposal));
    let kept = it.running.kept(Kind::Notarization, FIRST);
    assert_eq!(kept, Err(KeptError::NotWritten));
    it.put(&write);
    it.running.wrote(write).unwrap();
    assert!(
        it.running
            .kept(Kind::Notarization, FIRST)
            .unwrap()
            .is_some()
    );
}

/// Meanwhile it hears and verifies. What is to be sent or signed waits.
#[test]
fn it_goes_on_during_a_write() {
    let (mut it, write) = signs_in_a_write();
    it.next_write();
    let later = Subject::Nullify {
        round: Round::new(Epoch::zero(), View::new(2)),
    };
    it.hear(later);
    assert!(it.next_write().is_none());
    assert!(it.to_verify.iter().any(|it| *it.subject() == later));
    it.running.expire(View::new(2));
    assert!(it.next_write().is_none());
    assert!(!it.to_sign.contains(&later));
    it.put(&write);
    it.running.wrote(write).unwrap();
    it.go_on();
    assert!(it.to_sign.contains(&later));
}

/// A write is of one life.
#[test]
fn another_life_takes_none() {
    let (mut it, write) = signs_in_a_write();
    it.put(&write);
    let mut again = Validator::<Signature>::start(&options(0), leader, &it.disk, verdicts).unwrap();
    assert_eq!(again.wrote(write), Err(WroteError::OtherLife));
    let mut other = One::begin();
    other.running.expire(View::new(1));
    other.go_on();
    other.sign();
    let write = other.next_write().expect("a vote isn't written");
    assert_eq!(it.running.wrote(write), Err(WroteError::OtherLife));
    assert!(it.next_write().is_none());
}
