//! A validator that hears a certificate from beyond its window goes on by it, as by one that comes in
//! order.

mod shared;
mod toy;

use batcher::positions::Round;
use batcher::validator::{Listed, Options, Receipt, Task, Validator, Verdict};
use batcher::{Certificate, Epoch, Participant, Sha256Digest, Subject, View};
use shared::{put, verdicts};
use toy::{Signature, sign};

fn options() -> Options<'static> {
    Options {
        ahead: 2,
        ..shared::options(0)
    }
}

/// How many bytes a signature takes in a list.
const WIDTH: usize = 96;

/// The three others give a view up.
fn nullification(view: u64) -> Listed {
    let round = Round::new(Epoch::zero(), View::new(view));
    let subject = Subject::Nullify { round };
    let mut bytes = 3_u64.to_be_bytes().to_vec();
    for signer in 1..4_u32 {
        let signature = sign(&subject, signer);
        bytes.extend(signer.to_be_bytes());
        bytes.push(signature.len() as u8);
        bytes.extend(signature);
        bytes.extend(vec![0; WIDTH - signature.len()]);
    }
    Certificate::new(subject, bytes)
}

/// The first of four validators, which leads all views.
struct First {
    running: Validator<Signature>,
    disk: Vec<u8>,
    view: u64,
    /// Each view in which it was to propose, with the view of the parent.
    proposed: Vec<(u64, u64)>,
}

impl First {
    fn new() -> Self {
        let leader = |_: View| Participant::new(0);
        let mut first = First {
            running: Validator::begin(&options(), leader).unwrap(),
            disk: Vec::new(),
            view: 0,
            proposed: Vec::new(),
        };
        first.go_on();
        first
    }

    fn go_on(&mut self) {
        while let Some(task) = self.running.poll().unwrap() {
            match task {
                Task::Write(write) => {
                    put(&mut self.disk, &write);
                    self.running.wrote(write).unwrap();
                }
                Task::Enter { view, .. } => self.view = view.get(),
                Task::Propose { view, parent } => {
                    self.proposed.push((view.get(), parent.get()));
                    let payload = Sha256Digest([view.get() as u8; 32]);
                    self.running.propose(view, parent, payload);
                }
                Task::Verify(wanted) => {
                    let verdicts = verdicts(&wanted);
                    self.running.conclude(&wanted, &verdicts).unwrap();
                }
                _ => {}
            }
        }
    }

    fn hear(&mut self, view: u64) -> Receipt<Verdict> {
        let heard = self
            .running
            .certificate(Participant::new(1), &nullification(view), verdicts)
            .unwrap();
        self.go_on();
        heard
    }
}

const RECORDED: Receipt<Verdict> = Receipt::Answered(Verdict::Recorded);

const KNOWN: Receipt<Verdict> = Receipt::Answered(Verdict::Known);

#[test]
fn in_order() {
    let mut first = First::new();
    for view in 1..7 {
        assert_eq!(first.hear(view), RECORDED);
        assert_eq!(first.view, view + 1);
    }
    assert_eq!(first.proposed.last(), Some(&(7, 0)));
}

#[test]
fn one_from_ahead_is_learned() {
    let mut first = First::new();
    assert_eq!(first.hear(6), RECORDED);
    // What is known is gone on from at once, and isn't wanted again.
    assert_eq!(first.view, 7);
    assert_eq!(first.hear(6), KNOWN);
    for view in 1..6 {
        assert_eq!(first.hear(view), RECORDED);
    }
    for view in 1..7 {
        assert_eq!(first.hear(view), KNOWN);
    }
    assert_eq!(first.view, 7);
}

#[test]
fn its_view_is_no_gap() {
    let mut first = First::new();
    for view in [6, 1, 2, 3, 4, 5, 7, 8] {
        assert_eq!(first.hear(view), RECORDED);
    }
    assert_eq!(first.view, 9);
    // Each view before is known to be given up, so there is ground for a proposal on the start.
    assert_eq!(first.proposed.last(), Some(&(9, 0)));
}
