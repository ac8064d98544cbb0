//! What has to hold of what validators show to others, and of what is final.

use super::{Event, World};
use crate::driver::{Driver, Fault, Kept};
use crate::messages::{Message, Signature, number_of, round, sign, signature_in};
use crate::reached::Mark;
use batcher::validator::Listed;
use batcher::{Kind, Proposal, Subject, View, Vote};
use std::rc::Rc;

/// A disk with so many bytes has much.
const LONG: usize = 1 << 15;

impl World {
    pub(super) fn send_vote(&mut self, it: u32, vote: Vote<Signature>) {
        let (subject, signature) = (vote.subject(), vote.attestation().signature);
        let (kind, round) = (subject.kind(), subject.round());
        let node = &mut self.nodes[it as usize];
        let number = subject
            .proposal()
            .map_or(0, |proposal| number_of(&proposal));
        let given = (2 + kind as u8, round.view.get(), number, node.expired);
        let is_there = node.is_there(&signature);
        let shown = node.show(subject);
        self.once(it, given, "a vote to send");
        if signature != sign(&subject, it) {
            self.fail(format!(
                "BAD: {it} sends a {kind} of {round} that doesn't attest"
            ));
        }
        if !is_there {
            self.fail(format!(
                "UNWRITTEN: {it} sends a {kind} of {round}, not on its disk"
            ));
        }
        if let Err(other) = shown {
            let other = other.kind();
            self.fail(format!(
                "CONTRADICTED: {it} sends a {kind} of {round}, against its {other}"
            ));
        }
        self.broadcast(it, Message::Vote(vote));
    }

    /// Looks at what somebody shows to others.
    pub(super) fn show(&mut self, it: u32, certificate: &Listed, how: &str) {
        let subject = certificate.subject();
        let (kind, round) = (subject.kind(), subject.round());
        let node = &mut self.nodes[it as usize];
        let mut certifies = Ok(false);
        // It is asked again where memory is refused.
        while let Some(driver) = &mut node.driver {
            certifies = driver.certifies(certificate);
            if !matches!(certifies, Err(Fault::Memory)) {
                break;
            }
        }
        if !matches!(certifies, Ok(true)) {
            self.fail(format!(
                "BAD: {it} {how} a {kind} of {round} that doesn't certify"
            ));
        }
        let node = &mut self.nodes[it as usize];
        if let Some(signature) = signature_in(certificate, it) {
            if !node.was_there(&signature) {
                self.fail(format!(
                    "LEAKED: {it} {how} a {kind} of {round} with its vote"
                ));
            } else if node.show(subject).is_err() {
                self.fail(format!(
                    "CONTRADICTED: {it} {how} a {kind} of {round} with its vote"
                ));
            }
        }
        self.note_certificate(subject);
    }

    /// Two proposals of a view aren't notarized.
    pub fn note_certificate(&mut self, subject: Subject) {
        let Subject::Notarize { proposal } = subject else {
            return;
        };
        let place = (proposal.round.epoch.get(), proposal.round.view.get());
        let first = *self.notarized.entry(place).or_insert(proposal);
        if self.run.agrees && first != proposal {
            self.fail(format!(
                "FORK: two notarized proposals of {}",
                proposal.round
            ));
        }
    }

    pub(super) fn is_final(&mut self, it: u32, proposal: Proposal) {
        let view = proposal.round.view.get();
        self.once(it, (1, view, 0, 0), "a final view");
        self.reached.note(Mark::Final);
        let node = self.node(it);
        let epoch = node.epoch;
        if view <= node.last {
            self.fail(format!("BACK: view {view} is final at {it} behind another"));
        }
        self.node(it).last = view;
        let disk = &self.nodes[it as usize].disk.bytes;
        // Starting one takes a while, and more where its disk has much.
        let is_looked_at = disk.len() < LONG && (view + u64::from(it)) % 4 == 0;
        if is_looked_at && !Driver::finds_final(&self.run, epoch, it, disk, &proposal) {
            self.fail(format!(
                "EARLY: view {view} is final at {it}, whose disk lacks that"
            ));
        }
        let first = *self.finals.entry((epoch, view)).or_insert(proposal);
        if first != proposal && self.run.agrees {
            self.fail(format!("FORK: two final proposals of {}", proposal.round));
        }
        if first != proposal {
            self.reached.note(Mark::Fork);
        }
        self.agrees(epoch, view);
        let next = self.finals.range((epoch, view + 1)..(epoch + 1, 0)).next();
        if let Some((&(_, next), _)) = next {
            self.agrees(epoch, next);
        }
        self.may_end_epoch(it);
    }

    /// The final view below this one is on the way down from it, as far as that is known.
    pub(super) fn agrees(&mut self, epoch: u64, view: u64) {
        let Some(&proposal) = self.finals.get(&(epoch, view)) else {
            return;
        };
        let below = self.finals.range((epoch, 0)..(epoch, view)).next_back();
        let Some((&(_, below), _)) = below else {
            return;
        };
        let mut parent = proposal.parent.get();
        while parent > below {
            match self.notarized.get(&(epoch, parent)) {
                Some(it) => parent = it.parent.get(),
                None => return,
            }
        }
        if parent == below {
            return;
        }
        self.reached.note(Mark::Fork);
        if self.run.agrees {
            self.fail(format!(
                "FORK: final view {below} isn't in the chain of {view}"
            ));
        }
    }

    /// A question for what is kept of some kind and view.
    pub(super) fn ask(&mut self, it: u32) {
        self.plan_mean(self.run.asks, Event::Ask(it));
        let drawn = self.numbers.below(4);
        let kind =
            self.numbers
                .pick(&[Kind::Notarization, Kind::Nullification, Kind::Finalization]);
        let node = &self.nodes[it as usize];
        let view = node.view.saturating_sub(drawn).max(node.last);
        self.ask_for(it, kind, view);
    }

    /// A question for a certificate, which goes to somebody.
    pub(super) fn ask_for(&mut self, it: u32, kind: Kind, view: u64) {
        let to = self.numbers.below(self.run.count.into()) as u32;
        let node = &mut self.nodes[it as usize];
        let epoch = node.epoch;
        let Some(driver) = &mut node.driver else {
            return;
        };
        match driver.kept(kind, round(epoch, view)) {
            Ok(Kept::Certificate(certificate)) => {
                self.show(it, &certificate, "is asked for");
                self.send(it, to, &Rc::new(Message::Certificate(certificate)));
            }
            Ok(Kept::Later) => self.reached.note(Mark::AskedAndWaited),
            Ok(Kept::Nothing) | Err(Fault::Memory) => {}
            Err(Fault::Broken(why)) => self.fail(format!("KEPT: {it}: {why}")),
        }
    }

    /// The parent of what is proposed is there.
    pub(super) fn asks_parent(&mut self, it: u32, parent: View) {
        let node = &mut self.nodes[it as usize];
        let Some(driver) = &mut node.driver else {
            return;
        };
        if !driver.certified(parent) && parent.get() > node.last {
            self.fail(format!(
                "ABSENT: {it} has no proposal of view {parent}, a parent"
            ));
        }
    }
}
