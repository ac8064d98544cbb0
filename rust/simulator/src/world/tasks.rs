//! What validators have to be done, and what comes of it.

use super::{Event, World};
use crate::config::{DELTA, TIMEOUT, Timers};
use crate::driver::{Fault, own};
use crate::messages::{Message, Signature, number_of};
use crate::node::Given;
use crate::numbers::mixed;
use crate::reached::Mark;
use batcher::validator::{Task, Wanted, Write};
use batcher::{Kind, Sha256Digest, Subject, View};

impl World {
    /// Has a validator do all that is to be done.
    pub(super) fn go_on(&mut self, it: u32) {
        while self.failed.is_none() {
            if !self.is_quiet() && self.numbers.chance(self.run.task_crashes) {
                return self.crash(it);
            }
            let quiet = self.is_quiet();
            let node = self.node(it);
            let life = node.life;
            let Some(driver) = &mut node.driver else {
                return;
            };
            let polled = driver.poll();
            let refused = driver.was_refused();
            if refused && !quiet && self.numbers.chance(self.run.refused_crashes) {
                self.reached.note(Mark::CrashAfterRefusal);
                return self.crash(it);
            }
            match polled {
                Ok(None) => return,
                Ok(Some(task)) => {
                    // What was refused memory may wait for a write too.
                    let is_write = matches!(task, Task::Write(_));
                    self.node(it).waits &= is_write;
                    self.perform(it, task);
                    self.node(it).waited &= is_write;
                }
                Err(Fault::Memory) => {
                    self.node(it).waits = true;
                    let later = self.now + self.numbers.below(DELTA);
                    return self.plan(later, Event::GoOn(it, life));
                }
                Err(Fault::Broken(why)) => self.fail(format!("POLL: {it}: {why}")),
            }
        }
    }

    /// How long something takes that takes so long at most.
    pub(super) fn delay(&mut self, most: u64) -> u64 {
        let most = if self.is_quiet() {
            most.min(DELTA / 4)
        } else {
            most
        };
        if most == 0 {
            0
        } else {
            self.numbers.below(most + 1)
        }
    }

    /// What is given once, is given twice.
    pub(super) fn once(&mut self, it: u32, given: Given, what: &str) {
        let node = self.node(it);
        if !node.waited && !node.given.insert(given) {
            self.fail(format!("TWICE: {it} is given again {what}"));
        }
    }

    pub(super) fn perform(&mut self, it: u32, task: Task<Signature>) {
        let life = self.node(it).life;
        match task {
            Task::Write(write) => self.write(it, life, write),
            Task::Block(peer, cause) => {
                self.once(it, (0, peer.get().into(), 0, 0), "a participant to block");
                if self.run.is_faulty(peer.get()) {
                    self.reached.note(Mark::BlockedFaulty);
                } else {
                    self.fail(format!(
                        "BLOCKED: {it} blocks {peer}, which is honest: {cause}"
                    ));
                }
            }
            Task::Final(proposal) => self.is_final(it, proposal),
            Task::SendVote(vote) => self.send_vote(it, vote),
            Task::SendCertificate(certificate) => {
                let subject = certificate.subject();
                let (view, expired) = (subject.round().view.get(), self.node(it).expired);
                let given = (6 + subject.kind() as u8, view, 0, expired);
                self.once(it, given, "a certificate to send");
                self.show(it, &certificate, "sends");
                self.broadcast(it, Message::Certificate(certificate));
            }
            Task::Forward(..) => {}
            Task::Enter { view, .. } => self.enter(it, life, view.get()),
            Task::Verify(wanted) => {
                for one in wanted.attestations() {
                    let node = &self.nodes[it as usize];
                    if one.signer.get() == it && !node.was_there(&one.signature) {
                        let (kind, round) = (wanted.subject().kind(), wanted.subject().round());
                        self.fail(format!("LEAKED: {it} lends its {kind} of {round}"));
                    }
                }
                let time = self.now + self.delay(self.run.verifier);
                self.plan(time, Event::Verdicts(it, life, Box::new(wanted)));
            }
            Task::Sign(subject) => {
                let (view, expired) = (subject.round().view.get(), self.node(it).expired);
                let number = subject
                    .proposal()
                    .map_or(0, |proposal| number_of(&proposal));
                let given = (11 + subject.kind() as u8, view, number, expired);
                self.once(it, given, "a subject to sign");
                if subject.kind() == Kind::Nullification && view > self.node(it).over {
                    self.reached.note(Mark::GaveUp);
                    if self.run.leader(view) == it {
                        self.fail(format!(
                            "GIVEN UP: {it} gives up view {view}, which it leads"
                        ));
                    }
                }
                let time = self.now + self.delay(self.run.signer);
                self.plan(time, Event::Signed(it, life, subject));
            }
            Task::Propose { view, parent } => {
                self.once(it, (20, view.get(), 0, 0), "a view to propose in");
                if self.run.leader(view.get()) != it {
                    self.fail(format!("PROPOSE: {it} doesn't lead view {view}"));
                }
                self.asks_parent(it, parent);
                let time = self.now + self.delay(self.run.judge);
                self.plan(time, Event::Proposed(it, life, view, parent));
            }
            Task::Judge(proposal) => {
                let view = proposal.round.view.get();
                self.once(it, (21, view, 0, 0), "a proposal to judge");
                self.asks_parent(it, proposal.parent);
                let drawn = mixed(mixed(self.run.seed, it.into()), number_of(&proposal));
                let is_faulty = self.run.is_faulty(self.run.leader(view));
                let disputed = is_faulty && drawn % 1000 < self.run.disputes;
                let mut time = self.now + self.delay(self.run.judge);
                if !self.is_quiet() && self.numbers.chance(self.run.never_judged) {
                    time = self.run.quiet + self.numbers.below(3 * TIMEOUT);
                }
                self.plan(time, Event::Judged(it, life, proposal, !disputed));
            }
            other => self.fail(format!("TASK: {it}: {other:?}")),
        }
    }

    pub(super) fn write(&mut self, it: u32, life: u32, write: Write) {
        let delay = self.delay(self.run.disk);
        let now = self.now;
        let node = self.node(it);
        let (behind, appended) = (node.disk.under_way.len(), node.disk.appended);
        let time = node.disk.free_at.max(now) + delay;
        node.disk.free_at = time;
        let replaces = write.replaces();
        node.disk.under_way.push_back(write);
        if behind > 0 {
            self.fail(format!("ORDER: {it} is given a write beside another"));
        }
        if replaces && appended {
            self.reached.note(Mark::ReplacedBehindAppend);
        }
        self.plan(time, Event::Written(it, life));
    }

    /// The first write under way is carried out, and confirmed.
    pub(super) fn written(&mut self, it: u32, life: u32) {
        let forgets = self.run.forgets > 0 && self.numbers.chance(self.run.forgets);
        let node = &mut self.nodes[it as usize];
        if node.life != life || node.driver.is_none() {
            return;
        }
        let Some(write) = node.disk.under_way.pop_front() else {
            return;
        };
        if !forgets {
            node.put(&write);
        }
        let held = std::mem::take(&mut node.held);
        let confirmed = node.driver.as_mut().map(|driver| driver.wrote(write));
        if let Some(Err(fault)) = confirmed {
            self.fail(format!("WROTE: {it}: {fault:?}"));
        }
        for subject in held {
            self.signed(it, life, subject);
        }
        self.go_on(it);
    }

    pub(super) fn signed(&mut self, it: u32, life: u32, subject: Subject) {
        if self.driver(it, life).is_none() {
            return;
        }
        let node = &mut self.nodes[it as usize];
        if !node.disk.under_way.is_empty() {
            self.reached.note(Mark::SignedInWrite);
            if self.run.signs_after_writes {
                return node.held.push(subject);
            }
        }
        let errs = node.errs && self.numbers.chance(200);
        let signature = own(&subject, it, errs);
        node.sign(signature);
        let Some(driver) = &mut node.driver else {
            return;
        };
        match driver.signed(subject, &signature) {
            Ok(_) if errs => {
                node.errs = false;
                self.reached.note(Mark::SignerErred);
            }
            Ok(_) => {}
            Err(Fault::Memory) => {
                let later = self.now + self.numbers.below(DELTA);
                self.plan(later, Event::Signed(it, life, subject));
            }
            Err(Fault::Broken(why)) => self.fail(format!("SIGNED: {it}: {why}")),
        }
    }

    pub(super) fn propose(&mut self, it: u32, view: View, parent: View) {
        let mut payload = [7; 32];
        let node = &mut self.nodes[it as usize];
        if !self.run.same_payload {
            payload[..8].copy_from_slice(&view.get().to_be_bytes());
            payload[8..12].copy_from_slice(&it.to_be_bytes());
            payload[12..16].copy_from_slice(&node.life.to_be_bytes());
        }
        if let Some(driver) = &mut node.driver {
            driver.propose(view, parent, Sha256Digest(payload));
        }
    }

    pub(super) fn conclude(&mut self, it: u32, life: u32, wanted: Box<Wanted<Signature>>) {
        let Some(driver) = self.driver(it, life) else {
            return;
        };
        let concluded = driver.conclude(&wanted);
        match concluded {
            // What is made may have its own vote, which may not be on its disk.
            Ok(true) => {
                if self.run.asks > 0 && !self.is_quiet() {
                    let (kind, round) = (wanted.subject().kind(), wanted.subject().round());
                    self.ask_for(it, kind, round.view.get());
                }
            }
            Ok(false) => self.reached.note(Mark::LateVerdicts),
            Err(Fault::Memory) => {
                let later = self.now + self.numbers.below(DELTA);
                self.plan(later, Event::Verdicts(it, life, wanted));
            }
            Err(Fault::Broken(why)) => self.fail(format!("CONCLUDE: {it}: {why}")),
        }
        self.go_on(it);
    }

    pub(super) fn enter(&mut self, it: u32, life: u32, view: u64) {
        self.once(it, (10, view, 0, 0), "a view to enter");
        let node = self.node(it);
        if view <= node.view {
            return self.fail(format!("BACK: {it} enters view {view} behind another"));
        }
        node.view = view;
        node.timer += 1;
        let (timer, epoch) = (node.timer, node.epoch);
        self.plan_timer(it, life, view, timer);
        self.faulty_lead(epoch, view);
    }

    pub(super) fn plan_timer(&mut self, it: u32, life: u32, view: u64, timer: u64) {
        let last = self.node(it).last;
        let mut wait = TIMEOUT;
        if self.run.doubles {
            wait <<= view.saturating_sub(last + 1).min(4);
        }
        if !self.is_quiet() {
            match self.run.timers {
                Timers::InTime | Timers::Wrong => {}
                Timers::Early => wait = 1 + self.numbers.below(TIMEOUT / 4),
                Timers::Never => wait = self.run.quiet - self.now + self.numbers.below(TIMEOUT),
            }
            // Its clock isn't the others'.
            wait = wait * (80 + self.numbers.below(41)) / 100;
        }
        self.plan(self.now + wait.max(1), Event::Timer(it, life, view, timer));
    }

    pub(super) fn expire(&mut self, it: u32, life: u32, view: u64, timer: u64) {
        let wrong = self.numbers.below(6);
        let is_wrong = self.run.timers == Timers::Wrong && !self.is_quiet();
        let node = self.node(it);
        if node.life != life || node.timer != timer {
            return;
        }
        let Some(driver) = &mut node.driver else {
            return;
        };
        node.expired += 1;
        node.waited = node.waits;
        let expired = match wrong {
            0 if is_wrong => view.saturating_sub(1),
            1 if is_wrong => view + 3,
            2 if is_wrong => u64::MAX,
            3 if is_wrong => 0,
            _ => view,
        };
        node.over = node
            .over
            .max(if expired <= node.view { expired } else { 0 });
        driver.expire(expired);
        self.reached.note(Mark::Expired);
        self.may_end_epoch(it);
        self.plan_timer(it, life, view, timer);
        self.go_on(it);
    }
}
