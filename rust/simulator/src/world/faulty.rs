//! Those who are faulty. They see all that is sent, and act together.

use super::{Event, World};
use crate::config::{DELTA, Proposes, TIMEOUT};
use crate::messages::{
    Message, Signature, listed, nullify, proposal, sign, signed_vote, spoilt, vote,
};
use crate::reached::Mark;
use batcher::{Certificate, Subject, quorum};
use std::collections::{BTreeMap, HashMap, HashSet};
use std::rc::Rc;

/// What they know.
#[derive(Default)]
pub struct Adversary {
    /// Of each subject the signatures that were sent, and their own.
    seen: HashMap<Subject, BTreeMap<u32, Signature>>,
    /// What is certified: of each epoch, views that are notarized or nullified.
    certified: HashSet<Subject>,
    notarized: HashSet<(u64, u64)>,
    nullified: HashSet<(u64, u64)>,
    /// The highest view that was entered.
    top: u64,
    /// Which views they have led.
    led: HashSet<(u64, u64)>,
}

impl World {
    fn faulty_act(&self) -> bool {
        let is_over = self.run.faults.quits && self.is_quiet();
        !self.run.faulty.is_empty() && !is_over
    }

    fn faulty_send(&mut self, from: u32, to: Vec<u32>, message: Message, is_late: bool) {
        let most = if is_late { 6 * TIMEOUT } else { DELTA / 2 };
        let time = self.now + self.numbers.below(most);
        self.plan(time, Event::Sends(from, to, Rc::new(message)));
    }

    fn faulty_vote(&mut self, from: u32, to: Vec<u32>, subject: Subject, is_late: bool) {
        self.faulty_send(from, to, Message::Vote(vote(subject, from)), is_late);
    }

    /// Some honest ones, so many times in a thousand, and else all.
    fn some(&mut self, chance: u64) -> Vec<u32> {
        let all = self.run.honest();
        if !self.numbers.chance(chance) {
            return all;
        }
        if self.numbers.chance(333) {
            return vec![self.numbers.pick(&all)];
        }
        all.into_iter()
            .filter(|_| self.numbers.chance(500))
            .collect()
    }

    /// All honest ones in another order.
    fn drawn(&mut self) -> Vec<u32> {
        let all = self.run.honest();
        self.numbers.shuffled(all)
    }

    /// A parent that has ground for a view: the highest, or another.
    fn ground(&mut self, epoch: u64, view: u64, is_older: bool) -> Option<u64> {
        let mut found = None;
        for below in (0..view).rev() {
            let place = (epoch, below);
            if below == 0 || self.adversary.notarized.contains(&place) {
                found = Some(below);
                if !is_older || self.numbers.chance(400) {
                    break;
                }
            }
            if !self.adversary.nullified.contains(&place) {
                break;
            }
        }
        found
    }

    /// A view is entered, which one of them may lead.
    pub(super) fn faulty_lead(&mut self, epoch: u64, view: u64) {
        self.adversary.top = self.adversary.top.max(view);
        let Some(leader) = self.faulty_leader(view) else {
            return;
        };
        if !self.faulty_act() || !self.adversary.led.insert((epoch, view)) {
            return;
        }
        let plans = self.run.faults.proposes.clone();
        let plan = plans[self.numbers.below(plans.len() as u64) as usize];
        let parent = match plan {
            Proposes::Nothing => None,
            Proposes::OnAnything => Some(self.numbers.below(view)),
            _ => self.ground(epoch, view, plan == Proposes::OnAnOlder),
        };
        let Some(parent) = parent else {
            return;
        };
        let payload = self.numbers.next();
        let proposed = |payload| Subject::Notarize {
            proposal: proposal(epoch, view, parent, payload),
        };
        let one = proposed(payload);
        let mut to = self.drawn();
        match plan {
            Proposes::Two => {
                let other = proposed(payload.wrapping_add(1));
                let cut = self.numbers.below(to.len() as u64 + 1) as usize;
                if 0 < cut && cut < to.len() {
                    self.reached.note(Mark::TwoProposals);
                }
                let late = to.clone();
                let (some, rest) = to.split_at(cut);
                for from in self.run.faulty.clone() {
                    self.faulty_vote(from, some.to_vec(), one, false);
                    self.faulty_vote(from, rest.to_vec(), other, false);
                }
                if self.numbers.chance(500) {
                    self.faulty_vote(leader, late, other, true);
                }
            }
            Proposes::ToSome => {
                let some = self.some(1000);
                self.faulty_vote(leader, some, one, false);
            }
            Proposes::ToEnough => {
                let quorum = quorum(self.run.count) as usize;
                to.truncate(quorum.saturating_sub(self.run.faulty.len()));
                self.faulty_vote(leader, to, one, false);
            }
            _ => self.faulty_vote(leader, to, one, plan == Proposes::Late),
        }
    }

    /// An honest one sends something to all.
    pub(super) fn spy(&mut self, message: &Rc<Message>) {
        let subject = message.subject();
        let Message::Vote(sent) = &**message else {
            return self.note(subject);
        };
        let faulty = self.run.faulty.clone();
        let seen = self.adversary.seen.entry(subject).or_default();
        let is_first = seen.is_empty();
        let signer = sent.attestation().signer.get();
        if seen.insert(signer, sent.attestation().signature).is_some() {
            return;
        }
        if is_first {
            seen.extend(faulty.iter().map(|it| (*it, sign(&subject, *it))));
        }
        let quorum = quorum(self.run.count) as usize;
        let signers: Vec<_> = seen.iter().map(|it| (*it.0, *it.1)).collect();
        let is_certified = !self.adversary.certified.contains(&subject) && signers.len() >= quorum;
        if is_certified {
            self.note(subject);
        }
        if !self.faulty_act() {
            return;
        }
        if is_first {
            for it in &faulty {
                self.join(*it, subject);
            }
        }
        let from = self.numbers.pick(&faulty);
        if is_certified && self.numbers.chance(self.run.faults.hoards) {
            let honest = self.run.honest();
            let to = if self.numbers.chance(700) {
                vec![self.numbers.pick(&honest)]
            } else {
                self.some(1000)
            };
            self.reached.note(Mark::Hoarded);
            let late = self.numbers.chance(self.run.faults.late);
            let hoarded = Message::Certificate(listed(subject, &signers[..quorum]));
            self.faulty_send(from, to, hoarded, late);
        }
        if self.numbers.chance(self.run.faults.junk) {
            self.junk(from, subject);
        }
    }

    /// One of them votes for what an honest one votes for, or against it.
    fn join(&mut self, it: u32, subject: Subject) {
        let faults = self.run.faults.clone();
        if self.numbers.chance(faults.follows[subject.kind() as usize]) {
            let to = self.some(faults.to_some);
            let late = self.numbers.chance(faults.late);
            self.faulty_vote(it, to, subject, late);
        }
        if self.numbers.chance(faults.contrary) {
            let (epoch, view) = (subject.round().epoch.get(), subject.round().view.get());
            let payload = self.numbers.next();
            let other = match (self.numbers.below(3), subject.proposal()) {
                (0, _) => nullify(epoch, view),
                (1, Some(proposal)) => Subject::Finalize { proposal },
                (1, None) => Subject::Finalize {
                    proposal: proposal(epoch, view, 0, payload),
                },
                _ => Subject::Notarize {
                    proposal: proposal(epoch, view, self.numbers.below(view.max(1)), payload),
                },
            };
            let to = self.some(800);
            let late = self.numbers.chance(faults.late);
            self.faulty_vote(it, to, other, late);
        }
    }

    /// Something is certified, as far as anybody could show.
    fn note(&mut self, subject: Subject) {
        self.note_certificate(subject);
        if !self.adversary.certified.insert(subject) {
            return;
        }
        let place = (subject.round().epoch.get(), subject.round().view.get());
        match subject {
            Subject::Notarize { .. } => _ = self.adversary.notarized.insert(place),
            Subject::Nullify { .. } => _ = self.adversary.nullified.insert(place),
            Subject::Finalize { .. } => {}
        }
    }

    fn junk(&mut self, from: u32, subject: Subject) {
        self.reached.note(Mark::Junk);
        let to = self.some(700);
        let count = self.run.count;
        let (epoch, view) = (subject.round().epoch.get(), subject.round().view.get());
        let all = |subject: &Subject| -> Vec<(u32, Signature)> {
            (0..count).map(|it| (it, sign(subject, it))).collect()
        };
        let other_epoch = nullify(epoch + 1_000, view);
        let own = sign(&subject, from);
        let far = match self.numbers.below(12) {
            0 => Message::Vote(signed_vote(subject, from, spoilt(own))),
            1 => {
                let forged: Vec<_> = (0..count).map(|it| (it, [1; 8])).collect();
                Message::Certificate(listed(subject, &forged))
            }
            2 => Message::Certificate(listed(subject, &[(from, own); 3])),
            3 => {
                let last = u64::MAX - self.numbers.below(3);
                Message::Vote(vote(nullify(epoch, last), from))
            }
            4 => {
                let beyond = view + self.run.ahead + self.numbers.below(3);
                Message::Vote(vote(nullify(epoch, beyond), from))
            }
            5 => {
                let old = self.numbers.below(view + 1);
                Message::Vote(vote(nullify(epoch, old), from))
            }
            6 => Message::Vote(vote(other_epoch, from)),
            7 => Message::Certificate(listed(other_epoch, &all(&other_epoch))),
            8 => Message::Vote(vote(subject, (from + 1) % count)),
            9 => {
                let faulty = self.run.faulty.iter();
                let few: Vec<_> = faulty.map(|it| (*it, sign(&subject, *it))).collect();
                Message::Certificate(listed(subject, &few))
            }
            10 => {
                let length = self.numbers.below(300) as usize;
                Message::Certificate(Certificate::new(subject, vec![0xFF; length]))
            }
            _ => {
                for more in 0..20 {
                    let flood = nullify(epoch, self.adversary.top + more);
                    self.faulty_vote(from, to.clone(), flood, false);
                }
                return;
            }
        };
        self.faulty_send(from, to, far, false);
    }
}
