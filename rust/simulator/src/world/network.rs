//! What is sent, and comes or doesn't.

use super::{Event, World};
use crate::config::DELTA;
use crate::driver::Fault;
use crate::messages::Message;
use crate::reached::Mark;
use std::rc::Rc;

impl World {
    pub(super) fn send(&mut self, from: u32, to: u32, message: &Rc<Message>) {
        if from == to || self.run.is_faulty(to) {
            return;
        }
        let (now, quiet) = (self.now, self.run.quiet);
        if self.is_quiet() {
            let time = now + 1 + self.numbers.below(DELTA);
            return self.plan(time, Event::Hear(from, to, message.clone()));
        }
        let is_cut = self.side[from as usize] != self.side[to as usize];
        let is_silent = self.run.silence > 0 && now >= self.run.silence;
        if is_cut || is_silent || self.numbers.chance(self.run.lost) {
            return;
        }
        let copies = if self.numbers.chance(self.run.twice) {
            2 + self.numbers.below(2)
        } else {
            1
        };
        for _ in 0..copies {
            let latest = quiet + 1 + self.numbers.below(DELTA);
            let time = (now + 1 + self.numbers.below(self.run.delay)).min(latest);
            self.plan(time, Event::Hear(from, to, message.clone()));
        }
    }

    /// Sends it to all. Whoever crashes meanwhile has sent it to some.
    pub(super) fn broadcast(&mut self, from: u32, message: Message) {
        let message = Rc::new(message);
        let count = self.run.count;
        let crashes = !self.is_quiet() && self.numbers.chance(self.run.task_crashes);
        let sent = if crashes {
            self.numbers.below(count.into()) as u32
        } else {
            count
        };
        let first = self.numbers.below(count.into()) as u32;
        for place in 0..sent {
            self.send(from, (first + place) % count, &message);
        }
        self.spy(&message);
        if crashes {
            self.crash(from);
        }
    }

    pub(super) fn hear(&mut self, from: u32, to: u32, message: Rc<Message>) {
        let heard_in = message.subject().round();
        let node = &mut self.nodes[to as usize];
        let (epoch, view) = (node.epoch, node.view);
        let Some(driver) = &mut node.driver else {
            return;
        };
        // Who is in an epoch that is over is shown what ended it.
        if let (Message::Vote(_), Some(ended)) = (&*message, node.past.get(&heard_in.epoch.get())) {
            let ended = Rc::new(Message::Certificate(ended.clone()));
            self.reached.note(Mark::OtherEpoch);
            return self.send(to, from, &ended);
        }
        let is_ahead = heard_in.view.get() > view.saturating_add(self.run.ahead);
        let heard = match &*message {
            Message::Vote(vote) => driver.vote(from, vote).map(|()| false),
            Message::Certificate(certificate) => {
                if is_ahead && heard_in.epoch.get() == epoch {
                    self.reached.note(Mark::FromAhead);
                }
                driver.certificate(from, certificate)
            }
        };
        let refused = driver.was_refused();
        match heard {
            Ok(false) => {}
            Ok(true) if self.run.is_faulty(from) => self.reached.note(Mark::Forged),
            Ok(true) => self.fail(format!("BLOCKED: {to} takes what {from} sends for forged")),
            Err(Fault::Memory) => {
                let later = self.now + self.numbers.below(DELTA);
                self.plan(later, Event::Hear(from, to, message));
            }
            Err(Fault::Broken(why)) => self.fail(format!("HEAR: {to}: {why}")),
        }
        if refused && !self.is_quiet() && self.numbers.chance(self.run.refused_crashes) {
            self.reached.note(Mark::CrashAfterRefusal);
            return self.crash(to);
        }
        self.go_on(to);
    }

    pub(super) fn partition(&mut self) {
        self.side.fill(false);
        if self.run.isolates {
            let alone = self.numbers.below(self.run.count.into()) as usize;
            self.side[alone] = self.numbers.chance(800);
        } else if self.numbers.chance(700) {
            for side in &mut self.side {
                *side = self.numbers.chance(500);
            }
        }
        self.reached.note(Mark::Partition);
        self.plan_mean(self.run.partition, Event::Partition);
    }
}
