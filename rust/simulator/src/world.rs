//! A run: validators, a network, those who are faulty, and what has to hold behind each event.

mod checks;
mod faulty;
mod network;
mod tasks;

use crate::config::{Config, DELTA, TIMEOUT};
use crate::driver::{Calls, Driver, Fault, Kept, lead_as};
use crate::messages::{Message, Signature, round};
use crate::node::Node;
use crate::numbers::{Numbers, mixed};
use crate::reached::{Mark, Reached};
use batcher::validator::Wanted;
use batcher::{Kind, Proposal, Subject, View};
use faulty::Adversary;
use std::cmp::Ordering;
use std::collections::{BTreeMap, BinaryHeap, HashMap};
use std::rc::Rc;

/// So many more views are to be final once the network is quiet, within so many timeouts.
const MORE: u64 = 5;
const PATIENCE: u64 = 200;

/// What comes about.
enum Event {
    Hear(u32, u32, Rc<Message>),
    /// The next write of a life is carried out.
    Written(u32, u32),
    Verdicts(u32, u32, Box<Wanted<Signature>>),
    Signed(u32, u32, Subject),
    Judged(u32, u32, Proposal, bool),
    Proposed(u32, u32, View, View),
    /// The timer of this number is over, of a view.
    Timer(u32, u32, u64, u64),
    /// It looks for a certificate that somebody may lack.
    Ask(u32),
    /// It goes on where memory was refused.
    GoOn(u32, u32),
    Crash(u32),
    CrashOfAll,
    Restart(u32, u32),
    /// It begins the next epoch, on new files.
    NextEpoch(u32, u32),
    Partition,
    Quiet,
    /// A faulty one sends something to some.
    Sends(u32, Vec<u32>, Rc<Message>),
}

/// When it comes about. What comes at the same time does so in the order in which it was planned.
struct Planned {
    time: u64,
    number: u64,
    event: Event,
}

impl Ord for Planned {
    fn cmp(&self, other: &Self) -> Ordering {
        (other.time, other.number).cmp(&(self.time, self.number))
    }
}

impl PartialOrd for Planned {
    fn partial_cmp(&self, other: &Self) -> Option<Ordering> {
        Some(self.cmp(other))
    }
}

impl PartialEq for Planned {
    fn eq(&self, other: &Self) -> bool {
        self.cmp(other) == Ordering::Equal
    }
}

impl Eq for Planned {}

pub struct World {
    run: Config,
    now: u64,
    planned: BinaryHeap<Planned>,
    number: u64,
    nodes: Vec<Node>,
    numbers: Numbers,
    pub reached: Reached,
    adversary: Adversary,
    /// On which side of a partition each is.
    side: Vec<bool>,
    /// What is final, by epoch and view, and what is notarized as far as anybody was shown.
    finals: BTreeMap<(u64, u64), Proposal>,
    notarized: HashMap<(u64, u64), Proposal>,
    /// What went wrong first.
    failed: Option<String>,
    /// The highest epoch, and the highest view of it that was final when the network became quiet.
    epoch: u64,
    base: u64,
}

impl World {
    pub fn new(run: Config) -> Self {
        lead_as(&run);
        let (count, seed) = (run.count, run.seed);
        let calls = |it| Calls::new(mixed(seed, u64::from(it)), run.refuses);
        let nodes = (0..count).map(|it| Node::new(calls(it), run.signer_errs));
        let mut world = World {
            now: 0,
            planned: BinaryHeap::new(),
            number: 0,
            nodes: nodes.collect(),
            numbers: Numbers::of(seed ^ 0x1234567),
            reached: Reached::none(),
            adversary: Adversary::default(),
            side: vec![false; count as usize],
            finals: BTreeMap::new(),
            notarized: HashMap::new(),
            failed: None,
            epoch: 0,
            base: 0,
            run,
        };
        for it in world.run.honest() {
            let start = world.numbers.below(2 * DELTA);
            world.plan(start, Event::Restart(it, 0));
            world.plan_crash(it);
            world.plan_mean(world.run.asks, Event::Ask(it));
        }
        world.plan_mean(world.run.life_of_all, Event::CrashOfAll);
        world.plan_mean(world.run.partition, Event::Partition);
        world.plan(world.run.quiet, Event::Quiet);
        world
    }

    fn plan(&mut self, time: u64, event: Event) {
        self.number += 1;
        self.planned.push(Planned {
            time: time.max(self.now),
            number: self.number,
            event,
        });
    }

    /// Plans it for after so long, at the mean, unless that is 0 or the network is quiet by then.
    fn plan_mean(&mut self, mean: u64, event: Event) {
        let time = self.now + 1 + self.numbers.below(2 * mean);
        if mean > 0 && time < self.run.quiet {
            self.plan(time, event);
        }
    }

    fn plan_crash(&mut self, it: u32) {
        self.plan_mean(self.run.life, Event::Crash(it));
    }

    fn is_quiet(&self) -> bool {
        self.now >= self.run.quiet
    }

    fn fail(&mut self, why: String) {
        let time = self.now;
        self.failed
            .get_or_insert_with(|| format!("{why} [at {time}]"));
    }

    fn node(&mut self, it: u32) -> &mut Node {
        &mut self.nodes[it as usize]
    }

    /// Its validator, where it runs in this life, or may be in another one.
    fn driver(&mut self, it: u32, life: u32) -> Option<&mut Driver> {
        let stale = self.run.stale;
        let node = &mut self.nodes[it as usize];
        let driver = node.driver.as_mut()?;
        if node.life == life {
            return Some(driver);
        }
        if !stale {
            return None;
        }
        self.reached.note(Mark::StaleAnswer);
        Some(driver)
    }

    fn start(&mut self, it: u32) {
        let quiet = self.is_quiet();
        let node = &mut self.nodes[it as usize];
        let made = Driver::start(&self.run, node.epoch, it, &node.disk.bytes, &mut node.calls);
        match made {
            Ok(mut driver) => {
                if quiet {
                    driver.grant_all();
                }
                node.live(driver);
                self.go_on(it);
            }
            Err(Fault::Memory) => {
                let life = node.life;
                self.plan(self.now + 1, Event::Restart(it, life));
            }
            Err(Fault::Broken(why)) => self.fail(format!("UNSTARTED: {it}: {why}")),
        }
    }

    fn crash(&mut self, it: u32) {
        let node = &mut self.nodes[it as usize];
        if node.driver.is_none() {
            return;
        }
        let under_way = node.disk.under_way.len();
        let left = self.numbers.below(under_way as u64 + 1) as usize;
        node.die(left);
        let life = node.life;
        if self.run.wipes > 0 && self.numbers.chance(self.run.wipes) {
            node.begin_epoch(node.epoch);
        }
        self.reached.note(Mark::Crash);
        if under_way > 0 {
            self.reached.note(Mark::CrashInWrite);
        }
        let up = self.now + 1 + self.numbers.below(2 * self.run.down + 1);
        let up = if self.is_quiet() {
            up
        } else {
            up.min(self.run.quiet)
        };
        self.plan(up, Event::Restart(it, life));
    }

    /// Where the view that ends its epoch is final, it goes on to the next one. Once the network is
    /// quiet that is for those who fell behind.
    fn may_end_epoch(&mut self, it: u32) {
        let node = &self.nodes[it as usize];
        let (epoch, life, last) = (node.epoch, node.life, node.last);
        if self.run.epoch_ends == 0 || last < self.run.epoch_ends {
            return;
        }
        let is_behind = epoch < self.epoch;
        if is_behind && self.is_quiet() {
            self.reached.note(Mark::EpochEnded);
        }
        if is_behind || !self.is_quiet() {
            let time = self.now + self.delay(3 * TIMEOUT);
            self.plan(time, Event::NextEpoch(it, life));
        }
    }

    fn begin_epoch(&mut self, it: u32, life: u32) {
        let node = &mut self.nodes[it as usize];
        let (epoch, last) = (node.epoch, node.last);
        let Some(driver) = node.driver.as_mut().filter(|_| node.life == life) else {
            return;
        };
        // What ends the epoch is kept for those who fell behind.
        match driver.kept(Kind::Finalization, round(epoch, last)) {
            Ok(Kept::Certificate(ended)) => {
                node.past.insert(epoch, ended);
                node.die(0);
                node.begin_epoch(epoch + 1);
                self.reached.note(Mark::NextEpoch);
                if epoch == self.epoch {
                    self.epoch += 1;
                    self.base = 0;
                }
                self.start(it);
            }
            // A later one is known, and not given yet.
            Ok(Kept::Nothing | Kept::Later) | Err(Fault::Memory) => {
                let later = self.now + 1 + self.numbers.below(DELTA);
                self.plan(later, Event::NextEpoch(it, life));
            }
            Err(Fault::Broken(why)) => self.fail(format!("KEPT: {it}: {why}")),
        }
    }

    fn handle(&mut self, event: Event) {
        match event {
            Event::Hear(from, to, message) => self.hear(from, to, message),
            Event::Written(it, life) => self.written(it, life),
            Event::Verdicts(it, life, wanted) => self.conclude(it, life, wanted),
            Event::Signed(it, life, subject) => {
                self.signed(it, life, subject);
                self.go_on(it);
            }
            Event::Judged(it, life, proposal, is_valid) => {
                if !is_valid {
                    let (view, node) = (proposal.round.view.get(), self.node(it));
                    node.over = node.over.max(view.min(node.view));
                }
                if let Some(driver) = self.driver(it, life) {
                    driver.judge(&proposal, is_valid);
                    self.go_on(it);
                }
            }
            Event::Proposed(it, life, view, parent) => {
                if self.driver(it, life).is_some() {
                    self.propose(it, view, parent);
                    self.go_on(it);
                }
            }
            Event::Timer(it, life, view, timer) => self.expire(it, life, view, timer),
            Event::Ask(it) => self.ask(it),
            Event::GoOn(it, life) => {
                if self.node(it).life == life {
                    self.go_on(it);
                }
            }
            Event::Crash(it) => {
                if !self.is_quiet() {
                    self.crash(it);
                    self.plan_crash(it);
                }
            }
            Event::CrashOfAll => {
                for it in self.run.honest() {
                    self.crash(it);
                }
                self.reached.note(Mark::CrashOfAll);
                self.plan_mean(self.run.life_of_all, Event::CrashOfAll);
            }
            Event::Restart(it, life) => {
                let node = self.node(it);
                if node.driver.is_none() && node.life == life {
                    if life > 0 && node.disk.bytes.is_empty() {
                        self.reached.note(Mark::BegunAgain);
                    }
                    self.start(it);
                }
            }
            Event::NextEpoch(it, life) => self.begin_epoch(it, life),
            Event::Partition => self.partition(),
            Event::Quiet => {
                self.side.fill(false);
                for node in &mut self.nodes {
                    if let Some(driver) = &mut node.driver {
                        driver.grant_all();
                    }
                }
                let honest = self.run.honest();
                let last = honest.iter().map(|it| &self.nodes[*it as usize]);
                let epoch = self.epoch;
                let last = last.filter(|it| it.epoch == epoch).map(|it| it.last);
                self.base = last.max().unwrap_or(0);
            }
            Event::Sends(from, to, message) => {
                for it in to {
                    let time = self.now + 1 + self.number % 7;
                    self.plan(time, Event::Hear(from, it, message.clone()));
                }
            }
        }
    }

    /// Whether all honest ones have gone on as far as they are to.
    fn has_settled(&self) -> bool {
        let (epoch, wanted) = (self.epoch, self.base + MORE);
        let nodes = self.run.honest().into_iter();
        nodes
            .map(|it| &self.nodes[it as usize])
            .all(|it| it.driver.is_some() && it.epoch == epoch && it.last >= wanted)
    }

    /// How many proposals are in the chain that is final by the time the network becomes quiet, or what
    /// went wrong before.
    pub fn pace(&mut self) -> Result<u64, String> {
        while let Some(it) = self.planned.pop() {
            if it.time >= self.run.quiet || self.failed.is_some() {
                break;
            }
            self.now = it.time;
            self.handle(it.event);
            self.count_event();
        }
        match &self.failed {
            Some(failed) => Err(failed.clone()),
            None => Ok(self.chain()),
        }
    }

    /// How many proposals are in the chain of the last one that is final.
    fn chain(&self) -> u64 {
        let (mut count, mut last) = (0, self.finals.last_key_value().map(|it| it.1));
        while let Some(proposal) = last {
            let parent = (proposal.round.epoch.get(), proposal.parent.get());
            count += 1;
            last = self.notarized.get(&parent);
        }
        count
    }

    fn count_event(&mut self) {
        self.reached.note(Mark::Event);
        let events = self.reached.times(Mark::Event);
        if events > self.run.most_events {
            let far = self.far();
            self.fail(format!("TOO LONG: {events} events{far}"));
        }
    }

    /// Plays it to its end. None is well.
    pub fn play(&mut self) -> Option<String> {
        let patience = match (self.run.agrees, self.run.doubles) {
            (true, false) => PATIENCE,
            (true, true) => 4 * PATIENCE,
            // They needn't go on.
            (false, _) => 20,
        };
        let end = self.run.quiet + patience * TIMEOUT;
        let mut settled = false;
        while let Some(it) = self.planned.pop() {
            self.now = it.time;
            if self.now > end || self.failed.is_some() {
                break;
            }
            self.handle(it.event);
            self.count_event();
            let events = self.reached.times(Mark::Event);
            if events % 32 == 0 && self.is_quiet() && self.run.agrees && self.has_settled() {
                settled = true;
                break;
            }
        }
        if self.run.agrees && !settled && self.failed.is_none() {
            let far = self.far();
            self.fail(format!(
                "STUCK: base {} of epoch {}{far}",
                self.base, self.epoch
            ));
        }
        for node in &mut self.nodes {
            node.die(0);
            if let Some(calls) = &node.calls {
                self.reached.add(&calls.reached);
            }
        }
        self.failed.clone()
    }

    /// How far each honest one is, and why it hangs.
    fn far(&mut self) -> String {
        let honest = self.run.honest();
        let views = honest.iter().map(|it| self.nodes[*it as usize].view);
        let top = views.max().unwrap_or(0);
        let mut text = String::new();
        for it in honest {
            let node = &mut self.nodes[it as usize];
            let (epoch, view, last, life) = (node.epoch, node.view, node.last, node.life);
            text += &format!("\n    {it}: epoch {epoch}, view {view}, final {last}, life {life}");
            let Some(driver) = &mut node.driver else {
                text += ", down";
                continue;
            };
            let mut kept = Vec::new();
            for view in view..=top + 1 {
                for (kind, name) in [
                    (Kind::Notarization, "N"),
                    (Kind::Nullification, "0"),
                    (Kind::Finalization, "F"),
                ] {
                    if driver.has_certificate(kind, round(epoch, view)) {
                        kept.push(format!("{name}{view}"));
                    }
                }
            }
            kept.truncate(12);
            text += &format!(", kept from its view on {}", kept.join(" "));
            text += &format!("; {}", driver.expire(view));
        }
        text
    }

    /// Who leads it, where that is a faulty one.
    fn faulty_leader(&self, view: u64) -> Option<u32> {
        let leader = self.run.leader(view);
        self.run.is_faulty(leader).then_some(leader)
    }
}
