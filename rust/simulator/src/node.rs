//! A validator of the network, with what it has said in all of its lives.

use crate::driver::{Calls, Driver};
use crate::messages::Signature;
use batcher::validator::{Listed, Write};
use batcher::{Kind, Subject};
use std::collections::{BTreeMap, HashMap, HashSet, VecDeque};

/// What is written, and what is being written: a crash leaves the first so many of these.
#[derive(Default)]
pub struct Disk {
    pub bytes: Vec<u8>,
    pub under_way: VecDeque<Write>,
    /// When all that is under way is done.
    pub free_at: u64,
    /// Whether what was written last was put behind what is there.
    pub appended: bool,
    /// Own signatures that are in the bytes.
    there: HashSet<Signature>,
}

/// What a validator is given only once in a life, or once behind each timer.
pub type Given = (u8, u64, u64, u64);

pub struct Node {
    pub driver: Option<Driver>,
    /// Of calls while it is stopped.
    pub calls: Option<Calls>,
    pub epoch: u64,
    pub disk: Disk,
    /// How often it was started.
    pub life: u32,
    /// The view that it is in, and the last one that is final, in this epoch and life.
    pub view: u64,
    pub last: u64,
    /// The number of its timer.
    pub timer: u64,
    /// How many timers have ended in this life.
    pub expired: u64,
    /// The last view whose timer ended, or of which a proposal isn't valid.
    pub over: u64,
    pub given: HashSet<Given>,
    /// Whether a task waits that memory was refused for, and whether a timer ended meanwhile: then it
    /// may be given once more.
    pub waits: bool,
    pub waited: bool,
    /// Signatures that wait until no write is under way.
    pub held: Vec<Subject>,
    /// Its own signatures, and those that were ever on its disk.
    own: HashSet<Signature>,
    written: HashSet<Signature>,
    /// What it voted for, as anybody was ever shown.
    shown: HashMap<(u64, Kind, u64), Subject>,
    /// Of each epoch that it left a finalization that ended it.
    pub past: BTreeMap<u64, Listed>,
    /// Whether its signer is still to err.
    pub errs: bool,
}

impl Node {
    pub fn new(calls: Calls, errs: bool) -> Self {
        Node {
            driver: None,
            calls: Some(calls),
            epoch: 0,
            disk: Disk::default(),
            life: 0,
            view: 0,
            last: 0,
            timer: 0,
            expired: 0,
            over: 0,
            given: HashSet::new(),
            waits: false,
            waited: false,
            held: Vec::new(),
            own: HashSet::new(),
            written: HashSet::new(),
            shown: HashMap::new(),
            past: BTreeMap::new(),
            errs,
        }
    }

    /// A life begins.
    pub fn live(&mut self, driver: Driver) {
        self.driver = Some(driver);
        self.life += 1;
        self.view = 0;
        self.last = 0;
        self.expired = 0;
        self.over = 0;
        self.given.clear();
        self.waits = false;
        self.waited = false;
    }

    /// A life ends, of which the disk has all but the last writes.
    pub fn die(&mut self, writes: usize) {
        for _ in 0..writes {
            let write = self.disk.under_way.pop_front();
            self.put(&write.expect("it is under way"));
        }
        self.disk.under_way.clear();
        self.disk.free_at = 0;
        self.held.clear();
        if let Some(driver) = self.driver.take() {
            self.calls = Some(driver.stop());
        }
    }

    /// It has another disk from now on, and what it wrote to the last one is of no use.
    pub fn begin_epoch(&mut self, epoch: u64) {
        self.epoch = epoch;
        self.disk = Disk::default();
    }

    /// A write is on the disk.
    pub fn put(&mut self, write: &Write) {
        if write.replaces() {
            self.disk.bytes.clear();
            self.disk.there.clear();
        }
        self.disk.appended = !write.replaces();
        self.disk.bytes.extend_from_slice(write.bytes());
        for place in write.bytes().windows(size_of::<Signature>()) {
            let place = place.try_into().expect("a signature's width");
            if self.own.contains(&place) {
                self.disk.there.insert(place);
                self.written.insert(place);
            }
        }
    }

    /// It has signed.
    pub fn sign(&mut self, signature: Signature) {
        self.own.insert(signature);
    }

    /// Whether a signature is on its disk now.
    pub fn is_there(&self, signature: &Signature) -> bool {
        self.disk.there.contains(signature)
    }

    /// Whether a signature was ever on its disk.
    pub fn was_there(&self, signature: &Signature) -> bool {
        self.written.contains(signature)
    }

    /// Somebody is shown that it voted for this. Says what contradicts it.
    pub fn show(&mut self, subject: Subject) -> Result<(), Subject> {
        let round = subject.round();
        let place = |kind| (round.epoch.get(), kind, round.view.get());
        let first = *self.shown.entry(place(subject.kind())).or_insert(subject);
        if first != subject {
            return Err(first);
        }
        let other = match subject.kind() {
            Kind::Notarization => return Ok(()),
            Kind::Nullification => Kind::Finalization,
            Kind::Finalization => Kind::Nullification,
        };
        self.shown.get(&place(other)).map_or(Ok(()), |it| Err(*it))
    }
}
