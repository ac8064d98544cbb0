//! A validator with its disk, its key and its verifier, each of which may fail, and a caller who
//! may err. None of that has a validator contradict itself, and what isn't well is answered.

mod shared;
mod toy;

use batcher::driver::{
    Action, Cause, Check, DriveError, Driver, Heard, Judge, Message, OpenError, Propose, Reply,
    Signer, Store, Unsigned, Verifier,
};
use batcher::positions::Round;
use batcher::validator::{Options, StartError, Write};
use batcher::{
    BlockReason, Certificate, Epoch, Files, Kind, Opened, Participant, Proposal, Sha256Digest,
    Subject, View, convicted,
};
use shared::{Folder, options, put};
use std::collections::{BTreeMap, BTreeSet};
use std::panic::{AssertUnwindSafe, catch_unwind};
use std::sync::mpsc::{Receiver, RecvTimeoutError, channel};
use std::sync::{Arc, Mutex};
use std::thread::sleep;
use std::time::{Duration, Instant};
use toy::{Signature, Toy, attests, sign, vote};

fn leader(view: View) -> Participant {
    Participant::new((view.get() % 4) as u32)
}

fn round(view: u64) -> Round {
    Round::new(Epoch::zero(), View::new(view))
}

/// A disk that is memory and outlives its validator.
#[derive(Clone, Default)]
struct Disk(Arc<Mutex<State>>);

#[derive(Default)]
struct State {
    bytes: Vec<u8>,
    writes: u64,
    /// The write of this number fails, once this many bytes of it are there.
    fails: Option<(u64, usize)>,
    panics: Option<u64>,
    takes: Duration,
}

impl Disk {
    fn set(&self, change: impl FnOnce(&mut State)) {
        change(&mut self.0.lock().unwrap());
    }

    fn bytes(&self) -> Vec<u8> {
        self.0.lock().unwrap().bytes.clone()
    }
}

impl Store for Disk {
    type Error = &'static str;

    fn write(&mut self, write: &Write) -> Result<(), &'static str> {
        let takes = self.0.lock().unwrap().takes;
        sleep(takes);
        let mut state = self.0.lock().unwrap();
        state.writes += 1;
        let number = state.writes;
        if state.panics == Some(number) {
            drop(state);
            panic!("the store panics");
        }
        match state.fails {
            Some((at, there)) if at <= number => {
                if there > 0 {
                    put(&mut state.bytes, write);
                }
                Err("no space left")
            }
            _ => {
                put(&mut state.bytes, write);
                Ok(())
            }
        }
    }
}

type Signs = dyn FnMut(&Subject) -> Result<Signature, &'static str> + Send;

/// Signs by a function.
struct Key(Box<Signs>);

impl Key {
    fn of(me: u32) -> Self {
        Key(Box::new(move |subject| Ok(sign(subject, me))))
    }
}

impl Signer for Key {
    type Signature = Signature;
    type Error = &'static str;

    fn sign(&mut self, subject: &Subject, message: &[u8]) -> Result<Signature, &'static str> {
        assert!(!message.is_empty());
        (self.0)(subject)
    }
}

type Verdicts = dyn FnMut(&[Check<Signature>]) -> Vec<bool> + Send;

/// Verifies by a function.
struct Keys(Box<Verdicts>);

impl Keys {
    fn good() -> Self {
        Keys(Box::new(truth))
    }
}

fn truth(checks: &[Check<Signature>]) -> Vec<bool> {
    let attests = |it: &Check<Signature>| attests(it.subject(), it.attestation());
    checks.iter().map(attests).collect()
}

impl Verifier for Keys {
    type Signature = Signature;

    fn attests(&mut self, check: &Check<Signature>) -> bool {
        self.verify(&[*check])[0]
    }

    fn verify(&mut self, checks: &[Check<Signature>]) -> Vec<bool> {
        (self.0)(checks)
    }
}

type Driving = Driver<Disk, Key, Keys>;
type Said = Message<Signature>;

/// A validator, and what it did in all of its lives.
struct Node {
    me: u32,
    disk: Disk,
    driver: Driving,
    finals: BTreeMap<View, Proposal>,
    blocked: BTreeSet<(u32, String)>,
    unsigned: Vec<(Subject, Unsigned<&'static str>)>,
    sent: Vec<Subject>,
    ended: Option<DriveError<&'static str>>,
    life: u8,
}

fn driver(me: u32, disk: &Disk, key: Key, keys: Keys) -> Driving {
    Driver::with_store(disk.clone(), &disk.bytes(), &options(me), leader, key, keys).unwrap()
}

impl Node {
    fn with(me: u32, key: Key, keys: Keys) -> Self {
        let disk = Disk::default();
        Node {
            me,
            driver: driver(me, &disk, key, keys),
            disk,
            finals: BTreeMap::new(),
            blocked: BTreeSet::new(),
            unsigned: Vec::new(),
            sent: Vec::new(),
            ended: None,
            life: 1,
        }
    }

    /// It is started again by its disk, with another payload and parts that don't fail.
    fn start_again(&mut self) {
        self.disk.set(|it| (it.fails, it.panics) = (None, None));
        // The earlier one is dropped first, so that it writes nothing any more.
        let other = driver(self.me, &Disk::default(), Key::of(self.me), Keys::good());
        drop(std::mem::replace(&mut self.driver, other));
        self.driver = driver(self.me, &self.disk, Key::of(self.me), Keys::good());
        (self.life, self.ended) = (self.life + 1, None);
    }

    /// Does all that is to be done, and gives what it sends.
    fn go_on(&mut self) -> Vec<Said> {
        let mut said = Vec::new();
        if self.ended.is_some() {
            return said;
        }
        for count in 0.. {
            assert!(count < 1000, "there is no end");
            match self.driver.poll() {
                Ok(Action::Wait) => break,
                Ok(Action::Send(message)) => {
                    if let Message::Vote(vote) = &message {
                        self.note_sent(vote.subject());
                    }
                    said.push(message);
                }
                Ok(Action::Enter { view, leader: by }) => {
                    assert_eq!((view, by), (self.driver.view(), leader(view)));
                }
                Ok(Action::Propose(wish)) => {
                    assert_eq!(wish.before().is_none(), wish.parent() == View::zero());
                    let payload = Sha256Digest([self.life; 32]);
                    assert_eq!(self.driver.propose(wish, payload), Reply::Taken);
                }
                Ok(Action::Judge(wish)) => {
                    let parent = wish.proposal().parent;
                    assert_eq!(wish.before().is_none(), parent == View::zero());
                    assert_eq!(self.driver.judge(wish, true), Reply::Taken);
                }
                Ok(Action::Forward(..)) => {}
                Ok(Action::Final(proposal)) => {
                    assert_eq!(self.driver.last_final(), proposal.round.view);
                    self.finals.insert(proposal.round.view, proposal);
                }
                Ok(Action::Block(peer, cause)) => {
                    assert!(self.driver.is_blocked(peer));
                    self.blocked.insert((peer.get(), cause.to_string()));
                }
                Ok(Action::Unsigned(subject, why)) => self.unsigned.push((subject, why)),
                Err(error) => {
                    self.ended = Some(error);
                    break;
                }
            }
        }
        said
    }

    /// None of its lives contradicts another one, and what it sends is on its disk, where one
    /// looks.
    fn note_sent(&mut self, subject: Subject) {
        for earlier in self.sent.iter().filter(|it| it.round() == subject.round()) {
            let is_other = earlier.kind() == subject.kind() && *earlier != subject;
            let kinds = [earlier.kind(), subject.kind()];
            let is_both =
                kinds.contains(&Kind::Nullification) && kinds.contains(&Kind::Finalization);
            assert!(!is_other && !is_both, "{earlier:?} and {subject:?}");
        }
        self.sent.push(subject);
        // That takes a while.
        if self.sent.len() % 16 != 1 {
            return;
        }
        // Its own votes come first.
        let (mut is_written, mut is_own) = (false, true);
        let verify = |checks: &[Check<Signature>]| {
            for check in checks {
                is_own &= check.signer() == Participant::new(self.me);
                is_written |= is_own && *check.subject() == subject;
            }
            truth(checks)
        };
        let bytes = self.disk.bytes();
        let looks = Looks(verify);
        let started = Driver::with_store(
            Disk::default(),
            &bytes,
            &options(self.me),
            leader,
            Key::of(self.me),
            looks,
        );
        drop(started.unwrap());
        assert!(is_written, "the disk lacks {subject:?}");
    }
}

struct Looks<F>(F);

impl<F: FnMut(&[Check<Signature>]) -> Vec<bool>> Verifier for Looks<F> {
    type Signature = Signature;

    fn attests(&mut self, check: &Check<Signature>) -> bool {
        (self.0)(&[*check])[0]
    }

    fn verify(&mut self, checks: &[Check<Signature>]) -> Vec<bool> {
        (self.0)(checks)
    }
}

type Order = Box<dyn FnMut(&mut Vec<(u32, Said)>)>;

struct Four {
    all: Vec<Node>,
    /// How messages are put in another order.
    order: Order,
    away: BTreeSet<u32>,
}

impl Four {
    /// The first has these parts, and nothing of the others fails.
    fn new(key: Key, keys: Keys) -> Self {
        let mut all = vec![Node::with(0, key, keys)];
        all.extend((1..4).map(|me| Node::with(me, Key::of(me), Keys::good())));
        Four {
            all,
            order: Box::new(|_| {}),
            away: BTreeSet::new(),
        }
    }

    fn good() -> Self {
        Four::new(Key::of(0), Keys::good())
    }

    fn run(&mut self, times: usize) {
        for _ in 0..times {
            let mut sent = Vec::new();
            for it in &mut self.all {
                let said = it.go_on();
                sent.extend(said.into_iter().map(|message| (it.me, message)));
            }
            if sent.is_empty() {
                for it in &mut self.all {
                    let _ = it.driver.expire(it.driver.view());
                }
            }
            (self.order)(&mut sent);
            for (sender, message) in sent {
                let is_away = |it: u32| self.away.contains(&it);
                for it in self.all.iter_mut().filter(|it| it.me != sender) {
                    if is_away(sender) || is_away(it.me) || it.ended.is_some() {
                        continue;
                    }
                    match it.driver.hear(Participant::new(sender), &message) {
                        Ok(_) => {}
                        Err(error) => it.ended = Some(error),
                    }
                }
            }
        }
    }

    /// So many views are final at each of these, all agree, and they block those and nobody else.
    fn check(&self, which: std::ops::Range<usize>, views: usize, blocks: &[u32]) {
        let mut chain = BTreeMap::new();
        for it in &self.all {
            for (view, proposal) in &it.finals {
                assert_eq!(chain.entry(*view).or_insert(*proposal), proposal);
            }
        }
        for it in &self.all[which] {
            assert!(it.finals.len() >= views, "{}: {:?}", it.me, it.driver);
            let named: BTreeSet<u32> = it.blocked.iter().map(|it| it.0).collect();
            assert_eq!(named, blocks.iter().copied().collect());
            assert_eq!(it.ended, None);
        }
    }

    fn clear(&mut self) {
        self.all.iter_mut().for_each(|it| it.finals.clear());
    }
}

#[test]
fn goes_on() {
    let mut four = Four::good();
    four.run(60);
    four.check(0..4, 10, &[]);
    assert!(four.all.iter().all(|it| it.unsigned.is_empty()));
}

#[test]
fn hears_messages_out_of_order() {
    let orders: [Order; 2] = [
        Box::new(|all| all.reverse()),
        Box::new(|all| all.sort_by_key(|it| (it.1.subject().kind(), u32::MAX - it.0))),
    ];
    for order in orders {
        let mut four = Four::good();
        four.order = order;
        four.run(60);
        four.check(0..4, 10, &[]);
    }
}

/// Whichever write it is, and whether the bytes are there or not.
#[test]
fn ends_where_the_store_fails() {
    for at in 1..=8 {
        let mut four = Four::good();
        four.all[0]
            .disk
            .set(|it| it.fails = Some((at, at as usize % 2)));
        four.run(60);
        let first = &mut four.all[0];
        assert_eq!(first.ended, Some(DriveError::Store("no space left")));
        let text = first.ended.unwrap().to_string();
        let wanted = "the store failed: no space left: start the validator again by its disk";
        assert_eq!(text, wanted);
        // Nothing is done from then on.
        assert_eq!(first.driver.poll().unwrap_err(), DriveError::Ended);
        let subject = Subject::Nullify { round: round(1) };
        let message = Message::Vote(vote(subject, 1));
        let heard = first.driver.hear(Participant::new(1), &message);
        assert_eq!(heard, Err(DriveError::Ended));
        four.check(1..4, 5, &[]);
        four.clear();
        four.all[0].start_again();
        four.run(60);
        four.check(0..4, 5, &[]);
    }
}

#[test]
fn ends_where_the_store_panics() {
    let mut four = Four::good();
    four.all[0].disk.set(|it| it.panics = Some(5));
    let ended = catch_unwind(AssertUnwindSafe(|| four.run(60)));
    assert!(ended.is_err());
    let first = &mut four.all[0];
    assert_eq!(first.driver.poll().unwrap_err(), DriveError::Gone);
    first.start_again();
    four.run(60);
    four.check(0..4, 5, &[]);
}

/// It says so, goes on without, and is asked again.
#[test]
fn goes_on_where_the_signer_errs() {
    let mut count = 0;
    let key = Key(Box::new(move |subject| {
        count += 1;
        if count % 3 == 1 {
            return Err("the key is busy");
        }
        Ok(sign(subject, 0))
    }));
    let mut four = Four::new(key, Keys::good());
    four.run(100);
    four.check(0..4, 10, &[]);
    let first = &four.all[0];
    assert!(first.unsigned.len() >= 3);
    let refused = |it: &(Subject, Unsigned<_>)| it.1 == Unsigned::Refused("the key is busy");
    assert!(first.unsigned.iter().all(refused));
}

#[test]
fn is_asked_again_where_the_signer_erred() {
    let mut count = 0;
    let key = Key(Box::new(move |subject| {
        count += 1;
        if count == 1 {
            return Err("the key is busy");
        }
        Ok(sign(subject, 0))
    }));
    let mut first = Node::with(0, key, Keys::good());
    let _ = first.go_on();
    let subject = Subject::Nullify { round: round(1) };
    let _ = first.driver.expire(View::new(1));
    assert!(first.go_on().is_empty());
    assert_eq!(
        first.unsigned,
        [(subject, Unsigned::Refused("the key is busy"))]
    );
    assert!(first.go_on().is_empty());
    let _ = first.driver.expire(View::new(1));
    assert_eq!(first.go_on(), [Message::Vote(vote(subject, 0))]);
}

/// What doesn't attest is neither written nor sent, so that nobody blocks for it.
#[test]
fn goes_on_where_the_signer_signs_badly() {
    let mut count = 0;
    let key = Key(Box::new(move |subject| {
        count += 1;
        let mut signature = sign(subject, 0);
        signature[6] -= u8::from(count % 3 == 1);
        Ok(signature)
    }));
    let mut four = Four::new(key, Keys::good());
    four.run(100);
    four.check(0..4, 10, &[]);
    let first = &four.all[0];
    assert!(first.unsigned.len() >= 3);
    let not_verified = |it: &(Subject, Unsigned<_>)| it.1 == Unsigned::NotVerified;
    assert!(first.unsigned.iter().all(not_verified));
}

#[test]
fn blocks_whose_signatures_dont_attest() {
    let mut four = Four::good();
    // All say of the last one that its signatures don't attest.
    for it in &mut four.all[..3] {
        let keys = Keys(Box::new(|checks| {
            let all = checks.iter().zip(truth(checks));
            all.map(|(it, good)| good && it.signer() != Participant::new(3))
                .collect()
        }));
        it.driver = driver(it.me, &it.disk, Key::of(it.me), keys);
    }
    four.run(100);
    four.check(0..3, 10, &[3]);
    let why = (3, Cause::Signature.to_string());
    assert!(four.all[..3].iter().all(|it| it.blocked.contains(&why)));
}

/// Nobody is blocked by verdicts that can't be given to whom they are of.
#[test]
fn ends_where_verdicts_are_missing() {
    for more in [false, true] {
        let mut four = Four::new(
            Key::of(0),
            Keys(Box::new(move |checks| {
                let mut verdicts = truth(checks);
                if checks.len() > 1 {
                    if more {
                        verdicts.push(true);
                    } else {
                        verdicts.pop();
                    }
                }
                verdicts
            })),
        );
        four.run(60);
        let first = &mut four.all[0];
        assert!(
            matches!(first.ended, Some(DriveError::Verdicts { wanted, given })
            if given == wanted + 1 - 2 * usize::from(!more))
        );
        assert!(first.blocked.is_empty());
        four.check(1..4, 5, &[]);
        // Neither does it start with such a verifier.
        let few = Keys(Box::new(|_| Vec::new()));
        let disk = &four.all[1].disk;
        let (bytes, options) = (disk.bytes(), options(1));
        let started = Driver::with_store(disk.clone(), &bytes, &options, leader, Key::of(1), few);
        assert_eq!(started.err(), Some(StartError::NotVerified));
    }
}

#[test]
fn starts_again_by_its_disk() {
    let mut four = Four::good();
    for time in 0..40 {
        four.run(1 + time % 4);
        if time % 5 == 4 {
            four.all.iter_mut().for_each(Node::start_again);
        } else {
            four.all[time % 4].start_again();
        }
    }
    four.clear();
    four.run(60);
    four.check(0..4, 10, &[]);
}

/// One is away, and goes on by what another one has for it.
#[test]
fn helps_who_fell_behind() {
    let mut four = Four::good();
    four.away.insert(3);
    four.run(200);
    four.check(0..3, 10, &[]);
    four.away.clear();
    let late = Message::Vote(vote(Subject::Nullify { round: round(1) }, 3));
    let first = &mut four.all[0].driver;
    assert_eq!(first.hear(Participant::new(3), &late), Ok(Heard::Behind));
    assert_eq!(first.help(View::zero(), 1).unwrap().len(), 1);
    let (last, help) = (first.last_final(), first.help(View::zero(), 64).unwrap());
    assert!(last > View::new(10));
    let other = &mut four.all[3];
    for certificate in help {
        let message = Message::Certificate(certificate);
        let heard = other.driver.hear(Participant::new(0), &message).unwrap();
        assert_eq!(heard, Heard::Taken);
    }
    let _ = other.go_on();
    assert!(other.driver.last_final() >= last && other.driver.view() > last);
    four.clear();
    four.run(40);
    four.check(0..4, 5, &[]);
}

#[test]
fn says_what_became_of_a_message() {
    let mut four = Four::good();
    four.run(40);
    let first = &mut four.all[0];
    let view = first.driver.view().get();
    let sender = Participant::new(1);
    let said = |view, signer| {
        let round = round(view);
        Message::Vote(vote(Subject::Nullify { round }, signer))
    };
    let mut hear = |sender, message: &Said| first.driver.hear(sender, message).unwrap();
    assert_eq!(hear(sender, &said(view, 1)), Heard::Taken);
    assert_eq!(hear(sender, &said(view, 1)), Heard::Known);
    assert_eq!(hear(sender, &said(1, 1)), Heard::Behind);
    assert_eq!(hear(sender, &said(view + 100, 1)), Heard::Ahead);
    let round_9 = Round::new(Epoch::new(9), View::new(view));
    let other = vote(Subject::Nullify { round: round_9 }, 1);
    assert_eq!(hear(sender, &Message::Vote(other)), Heard::OtherEpoch);
    assert_eq!(hear(Participant::new(0), &said(view, 1)), Heard::Own);
    assert_eq!(hear(Participant::new(4), &said(view, 1)), Heard::Unknown);
    let certificate = |round, content| Certificate::new(Subject::Nullify { round }, content);
    for (sender, round, heard) in [
        (1, round(1), Heard::Behind),
        (1, round_9, Heard::OtherEpoch),
        (0, round(view), Heard::Own),
        (4, round(view), Heard::Unknown),
        (2, round(view), Heard::Faulty(Cause::Certificate, None)),
        (2, round(view), Heard::Blocked),
    ] {
        let message = Message::Certificate(certificate(round, vec![7; 40]));
        assert_eq!(hear(Participant::new(sender), &message), heard);
    }
    assert_eq!(hear(Participant::new(2), &said(view, 2)), Heard::Blocked);
    // A vote that contradicts another is evidence.
    let subject = Subject::Finalize {
        proposal: Proposal::new(round(view), View::new(view - 1), Sha256Digest([3; 32])),
    };
    let why = Cause::Vote(BlockReason::FinalizeAfterNullify);
    match hear(sender, &Message::Vote(vote(subject, 1))) {
        Heard::Faulty(cause, Some(evidence)) => {
            assert_eq!(cause, why);
            let convicts = convicted(&*Toy::new(4), &evidence);
            assert_eq!(convicts, Ok(Some(sender)));
        }
        other => panic!("{other:?}"),
    }
    let _ = first.go_on();
    let named = [(1, why), (2, Cause::Certificate)].map(|it| (it.0, it.1.to_string()));
    assert_eq!(first.blocked, named.into());
    assert_eq!(first.driver.blocked().len(), 2);
    first.driver.block(Participant::new(3));
    first.driver.block(Participant::new(9));
    let heard = first.driver.hear(Participant::new(3), &said(view, 3));
    assert_eq!(heard, Ok(Heard::Blocked));
    assert_eq!(first.driver.blocked().len(), 3);
}

/// A validator that is alone, up to what it wants first.
fn wishes(driver: &mut Driving) -> (Option<Propose>, Option<Judge>) {
    let mut found = (None, None);
    loop {
        match driver.poll().unwrap() {
            Action::Wait => return found,
            Action::Propose(wish) => found.0 = Some(wish),
            Action::Judge(wish) => found.1 = Some(wish),
            _ => {}
        }
    }
}

#[test]
fn takes_each_answer_once_and_of_its_life_alone() {
    let disk = Disk::default();
    let mut early = driver(1, &disk, Key::of(1), Keys::good());
    let (Some(old), None) = wishes(&mut early) else {
        panic!("it leads view 1");
    };
    let mut late = driver(1, &disk, Key::of(1), Keys::good());
    let payload = Sha256Digest([1; 32]);
    assert_eq!(late.propose(old, payload), Reply::OtherLife);
    let (Some(new), _) = wishes(&mut late) else {
        panic!("it leads view 1");
    };
    assert_eq!((new.view(), new.parent()), (View::new(1), View::zero()));
    // The others finalize another view meanwhile.
    let mut four = Four::good();
    four.run(40);
    for certificate in four.all[0].driver.help(View::zero(), 8).unwrap() {
        let message = Message::Certificate(certificate);
        let _ = late.hear(Participant::new(0), &message).unwrap();
    }
    let _ = wishes(&mut late);
    assert_eq!(late.propose(new, payload), Reply::Over);
    // Nor is the time of a view over that isn't its.
    let view = late.view();
    assert!(late.expire(View::new(1)).is_none() && late.expire(View::new(u64::MAX)).is_none());
    assert!(late.expire(view).is_some_and(|it| it.quorum == 3));
}

#[test]
fn ends_where_the_leader_takes_no_part() {
    let disk = Disk::default();
    let of_one = |view: View| Participant::new(if view == View::new(3) { 4 } else { 0 });
    let options = Options {
        participants: 1,
        ..options(0)
    };
    let started = Driver::with_store(disk, &[], &options, of_one, Key::of(0), Keys::good());
    let mut driver = started.unwrap();
    let error = loop {
        match driver.poll() {
            Ok(Action::Propose(wish)) => {
                driver.propose(wish, Sha256Digest([1; 32]));
            }
            Ok(_) => {}
            Err(error) => break error,
        }
    };
    assert_eq!(error, DriveError::Leader(View::new(3)));
}

#[test]
fn waits_longer_where_nothing_is_final_and_for_no_leader_that_is_blocked() {
    let base = Duration::from_millis(100);
    let mut first = Node::with(0, Key::of(0), Keys::good());
    let _ = first.go_on();
    assert_eq!(first.driver.patience(base), base);
    first.driver.block(Participant::new(1));
    assert_eq!(first.driver.patience(base), Duration::ZERO);
    // That view was given up, and what there is to be done is to wait.
    let _ = first.driver.expire(View::new(1));
    assert_eq!(first.driver.patience(base), base);
    let mut longest = Vec::new();
    for view in 1..12 {
        let _ = first.go_on();
        let _ = first.driver.expire(View::new(view));
        longest.push(first.driver.patience(base) / 100);
        for signer in 2..4 {
            let said = vote(Subject::Nullify { round: round(view) }, signer);
            let _ = first
                .driver
                .hear(Participant::new(signer), &Message::Vote(said))
                .unwrap();
        }
    }
    let times = [1, 1, 1, 2, 4, 8, 16, 16, 16, 16, 16];
    assert_eq!(longest, times.map(Duration::from_millis));
}

#[test]
fn gives_up_each_view_of_who_is_absent() {
    let mut first = Node::with(0, Key::of(0), Keys::good());
    let mut given_up = Vec::new();
    for view in 1..=18 {
        let nullify = Subject::Nullify { round: round(view) };
        let is_over = |said: &Said| matches!(said, Message::Vote(it) if it.subject() == nullify);
        if first.go_on().iter().any(is_over) {
            given_up.push(view);
        }
        let _ = first.driver.expire(View::new(view));
        let _ = first.go_on();
        let mut hear = |signer, subject| {
            let said = Message::Vote(vote(subject, signer));
            let _ = first.driver.hear(Participant::new(signer), &said).unwrap();
        };
        hear(2, nullify);
        hear(3, nullify);
        // The other one leads views 1, 5, 9, 13 and 17, and is heard of once, by a view that is over.
        if view == 14 {
            hear(1, Subject::Nullify { round: round(1) });
        }
    }
    assert_eq!(given_up, [9, 13]);
}

/// Numbers that are no secret.
struct Numbers(u64);

impl Numbers {
    fn below(&mut self, count: u64) -> u64 {
        let next = self.0.wrapping_mul(6364136223846793005);
        self.0 = next.wrapping_add(1442695040888963407);
        (self.0 >> 33) % count
    }
}

/// Messages are lost and come in another order, signers err, and stores fail at any write, whose
/// bytes are there then or aren't.
#[test]
fn goes_on_whatever_fails() {
    for seed in 0..8 {
        let mut four = Four::good();
        let mut lost = Numbers(seed);
        four.order = Box::new(move |all| {
            all.retain(|_| lost.below(8) > 0);
            all.sort_by_cached_key(|_| lost.below(1000));
        });
        let mut numbers = Numbers(seed + 100);
        for _ in 0..12 {
            let one = numbers.below(4) as usize;
            let it = &mut four.all[one];
            it.start_again();
            let (me, mut errs) = (it.me, Numbers(seed + numbers.below(1000)));
            let key = Key(Box::new(move |subject| match errs.below(6) {
                0 => Err("the key is busy"),
                1 => Ok([9; 7]),
                _ => Ok(sign(subject, me)),
            }));
            let other = driver(me, &Disk::default(), Key::of(me), Keys::good());
            drop(std::mem::replace(&mut it.driver, other));
            it.driver = driver(me, &it.disk, key, Keys::good());
            let (soon, there) = (1 + numbers.below(8), numbers.below(2) as usize);
            it.disk.set(|it| it.fails = Some((it.writes + soon, there)));
            four.run(1 + numbers.below(8) as usize);
        }
        four.all.iter_mut().for_each(Node::start_again);
        four.order = Box::new(|_| {});
        four.clear();
        four.run(60);
        four.check(0..4, 5, &[]);
    }
}

#[test]
fn messages_are_their_bytes() {
    let proposal = Proposal::new(round(300), View::new(299), Sha256Digest([8; 32]));
    let subjects = [
        Subject::Notarize { proposal },
        Subject::Nullify { round: round(300) },
        Subject::Finalize { proposal },
    ];
    for subject in subjects {
        let certificate = Certificate::new(subject, vec![1, 2, 3]);
        for message in [
            Message::Vote(vote(subject, 258)),
            Message::Certificate(certificate),
        ] {
            let bytes = message.to_bytes();
            assert_eq!(Said::from_bytes(&bytes), Some(message.clone()));
            assert_eq!((message.subject(), message.round()), (subject, round(300)));
            // Of the list of a certificate any bytes may be a front.
            let least = bytes.len() - if bytes[0] == 0 { 0 } else { 3 };
            assert!((0..least).all(|it| Said::from_bytes(&bytes[..it]).is_none()));
            for (at, odd) in [(0, 2), (1, 0), (1, 2), (2, 3)] {
                let mut bytes = bytes.clone();
                bytes[at] = odd;
                assert_eq!(Said::from_bytes(&bytes), None);
            }
        }
    }
    let nullify = Message::Vote(vote(Subject::Nullify { round: round(2) }, 1));
    let [.., end] = [0u64, 2].map(u64::to_be_bytes);
    let wanted = [
        &[0, 1, 1, 0, 0, 0, 0, 0, 0, 0, 0][..],
        &end,
        &[0, 0, 0, 1],
        &[0, 0, 0, 1, 1, 0, 1],
    ];
    assert_eq!(nullify.to_bytes(), wanted.concat());
}

// On threads.

/// Runs on the clock until so many views are final at each of these.
fn run_on_threads(four: &mut Four, woken: &Receiver<()>, views: usize, which: &[usize]) {
    let begin = Instant::now();
    while which.iter().any(|it| four.all[*it].finals.len() < views) {
        assert!(begin.elapsed() < Duration::from_secs(60), "it hangs");
        let mut sent = Vec::new();
        for it in &mut four.all {
            let said = it.go_on();
            sent.extend(said.into_iter().map(|message| (it.me, message)));
        }
        let is_silent = sent.is_empty();
        for (sender, message) in sent {
            let sender = Participant::new(sender);
            let others = four.all.iter_mut().filter(|it| it.driver.me() != sender);
            for it in others.filter(|it| it.ended.is_none()) {
                // A thread that it needs may have ended by now.
                if let Err(error) = it.driver.hear(sender, &message) {
                    it.ended = Some(error);
                }
            }
        }
        let expires = is_silent
            && woken.recv_timeout(Duration::from_millis(60)) == Err(RecvTimeoutError::Timeout);
        if expires {
            for it in &mut four.all {
                let _ = it.driver.expire(it.driver.view());
            }
        }
    }
}

/// All four have parts on threads.
fn apart(mut four: Four) -> (Four, Receiver<()>) {
    let (waker, woken) = channel();
    let all = four.all.into_iter().map(|it| {
        let waker = waker.clone();
        // Nobody waits for it where the test has ended.
        let wake = move || waker.send(()).unwrap_or_default();
        let driver = it.driver.on_threads(wake).unwrap();
        Node { driver, ..it }
    });
    four.all = all.collect();
    (four, woken)
}

#[test]
fn goes_on_with_slow_parts_on_threads() {
    let mut count = 0;
    let four = Four::new(
        Key(Box::new(move |subject| {
            count += 1;
            // Now and then it errs so late that another view was entered.
            let time = if count % 4 == 1 { 150 } else { 8 };
            sleep(Duration::from_millis(time));
            if count % 4 == 1 {
                return Err("it is busy");
            }
            Ok(sign(subject, 0))
        })),
        Keys(Box::new(|checks| {
            sleep(Duration::from_millis(3));
            truth(checks)
        })),
    );
    four.all[0]
        .disk
        .set(|it| it.takes = Duration::from_millis(5));
    let (mut four, woken) = apart(four);
    run_on_threads(&mut four, &woken, 12, &[0, 1, 2, 3]);
    four.check(0..4, 12, &[]);
    // It is started again in the midst, and nothing is contradicted.
    for _ in 0..6 {
        four.all[0].start_again();
        four.clear();
        let (again, woken) = apart(four);
        four = again;
        run_on_threads(&mut four, &woken, 3, &[0, 1, 2, 3]);
        four.check(0..4, 3, &[]);
    }
}

/// The others go on without its votes, it follows them, and it asks for no more than a few.
#[test]
fn follows_where_the_signer_hangs() {
    let (answer, hangs) = channel::<()>();
    let hangs = Mutex::new(hangs);
    let key = Key(Box::new(move |subject| {
        let _ = hangs.lock().unwrap().recv();
        Ok(sign(subject, 0))
    }));
    let (mut four, woken) = apart(Four::new(key, Keys::good()));
    run_on_threads(&mut four, &woken, 24, &[0, 1, 2, 3]);
    four.check(0..4, 24, &[]);
    assert!(four.all[0].sent.is_empty());
    let is_busy = |it: &(Subject, Unsigned<_>)| it.1 == Unsigned::Busy;
    assert!(four.all[0].unsigned.iter().all(is_busy));
    assert!(!four.all[0].unsigned.is_empty());
    // It answers at last, and is one of them again.
    drop(answer);
    for _ in 0..20 {
        // The others don't wait for its thread.
        four.clear();
        run_on_threads(&mut four, &woken, 6, &[0, 1, 2, 3]);
        if !four.all[0].sent.is_empty() {
            break;
        }
    }
    assert!(!four.all[0].sent.is_empty());
}

#[test]
fn ends_where_a_thread_panics() {
    let keys = || Keys(Box::new(|_| panic!("the verifier panics")));
    let key = || Key(Box::new(|_| panic!("the signer panics")));
    for case in 0..3 {
        let four = match case {
            0 => Four::new(key(), Keys::good()),
            1 => Four::new(Key::of(0), keys()),
            _ => Four::good(),
        };
        if case == 2 {
            four.all[0].disk.set(|it| it.panics = Some(4));
        }
        let (mut four, woken) = apart(four);
        run_on_threads(&mut four, &woken, 5, &[1, 2, 3]);
        let begin = Instant::now();
        while four.all[0].ended.is_none() && begin.elapsed() < Duration::from_secs(20) {
            let _ = four.all[0].go_on();
            sleep(Duration::from_millis(5));
        }
        assert_eq!(four.all[0].ended, Some(DriveError::Gone));
        if case == 2 {
            continue;
        }
        four.all[0].start_again();
        four.clear();
        run_on_threads(&mut four, &woken, 5, &[0, 1, 2, 3]);
        four.check(0..4, 5, &[]);
    }
}

/// Who floods fills no more than its own part of what waits, and forges once.
#[test]
fn bounds_what_waits_to_be_verified() {
    let (go, hangs) = channel::<()>();
    let hangs = Mutex::new(hangs);
    let keys = Keys(Box::new(move |checks| {
        let _ = hangs.lock().unwrap().recv();
        truth(checks)
    }));
    let (mut four, _woken) = apart(Four::new(Key::of(0), keys));
    let first = &mut four.all[0];
    let _ = first.go_on();
    let made = |view: u64, sender: u32| {
        let subject = Subject::Nullify { round: round(view) };
        let mut bytes = 3u64.to_be_bytes().to_vec();
        for signer in 0..3u32 {
            bytes.extend(signer.to_be_bytes());
            bytes.push(7);
            bytes.extend(sign(&subject, signer + u32::from(sender == 2)));
            bytes.extend([0; 89]);
        }
        Message::Certificate(Certificate::new(subject, bytes))
    };
    let mut heard = Vec::new();
    for view in 1..20 {
        heard.push(
            first
                .driver
                .hear(Participant::new(2), &made(view, 2))
                .unwrap(),
        );
    }
    // One is at the verifier, and eight wait.
    assert_eq!(heard[..9], [Heard::Verifying; 9]);
    assert_eq!(heard[9..], [Heard::Full; 10]);
    let good = first.driver.hear(Participant::new(1), &made(2, 1)).unwrap();
    assert_eq!(good, Heard::Verifying);
    drop(go);
    let begin = Instant::now();
    while first.driver.view() < View::new(3) {
        assert!(
            begin.elapsed() < Duration::from_secs(20),
            "{:?}",
            first.driver
        );
        let _ = first.go_on();
        sleep(Duration::from_millis(2));
    }
    let _ = first.go_on();
    assert_eq!(first.blocked, [(2, Cause::Certificate.to_string())].into());
}

// By the crate's files.

type OfFiles = Driver<Files, Key, Keys>;

fn alone() -> Options<'static> {
    Options {
        participants: 1,
        ..options(0)
    }
}

fn only(_: View) -> Participant {
    Participant::new(0)
}

/// Goes on until so many views are final.
fn until<D: Store<Error: std::fmt::Debug>>(driver: &mut Driver<D, Key, Keys>, views: u64) {
    while driver.last_final() < View::new(views) {
        match driver.poll().unwrap() {
            Action::Propose(wish) => {
                driver.propose(wish, Sha256Digest([1; 32]));
            }
            Action::Wait => sleep(Duration::from_millis(1)),
            _ => {}
        }
    }
}

#[test]
fn writes_to_files_and_starts_again_by_them() {
    let folder = Folder::new("driver");
    drop(Files::create(&folder.0).unwrap());
    for time in 0..8 {
        // They aren't locked any more, also where a thread had them.
        let (key, keys) = (Key::of(0), Keys::good());
        let mut driver: OfFiles = if time % 2 == 0 {
            let files = Files::open(&folder.0).unwrap();
            assert_eq!(matches!(files, Opened::New(_)), time == 0);
            Driver::start(files, &alone(), only, key, keys).unwrap()
        } else {
            Driver::start_on_threads(&folder.0, &alone(), only, key, keys, || {}).unwrap()
        };
        until(&mut driver, 6 + 3 * time);
    }
    // Nor where there is no validator.
    for time in 0..4 {
        let (key, keys) = (Key::of(0), Keys::good());
        let other = Options {
            epoch: Epoch::new(3),
            ..alone()
        };
        let started = Driver::start_on_threads(&folder.0, &other, only, key, keys, || {});
        assert!(matches!(
            started,
            Err(OpenError::Start(StartError::OtherOwner))
        ));
        let held = Files::open(&folder.0).unwrap();
        if time == 2 {
            let (key, keys) = (Key::of(0), Keys::good());
            let started = Driver::start_on_threads(&folder.0, &alone(), only, key, keys, || {});
            assert!(matches!(started, Err(OpenError::Io(error))
                if error.kind() == std::io::ErrorKind::ResourceBusy));
        }
        drop(held);
    }
    let begun = Folder::new("driver-begun");
    drop(Files::create(&begun.0).unwrap());
    let (key, keys) = (Key::of(0), Keys::good());
    let started = Driver::start_on_threads(&begun.0, &alone(), only, key, keys, || {});
    until(&mut started.unwrap(), 3);
}
