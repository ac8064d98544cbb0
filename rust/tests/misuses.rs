//! What the caller of a validator may do wrong. Whatever it is of these, no vote is sent that isn't on
//! the disk, none contradicts another one of any life, the others go on, and so does the validator,
//! once it is started again by its disk. Where that can't be, an error says so. What nobody can
//! notice is left to the caller: `docs/RUST.md` lists it.

mod shared;
mod toy;

use batcher::errors::SignError;
use batcher::positions::Round;
use batcher::validator::{
    Listed, Options, PollError, Receipt, Signed, StartError, Task, Validator, Wanted, Write,
    WroteError,
};
use batcher::{
    Epoch, Files, Kind, Opened, Participant, Proposal, Sha256Digest, Subject, View, Vote,
};
use shared::{Folder, options, put, verdicts};
use std::cell::Cell;
use std::collections::{BTreeMap, VecDeque};
use std::io::ErrorKind;
use std::panic::{AssertUnwindSafe, catch_unwind};
use std::rc::Rc;
use toy::{Signature, sign, vote};

fn leader(view: View) -> Participant {
    Participant::new((view.get() % 4) as u32)
}

#[derive(Clone)]
enum Message {
    Vote(Vote<Signature>),
    Certificate(Listed),
}

/// A validator, its disk, and what it said in all of its lives.
struct Member {
    me: u32,
    running: Validator<Signature>,
    disk: Vec<u8>,
    view: View,
    /// What it proposes in this life.
    payload: u8,
    finals: BTreeMap<View, Proposal>,
    blocked: Vec<Participant>,
    sent: Vec<Subject>,
    messages: Vec<Message>,
}

impl Member {
    fn new(me: u32) -> Self {
        Member {
            me,
            running: Validator::begin(&options(me), leader).unwrap(),
            disk: Vec::new(),
            view: View::zero(),
            payload: 1,
            finals: BTreeMap::new(),
            blocked: Vec::new(),
            sent: Vec::new(),
            messages: Vec::new(),
        }
    }

    /// The power goes, and it is started again by its disk. It has another payload by then.
    fn start_again(&mut self) {
        self.running = match Validator::start(&options(self.me), leader, &self.disk, verdicts) {
            Err(StartError::NotBegun) => Validator::begin(&options(self.me), leader).unwrap(),
            started => started.unwrap(),
        };
        self.payload += 1;
        self.messages.clear();
    }

    /// Does what is to be done.
    fn perform(&mut self, task: Task<Signature>) {
        match task {
            Task::Write(write) => {
                put(&mut self.disk, &write);
                self.running.wrote(write).unwrap();
            }
            Task::Block(peer, _) => self.blocked.push(peer),
            Task::Final(proposal) => {
                self.finals.insert(proposal.round.view, proposal);
            }
            Task::SendVote(vote) => {
                let subject = vote.subject();
                let is_written = votes_on(self.me, &self.disk).contains(&subject);
                assert!(is_written, "the disk lacks {subject:?}");
                let other = self.sent.iter().find(|it| contradict(it, &subject));
                assert_eq!(other, None, "{subject:?}");
                self.sent.push(subject);
                self.messages.push(Message::Vote(vote));
            }
            Task::SendCertificate(made) => self.messages.push(Message::Certificate(made)),
            Task::Forward(..) => {}
            Task::Enter { view, .. } => self.view = view,
            Task::Verify(wanted) => {
                self.running.conclude(&wanted, &verdicts(&wanted)).unwrap();
            }
            Task::Sign(subject) => {
                let _ = self.sign(subject).unwrap();
            }
            Task::Propose { view, parent } => {
                let payload = Sha256Digest([self.payload; 32]);
                self.running.propose(view, parent, payload);
            }
            Task::Judge(proposal) => self.running.judge(&proposal, true),
            other => unreachable!("{other:?}"),
        }
    }

    fn sign(&mut self, subject: Subject) -> Result<Signed, SignError> {
        let signature = sign(&subject, self.me);
        self.running.signed(subject, &signature, verdicts)
    }

    fn hear(&mut self, sender: u32, message: &Message) {
        let sender = Participant::new(sender);
        match message {
            Message::Vote(vote) => {
                let _ = self.running.vote(sender, vote).unwrap();
            }
            Message::Certificate(certificate) => {
                let heard = self.running.certificate(sender, certificate, verdicts);
                let _ = heard.unwrap();
            }
        }
    }
}

/// The own votes on a disk. They are verified before a validator goes on by it.
fn votes_on(me: u32, disk: &[u8]) -> Vec<Subject> {
    let mut found = Vec::new();
    let verify = |wanted: &Wanted<Signature>| {
        if let [_] = wanted.attestations() {
            found.push(*wanted.subject());
        }
        verdicts(wanted)
    };
    Validator::start(&options(me), leader, disk, verify).unwrap();
    found
}

fn contradict(one: &Subject, other: &Subject) -> bool {
    let kinds = [one.kind(), other.kind()];
    let is_both =
        [Kind::Nullification, Kind::Finalization].map(|it| kinds.contains(&it)) == [true; 2];
    let is_other = kinds[0] == kinds[1] && one.proposal() != other.proposal();
    one.round() == other.round() && (is_both || is_other)
}

/// What a caller does with a task. It gives back what is to be done as usual.
type Caller<'a> = &'a mut dyn FnMut(&mut Member, Task<Signature>) -> Option<Task<Signature>>;

fn usual(_: &mut Member, task: Task<Signature>) -> Option<Task<Signature>> {
    Some(task)
}

/// Four validators. The first one has another caller than the others.
struct Four {
    all: Vec<Member>,
    /// For how many turns nobody has sent anything.
    silent: u32,
    /// How many such turns make a time that is over.
    patience: u32,
}

impl Four {
    fn new() -> Self {
        Four {
            all: (0..4).map(Member::new).collect(),
            silent: 0,
            patience: 1,
        }
    }

    /// So often each does all that is to be done, and then all hear what was sent.
    fn run(&mut self, times: usize, caller: Caller) {
        for _ in 0..times {
            let mut sent = Vec::new();
            for it in &mut self.all {
                for count in 0.. {
                    let Some(task) = it.running.poll().unwrap() else {
                        break;
                    };
                    assert!(count < 1000, "there is no end of {task:?}");
                    let left = if it.me == 0 {
                        caller(it, task)
                    } else {
                        Some(task)
                    };
                    if let Some(task) = left {
                        it.perform(task);
                    }
                }
                sent.extend(it.messages.drain(..).map(|message| (it.me, message)));
            }
            self.silent = if sent.is_empty() { self.silent + 1 } else { 0 };
            if self.silent == self.patience {
                self.silent = 0;
                for it in &mut self.all {
                    it.running.expire(it.view);
                }
            }
            for (sender, message) in sent {
                for it in self.all.iter_mut().filter(|it| it.me != sender) {
                    it.hear(sender, &message);
                }
            }
        }
    }

    fn first(&mut self) -> &mut Member {
        &mut self.all[0]
    }

    /// How many views are final at the one that has fewest, of these.
    fn fewest(all: &[Member]) -> usize {
        all.iter().map(|it| it.finals.len()).min().unwrap()
    }

    /// All agree, and the others block nobody.
    fn check(&self) {
        let mut chain = BTreeMap::new();
        for (view, proposal) in self.all.iter().flat_map(|it| &it.finals) {
            assert_eq!(chain.entry(*view).or_insert(*proposal), proposal);
        }
        assert!(self.all[1..].iter().all(|it| it.blocked.is_empty()));
    }

    /// The caller of the first errs for a while, and the others go on. Then it is started again, and
    /// goes on with them.
    fn play(&mut self, caller: Caller) {
        self.run(100, caller);
        self.check();
        assert!(
            Four::fewest(&self.all[1..]) >= 6,
            "{}",
            Four::fewest(&self.all[1..])
        );
        let sent = self.first().sent.len();
        self.first().start_again();
        self.first().finals.clear();
        self.run(100, &mut usual);
        self.check();
        assert!(
            Four::fewest(&self.all[..1]) >= 6,
            "{}",
            Four::fewest(&self.all[..1])
        );
        assert!(self.first().sent.len() > sent);
    }
}

/// Four of which the first one's caller errs so.
fn play(caller: Caller) {
    Four::new().play(caller);
}

#[test]
fn errs_in_nothing() {
    play(&mut usual);
}

// Of writes.

#[test]
fn drops_each_write() {
    let mut four = Four::new();
    four.run(100, &mut |_, task| {
        (!matches!(task, Task::Write(_))).then_some(task)
    });
    assert!(four.first().sent.is_empty() && four.first().finals.is_empty());
    play(&mut |_, task| (!matches!(task, Task::Write(_))).then_some(task));
}

/// As by a panic that is caught.
#[test]
fn drops_one_write() {
    let mut count = 0;
    play(&mut |_, task| {
        count += u32::from(matches!(task, Task::Write(_)));
        (count != 7 || !matches!(task, Task::Write(_))).then_some(task)
    });
    // No other was given before it was started again.
    assert_eq!(count, 7);
}

#[test]
fn polls_while_a_write_is_under_way() {
    play(&mut |it, task| {
        let Task::Write(write) = task else {
            return Some(task);
        };
        put(&mut it.disk, &write);
        // What else there is rests on nothing that isn't written.
        while let Some(task) = it.running.poll().unwrap() {
            assert!(!matches!(task, Task::Write(_)));
            it.perform(task);
        }
        it.running.wrote(write).unwrap();
        None
    });
}

/// The disk and the signer are threads, and the signature comes while something else is being
/// written. The power goes at any moment: what is being written is there then, or not.
#[test]
fn signs_while_a_write_is_under_way() {
    for last in 1..=24 {
        let mut four = Four::new();
        four.patience = 8;
        let mut writing: Option<(u32, Write)> = None;
        let mut signing: Vec<(u32, Subject)> = Vec::new();
        for turn in 0.. {
            let first = four.first();
            let due = signing.iter().filter(|it| it.0 == turn);
            for (_, subject) in due.copied().collect::<Vec<_>>() {
                let _ = first.sign(subject).unwrap();
            }
            if let Some((_, write)) = writing.take_if(|it| it.0 == turn) {
                put(&mut first.disk, &write);
                first.running.wrote(write).unwrap();
            }
            if first.sent.len() >= last {
                break;
            }
            assert!(turn < 400, "it sends nothing any more");
            four.run(1, &mut |_, task| match task {
                Task::Write(write) => {
                    writing = Some((turn + 2, write));
                    None
                }
                Task::Sign(subject) => {
                    signing.push((turn + 1 + turn % 3, subject));
                    None
                }
                task => Some(task),
            });
        }
        if let Some((_, write)) = writing.filter(|_| last % 2 == 0) {
            put(&mut four.first().disk, &write);
        }
        four.first().start_again();
        four.patience = 1;
        four.run(60, &mut usual);
        four.check();
    }
}

/// A store that doesn't look at whether a write takes the place of the others.
#[test]
fn writes_behind_what_is_replaced() {
    let mut four = Four::new();
    let mut is_replaced = false;
    for _ in 0..400 {
        four.run(1, &mut |it, task| match task {
            Task::Write(write) => {
                is_replaced |= write.replaces();
                it.disk.extend_from_slice(write.bytes());
                it.running.wrote(write).unwrap();
                None
            }
            task => (!is_replaced).then_some(task),
        });
    }
    assert!(is_replaced);
    let started = Validator::start(&options(0), leader, &four.first().disk, verdicts);
    assert_eq!(started.err(), Some(StartError::Damaged));
}

/// A store in the place of the crate's files, which has bytes already.
#[test]
fn begins_where_something_is_written() {
    let mut four = Four::new();
    four.run(40, &mut usual);
    let mut disk = four.first().disk.clone();
    let mut begun = Validator::<Signature>::begin(&options(0), leader).unwrap();
    let Some(Task::Write(write)) = begun.poll().unwrap() else {
        panic!("it is to write first");
    };
    put(&mut disk, &write);
    let started = Validator::start(&options(0), leader, &disk, verdicts);
    assert_eq!(started.err(), Some(StartError::Damaged));
    // By the crate's files it doesn't come to that.
    let folder = Folder::new("begins");
    let alone = Options {
        participants: 1,
        ..options(0)
    };
    let files = Files::create(&folder.0).unwrap();
    let (_, mut disk) = files.begin::<Signature>(&alone, leader).unwrap();
    assert_eq!(
        disk.write(&write).unwrap_err().kind(),
        ErrorKind::InvalidInput
    );
}

/// A validator that is alone gives this to be written next.
fn next_write(running: &mut Validator<Signature>) -> Write {
    loop {
        match running.poll().unwrap().expect("it is alone, and goes on") {
            Task::Write(write) => return write,
            Task::Sign(subject) => {
                let signed = running.signed(subject, &sign(&subject, 0), verdicts);
                let _ = signed.unwrap();
            }
            Task::Propose { view, parent } => {
                running.propose(view, parent, Sha256Digest([1; 32]));
            }
            Task::Verify(wanted) => {
                running.conclude(&wanted, &verdicts(&wanted)).unwrap();
            }
            _ => {}
        }
    }
}

#[test]
fn confirms_what_the_files_dont_have() {
    let folder = Folder::new("confirms");
    let alone = Options {
        participants: 1,
        ..options(0)
    };
    let leader = |_: View| Participant::new(0);
    let files = Files::create(&folder.0).unwrap();
    let (mut running, mut disk) = files.begin(&alone, leader).unwrap();
    let mut written = 0;
    for _ in 0..3 {
        for _ in 0..4 {
            let write = next_write(&mut running);
            disk.write(&write).unwrap();
            written = write.bytes().len() + if write.replaces() { 0 } else { written };
            running.wrote(write).unwrap();
        }
        let write = next_write(&mut running);
        assert_eq!(running.wrote(write), Err(WroteError::NotWritten));
        // Nothing is sent or final, and nothing else is to be written.
        while let Some(task) = running.poll().unwrap() {
            assert!(matches!(
                task,
                Task::Enter { .. } | Task::Verify(_) | Task::Propose { .. }
            ));
        }
        drop(disk);
        let opened = Files::open(&folder.0).unwrap();
        let Opened::Written(bytes, _) = &opened else {
            panic!("something is written");
        };
        assert_eq!(bytes.len(), written);
        (running, disk) = opened.start(&alone, leader, verdicts).unwrap();
    }
}

// Of signatures.

#[test]
fn drops_each_wish_for_a_signature() {
    let mut four = Four::new();
    four.play(&mut |_, task| (!matches!(task, Task::Sign(_))).then_some(task));
}

#[test]
fn drops_one_wish_for_a_signature() {
    let mut count = 0;
    play(&mut |_, task| {
        count += u32::from(matches!(task, Task::Sign(_)));
        (count != 4 || !matches!(task, Task::Sign(_))).then_some(task)
    });
}

#[test]
fn signs_badly() {
    play(&mut |it, task| {
        let Task::Sign(subject) = task else {
            return Some(task);
        };
        let signed = it.running.signed(subject, &[5; 7], verdicts);
        assert_eq!(signed, Err(SignError::NotVerified));
        None
    });
}

#[test]
fn signs_twice() {
    play(&mut |it, task| {
        let Task::Sign(subject) = task else {
            return Some(task);
        };
        let _ = it.sign(subject).unwrap();
        assert_ne!(it.sign(subject), Ok(Signed::Written));
        let bad = it.running.signed(subject, &[5; 7], verdicts);
        assert_eq!(bad, Err(SignError::NotVerified));
        None
    });
}

#[test]
fn signs_another_subject() {
    play(&mut |it, task| {
        let Task::Sign(subject) = task else {
            return Some(task);
        };
        let round = subject.round();
        let _ = it.sign(Subject::Nullify { round }).unwrap();
        None
    });
}

/// Whatever it signs in each view that it enters, some views beyond it, and in another epoch.
#[test]
fn signs_what_it_wasnt_asked_for() {
    let mut others = Vec::new();
    play(&mut |it, task| {
        if let Task::Enter { view, .. } = task {
            for (epoch, by) in [(0, 0), (0, 1), (0, 5), (0, 100), (9, 0)] {
                let round = Round::new(Epoch::new(epoch), View::new(view.get() + by));
                let parent = View::new(view.get().saturating_sub(1));
                let proposal = Proposal::new(round, parent, Sha256Digest([9; 32]));
                let _ = it.sign(Subject::Finalize { proposal }).unwrap();
                let _ = it.sign(Subject::Notarize { proposal }).unwrap();
                let _ = it.sign(Subject::Nullify { round }).unwrap();
            }
        }
        if let Task::SendVote(vote) = &task {
            others.extend((vote.round().epoch != Epoch::zero()).then_some(vote.subject()));
        }
        Some(task)
    });
    assert_eq!(others, []);
}

// Of proposals.

#[test]
fn drops_proposals() {
    play(&mut |_, task| (!matches!(task, Task::Propose { .. } | Task::Judge(_))).then_some(task));
}

#[test]
fn judges_both_ways() {
    play(&mut |it, task| {
        let Task::Judge(proposal) = task else {
            return Some(task);
        };
        it.running.judge(&proposal, false);
        it.running.judge(&proposal, true);
        None
    });
}

#[test]
fn judges_all_invalid() {
    play(&mut |it, task| {
        let Task::Judge(proposal) = task else {
            return Some(task);
        };
        it.running.judge(&proposal, false);
        None
    });
}

#[test]
fn judges_another_proposal() {
    play(&mut |it, task| {
        let Task::Judge(mut proposal) = task else {
            return Some(task);
        };
        proposal.payload = Sha256Digest([9; 32]);
        it.running.judge(&proposal, true);
        None
    });
}

#[test]
fn judges_what_it_wasnt_asked_about() {
    play(&mut |it, task| {
        if let Task::Enter { view, .. } = task {
            for by in 0..40 {
                let round = Round::new(Epoch::zero(), View::new(view.get() + by));
                let proposal = Proposal::new(round, View::zero(), Sha256Digest([9; 32]));
                it.running.judge(&proposal, by % 2 == 0);
            }
        }
        Some(task)
    });
}

#[test]
fn proposes_two_payloads() {
    play(&mut |it, task| {
        let Task::Propose { view, parent } = task else {
            return Some(task);
        };
        for payload in [7, 8] {
            it.running
                .propose(view, parent, Sha256Digest([payload; 32]));
        }
        None
    });
}

#[test]
fn proposes_on_another_parent() {
    play(&mut |it, task| {
        let Task::Propose { view, .. } = task else {
            return Some(task);
        };
        for parent in [view, View::zero(), View::new(view.get() + 1)] {
            it.running.propose(view, parent, Sha256Digest([7; 32]));
        }
        None
    });
}

#[test]
fn proposes_where_another_leads() {
    play(&mut |it, task| {
        if let Task::Enter { view, .. } = task {
            let parent = View::new(view.get() - 1);
            it.running.propose(view, parent, Sha256Digest([7; 32]));
        }
        Some(task)
    });
}

// Of verdicts.

#[test]
fn drops_what_is_to_be_verified() {
    play(&mut |_, task| (!matches!(task, Task::Verify(_))).then_some(task));
}

#[test]
fn gives_verdicts_twice() {
    play(&mut |it, task| {
        let Task::Verify(wanted) = task else {
            return Some(task);
        };
        let good = verdicts(&wanted);
        let other: Vec<_> = good.iter().map(|it| !it).collect();
        it.running.conclude(&wanted, &good).unwrap();
        it.running.conclude(&wanted, &other).unwrap();
        None
    });
}

#[test]
fn gives_verdicts_late() {
    let mut late = VecDeque::new();
    play(&mut |it, task| {
        let Task::Verify(wanted) = task else {
            return Some(task);
        };
        late.push_back(wanted);
        if let Some(wanted) = (late.len() > 6).then(|| late.pop_front()).flatten() {
            it.running.conclude(&wanted, &verdicts(&wanted)).unwrap();
        }
        None
    });
}

/// It blocks the others for nothing, and goes on with them once it is started again.
#[test]
fn finds_everything_bad() {
    play(&mut |it, task| {
        let Task::Verify(wanted) = task else {
            return Some(task);
        };
        let bad = vec![false; wanted.attestations().len()];
        it.running.conclude(&wanted, &bad).unwrap();
        None
    });
}

#[test]
fn gives_verdicts_of_another_validator() {
    let mut wanted = None;
    let mut four = Four::new();
    four.run(20, &mut |_, task| {
        if let Task::Verify(it) = &task {
            wanted = Some(it.clone());
        }
        Some(task)
    });
    let wanted = wanted.expect("the others voted");
    let mut other = Member::new(0);
    let verdicts = vec![true; wanted.attestations().len()];
    assert_eq!(other.running.conclude(&wanted, &verdicts), Ok(false));
    let (kind, round) = (wanted.subject().kind(), wanted.subject().round());
    assert!(!other.running.has_certificate(kind, round));
}

/// It panics, as documented. Nothing has changed then, for who goes on.
#[test]
fn gives_too_few_verdicts() {
    play(&mut |it, task| {
        let mut panics = |call: &mut dyn FnMut(&mut Validator<Signature>)| {
            let ended = catch_unwind(AssertUnwindSafe(|| call(&mut it.running)));
            assert!(ended.is_err());
        };
        let none = |_: &Wanted<Signature>| Vec::new();
        match &task {
            Task::Verify(wanted) if !wanted.attestations().is_empty() => panics(&mut |it| {
                let _ = it.conclude(wanted, &[]);
            }),
            Task::Sign(subject) => panics(&mut |it| {
                let _ = it.signed(*subject, &sign(subject, 0), none);
            }),
            _ => {}
        }
        Some(task)
    });
}

// Of what comes from others, of leaders and of times.

#[test]
fn hears_what_it_sends_itself() {
    play(&mut |it, task| {
        match &task {
            Task::SendVote(vote) => it.hear(0, &Message::Vote(*vote)),
            Task::SendCertificate(made) => it.hear(0, &Message::Certificate(made.clone())),
            _ => {}
        }
        Some(task)
    });
}

/// Who sent what isn't its own vote is blocked: nobody else, and whoever takes no part isn't heard.
#[test]
fn takes_one_sender_for_another() {
    let mut four = Four::new();
    four.run(4, &mut usual);
    let first = four.first();
    let round = Round::new(Epoch::zero(), first.view);
    let vote = vote(Subject::Nullify { round }, 1);
    let unknown = first.running.vote(Participant::new(4), &vote);
    assert!(matches!(unknown, Ok(Receipt::Unknown)));
    first.hear(2, &Message::Vote(vote));
    four.run(1, &mut usual);
    assert_eq!(four.first().blocked, [Participant::new(2)]);
    four.play(&mut usual);
}

#[test]
fn takes_the_wrong_leader() {
    let wrong = |view: View| Participant::new(((view.get() + 1) % 4) as u32);
    let mut four = Four::new();
    four.first().running = Validator::begin(&options(0), wrong).unwrap();
    four.play(&mut usual);
    // Over a start too.
    let disk = four.first().disk.clone();
    four.first().running = Validator::start(&options(0), wrong, &disk, verdicts).unwrap();
    four.play(&mut usual);
}

#[test]
fn names_a_leader_who_takes_no_part() {
    let stranger = Participant::new(17);
    let named = Rc::new(Cell::new(stranger));
    let leader = named.clone();
    let mut running = Validator::<Signature>::begin(&options(0), move |_| leader.get()).unwrap();
    let Ok(Some(Task::Write(write))) = running.poll() else {
        panic!("the journal is written first");
    };
    running.wrote(write).unwrap();
    // It says so until another is named.
    let said = Some(PollError::NoLeader(View::new(1), stranger));
    assert_eq!(running.poll().err(), said);
    assert_eq!(running.poll().err(), said);
    assert_eq!(running.view(), View::zero());
    named.set(Participant::new(1));
    assert!(matches!(running.poll(), Ok(Some(Task::Enter { .. }))));
    assert_eq!(running.view(), View::new(1));
}

#[test]
fn has_no_bounds() {
    let too_many = [
        Options {
            participants: 65_536,
            ..options(0)
        },
        Options {
            ahead: 1_025,
            ..options(0)
        },
        Options {
            ahead: u64::MAX,
            ..options(0)
        },
    ];
    for options in &too_many {
        let refused = Validator::<Signature>::begin(options, leader).err();
        assert_eq!(refused, Some(StartError::TooMany));
        // The disk isn't read.
        let refused = Validator::<Signature>::start(options, leader, &[0], verdicts).err();
        assert_eq!(refused, Some(StartError::TooMany));
    }
    let most = Options {
        participants: 65_535,
        ahead: 1_024,
        ..options(0)
    };
    assert!(Validator::<Signature>::begin(&most, leader).is_ok());
}

#[test]
fn starts_no_timer() {
    play(&mut |_, task| (!matches!(task, Task::Enter { .. })).then_some(task));
}

#[test]
fn says_that_any_time_is_over() {
    play(&mut |it, task| {
        if let Task::Enter { view, .. } = task {
            for view in [0, 1, view.get(), view.get() + 1, 1000, u64::MAX] {
                let _ = it.running.expire(View::new(view));
            }
        }
        Some(task)
    });
}

#[test]
fn sends_nothing() {
    play(&mut |it, task| {
        it.perform(task);
        it.messages.clear();
        None
    });
}
