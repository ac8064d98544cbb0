//! Validators of the crate: four of them, which are stopped and go on by their disks, and what a
//! caller may do wrong.

mod shared;
mod toy;

use batcher::positions::Round;
use batcher::validator::{
    Cause, Listed, Options, Receipt, StartError, Task, Validator, Verdict, Wanted,
};
use batcher::{
    Attestation, Certificate, Epoch, Kind, Participant, Proposal, Sha256Digest, Subject, View, Vote,
};
use shared::put;
use std::collections::BTreeMap;
use toy::{Signature, attests, sign};

const VALIDATORS: u32 = 4;

fn options(me: u32) -> Options<'static> {
    Options {
        epoch: Epoch::zero(),
        me: Participant::new(me),
        participants: VALIDATORS,
        keys: [4; 32],
        namespace: b"tests",
        ahead: 8,
        track_historical_votes: false,
    }
}

fn leader(view: View) -> Participant {
    Participant::new((view.get() % u64::from(VALIDATORS)) as u32)
}

#[derive(Clone)]
enum Message {
    Vote(Vote<Signature>),
    Certificate(Listed),
}

/// What a validator has written, and what it said in all of its lives.
struct Station {
    me: u32,
    running: Validator<Signature>,
    disk: Vec<u8>,
    view: View,
    finals: BTreeMap<View, Proposal>,
    sent: Vec<Subject>,
    blocked: Vec<Participant>,
    /// Whether it has a key.
    signs: bool,
}

impl Station {
    fn new(me: u32) -> Self {
        Station {
            me,
            running: Validator::begin(&options(me), leader).unwrap(),
            disk: Vec::new(),
            view: View::zero(),
            finals: BTreeMap::new(),
            sent: Vec::new(),
            blocked: Vec::new(),
            signs: true,
        }
    }

    fn restart(&mut self) {
        self.running = match Validator::start(&options(self.me), leader, &self.disk, verdicts) {
            Ok(running) => running,
            // It was stopped before anything was written.
            Err(StartError::NotBegun) => Validator::begin(&options(self.me), leader).unwrap(),
            Err(error) => panic!("{error}"),
        };
    }

    fn hear(&mut self, sender: u32, message: &Message) {
        let sender = Participant::new(sender);
        match message {
            Message::Vote(vote) => {
                self.running.vote(sender, vote).unwrap();
            }
            Message::Certificate(certificate) => {
                let heard = self.running.certificate(sender, certificate, verdicts);
                assert_ne!(heard, Ok(Receipt::Answered(Verdict::Forged)));
            }
        }
    }

    /// Does so many things that are to be done, and gives what is to be sent.
    fn go_on(&mut self, times: u64) -> Vec<Message> {
        let mut messages = Vec::new();
        for _ in 0..times {
            let Some(task) = self.running.poll().unwrap() else {
                break;
            };
            match task {
                Task::Write(write) => {
                    put(&mut self.disk, &write);
                    self.running.wrote(write).unwrap();
                }
                Task::Block(peer, _) => self.blocked.push(peer),
                Task::Final(proposal) => {
                    self.finals.insert(proposal.round.view, proposal);
                }
                Task::SendVote(vote) => {
                    self.sent.push(vote.subject());
                    messages.push(Message::Vote(vote));
                }
                Task::SendCertificate(made) => messages.push(Message::Certificate(made)),
                Task::Enter { view, .. } => self.view = view,
                Task::Verify(wanted) => {
                    let verdicts = verdicts(&wanted);
                    self.running.conclude(&wanted, &verdicts).unwrap();
                }
                Task::Sign(_) if !self.signs => {}
                Task::Sign(subject) => {
                    let signature = sign(&subject, self.me);
                    let signed = self.running.signed(subject, &signature, verdicts);
                    let _ = signed.unwrap();
                }
                Task::Propose { view, parent } => {
                    let payload = Sha256Digest([view.get() as u8; 32]);
                    self.running.propose(view, parent, payload);
                }
                Task::Judge(proposal) => self.running.judge(&proposal, true),
                Task::Forward(..) => {}
                other => unreachable!("{other:?}"),
            }
        }
        messages
    }

    /// No two votes that it sent contradict each other.
    fn keeps_its_word(&self) -> bool {
        let contradict = |one: &Subject, other: &Subject| {
            let kinds = (one.kind(), other.kind());
            let is_both = kinds == (Kind::Nullification, Kind::Finalization);
            one.round() == other.round()
                && (is_both || kinds.0 == kinds.1 && one.proposal() != other.proposal())
        };
        let all = || self.sent.iter();
        all().all(|one| all().all(|other| !contradict(one, other)))
    }
}

fn verdicts(wanted: &Wanted<Signature>) -> Vec<bool> {
    let attests = |it: &_| attests(wanted.subject(), it);
    wanted.attestations().iter().map(attests).collect()
}

struct Numbers(u64);

impl Numbers {
    fn below(&mut self, bound: u64) -> u64 {
        self.0 = self
            .0
            .wrapping_mul(6364136223846793005)
            .wrapping_add(1442695040888963407);
        (self.0 >> 33) % bound
    }
}

#[test]
fn four_go_on_whenever_they_are_stopped() {
    for seed in 0..20 {
        let mut numbers = Numbers(seed);
        let mut stations: Vec<_> = (0..VALIDATORS).map(Station::new).collect();
        let mut inbox: Vec<(u32, u32, Message)> = Vec::new();
        for _ in 0..4000 {
            let me = numbers.below(u64::from(VALIDATORS)) as u32;
            let station = &mut stations[me as usize];
            match numbers.below(100) {
                0 => station.restart(),
                1..5 => {
                    let progress = station.running.expire(station.view);
                    for it in [progress.notarizes, progress.nullifies, progress.finalizes] {
                        let most = if it.certified { 0 } else { VALIDATORS.into() };
                        assert!(it.pending + it.verified <= most, "{progress}");
                    }
                }
                _ => {}
            }
            for message in station.go_on(numbers.below(8)) {
                let others = (0..VALIDATORS).filter(|it| *it != me);
                inbox.extend(others.map(|it| (me, it, message.clone())));
            }
            for _ in 0..3.min(inbox.len()) {
                let place = numbers.below(inbox.len() as u64) as usize;
                let (from, to, message) = inbox.swap_remove(place);
                // One in twenty is lost.
                if numbers.below(20) != 0 {
                    stations[to as usize].hear(from, &message);
                }
            }
        }
        let mut chain = BTreeMap::new();
        for station in &stations {
            assert!(station.keeps_its_word(), "seed {seed} {:?}", station.sent);
            assert!(station.blocked.is_empty(), "{:?}", station.blocked);
            assert!(station.finals.len() > 2, "seed {seed}");
            for (view, proposal) in &station.finals {
                assert_eq!(chain.entry(*view).or_insert(*proposal), proposal);
            }
        }
    }
}

/// One that has written what it begins with, and has entered its first view.
fn begun(me: u32) -> Station {
    let mut station = Station::new(me);
    station.go_on(2);
    assert_eq!(station.view, View::new(1));
    station
}

fn nullification(view: u64, signers: &[u32]) -> Listed {
    let round = Round::new(Epoch::zero(), View::new(view));
    let subject = Subject::Nullify { round };
    let mut bytes = (signers.len() as u64).to_be_bytes().to_vec();
    for signer in signers {
        let signature = sign(&subject, *signer);
        bytes.extend(signer.to_be_bytes());
        bytes.push(signature.len() as u8);
        bytes.extend(signature);
        bytes.extend(vec![0; 96 - signature.len()]);
    }
    Certificate::new(subject, bytes)
}

#[test]
fn a_certificate_is_a_list_of_a_quorum() {
    let station = begun(0);
    let list = |made: &Listed| station.running.attestations(made).unwrap();
    let wanted = list(&nullification(1, &[3, 0, 2])).unwrap();
    let all = wanted.attestations().iter();
    assert_eq!(all.map(|it| it.signer.get()).collect::<Vec<_>>(), [3, 0, 2]);
    assert_eq!(verdicts(&wanted), [true; 3]);
    let message = station.running.message(wanted.subject());
    assert_eq!(Ok(wanted.message().to_vec()), message);
    // Too few, one of them twice, and one that takes no part.
    for signers in [&[0, 1][..], &[0, 1, 1], &[0, 1, 4]] {
        assert!(list(&nullification(1, signers)).is_none());
    }
    // Cut short, longer, and with something else in the place of a zero.
    let whole = nullification(1, &[0, 1, 2]);
    let (subject, bytes) = (whole.subject(), whole.content());
    let mut changed = bytes.clone();
    *changed.last_mut().unwrap() = 1;
    let longer = [&bytes[..], &[0]].concat();
    assert_eq!(whole.clone().into_content(), *bytes);
    for bytes in [bytes[..bytes.len() - 1].to_vec(), longer, changed] {
        assert!(list(&Certificate::new(subject, bytes)).is_none());
    }
}

#[test]
fn who_forges_is_blocked() {
    let mut station = begun(0);
    let forged = nullification(1, &[1, 1, 2]);
    let peer = Participant::new(3);
    let heard = station.running.certificate(peer, &forged, verdicts);
    assert_eq!(heard, Ok(Receipt::Answered(Verdict::Forged)));
    let task = station.running.poll().unwrap();
    assert!(matches!(task, Some(Task::Block(it, Cause::Certificate)) if it == peer));
    let never = |_: &Wanted<Signature>| panic!("it isn't looked at");
    let heard = station.running.certificate(peer, &forged, never);
    assert_eq!(heard, Ok(Receipt::Dropped));
    let good = nullification(1, &[1, 3, 2]);
    let peer = Participant::new(2);
    let heard = station.running.certificate(peer, &good, verdicts);
    assert_eq!(heard, Ok(Receipt::Answered(Verdict::Recorded)));
    // Another one isn't looked at, nor one of another epoch.
    let heard = station.running.certificate(peer, &good, never);
    assert_eq!(heard, Ok(Receipt::Answered(Verdict::Known)));
    let other = Certificate::Nullification(batcher::Nullification {
        round: Round::new(Epoch::new(1), View::new(1)),
        certificate: Vec::new(),
    });
    let heard = station.running.certificate(peer, &other, never);
    assert_eq!(heard, Ok(Receipt::Outside));
    // Nor one that comes from nobody.
    let heard = station
        .running
        .certificate(Participant::new(4), &good, never);
    assert_eq!(heard, Ok(Receipt::Unknown));
    let round = good.round();
    let kept = station.running.kept(Kind::Nullification, round).unwrap();
    assert_eq!(kept, Some(good));
    assert_eq!(station.running.kept(Kind::Notarization, round), Ok(None));
}

/// One of those that attest doesn't.
fn one_bad(wanted: &Wanted<Signature>) -> Vec<bool> {
    assert_eq!(wanted.attestations().len(), 3);
    vec![true, true, false]
}

fn blocks(running: &mut Validator<Signature>) -> Vec<(Participant, Cause)> {
    let all = tasks(running).into_iter().filter_map(|task| match task {
        Task::Block(peer, cause) => Some((peer, cause)),
        _ => None,
    });
    all.collect()
}

#[test]
fn who_forges_from_ahead_is_blocked_once() {
    let mut station = begun(0);
    let peer = Participant::new(1);
    let ahead = nullification(90, &[1, 3, 2]);
    let heard = station.running.certificate(peer, &ahead, one_bad);
    assert_eq!(heard, Ok(Receipt::Answered(Verdict::Forged)));
    // It is dropped at once, and given to be blocked as soon as something is given.
    let never = |_: &Wanted<Signature>| panic!("it isn't looked at");
    let heard = station.running.certificate(peer, &ahead, never);
    assert_eq!(heard, Ok(Receipt::Dropped));
    assert_eq!(blocks(&mut station.running), [(peer, Cause::Certificate)]);
    for view in [1, 90, 91] {
        let subject = nullify_of(view);
        let vote = Vote::new(subject, Attestation::new(peer, sign(&subject, 1)));
        let heard = station.running.vote(peer, &vote);
        assert!(matches!(heard, Ok(Receipt::Dropped)));
        let good = nullification(view, &[1, 3, 2]);
        let heard = station.running.certificate(peer, &good, never);
        assert_eq!(heard, Ok(Receipt::Dropped));
    }
    // Of another peer it is good, and that one isn't blocked.
    let other = Participant::new(2);
    let heard = station.running.certificate(other, &ahead, verdicts);
    assert_eq!(heard, Ok(Receipt::Answered(Verdict::Recorded)));
    assert_eq!(blocks(&mut station.running), []);
    let good = nullification(200, &[1, 3, 2]);
    let heard = station.running.certificate(other, &good, verdicts);
    assert_eq!(heard, Ok(Receipt::Answered(Verdict::Recorded)));
    assert_eq!(blocks(&mut station.running), []);
}

#[test]
fn who_fell_behind_goes_on_by_a_finalization() {
    let mut station = begun(0);
    let round = Round::new(Epoch::zero(), View::new(70));
    let proposal = Proposal::new(round, View::new(69), Sha256Digest([7; 32]));
    let subject = Subject::Finalize { proposal };
    let mut bytes = 3_u64.to_be_bytes().to_vec();
    for signer in 1..VALIDATORS {
        let signature = sign(&subject, signer);
        bytes.extend(signer.to_be_bytes());
        bytes.push(signature.len() as u8);
        bytes.extend(signature);
        bytes.extend(vec![0; 96 - signature.len()]);
    }
    station.hear(1, &Message::Certificate(Certificate::new(subject, bytes)));
    station.go_on(10);
    assert_eq!(
        station.finals.keys().copied().collect::<Vec<_>>(),
        [round.view]
    );
    assert_eq!(station.view, View::new(71));
}

// Who has no key takes somebody's index, signs nothing, and follows all, that one too.
#[test]
fn who_signs_nothing_follows() {
    let mut stations: Vec<_> = (0..VALIDATORS).map(Station::new).collect();
    let mut observer = Station::new(3);
    observer.signs = false;
    for turn in 0..2000 {
        let me = turn % VALIDATORS;
        for message in stations[me as usize].go_on(8) {
            for to in (0..VALIDATORS).filter(|it| *it != me) {
                stations[to as usize].hear(me, &message);
            }
            observer.hear(me, &message);
        }
        observer.go_on(8);
    }
    assert!(observer.finals.len() > 20 && observer.sent.is_empty());
    assert!(observer.blocked.is_empty());
    for (view, proposal) in &observer.finals {
        assert_eq!(stations[0].finals.get(view).unwrap_or(proposal), proposal);
    }
}

#[test]
fn verdicts_may_come_late() {
    let mut station = begun(0);
    let round = Round::new(Epoch::zero(), View::new(1));
    let subject = Subject::Nullify { round };
    let hear = |station: &mut Station, signer: u32| {
        let attestation = Attestation::new(Participant::new(signer), sign(&subject, signer));
        station.hear(signer, &Message::Vote(Vote::new(subject, attestation)));
    };
    let asked = |station: &mut Station| match station.running.poll().unwrap() {
        Some(Task::Verify(wanted)) => wanted,
        other => panic!("{other:?}"),
    };
    // A quorum of 4 is 3, and its own vote isn't there.
    for signer in [1, 2, 3] {
        hear(&mut station, signer);
    }
    let early = asked(&mut station);
    assert_eq!(early.attestations().len(), 3);
    // It isn't asked twice, until it answers.
    assert!(station.running.poll().unwrap().is_none());
    let late = std::thread::spawn(move || {
        let subject = early.subject();
        let all = early.attestations().iter();
        let verdicts: Vec<bool> = all.map(|it| attests(subject, it)).collect();
        (early, verdicts)
    });
    let (wanted, verdicts) = late.join().unwrap();
    assert_eq!(station.running.conclude(&wanted, &verdicts), Ok(true));
    // They were of that construction, and change nothing any more.
    assert_eq!(station.running.conclude(&wanted, &verdicts), Ok(false));
    assert!(station.running.has_certificate(Kind::Nullification, round));
    let task = station.running.poll().unwrap();
    assert!(matches!(
        task,
        Some(Task::Write(_) | Task::SendCertificate(_) | Task::Enter { .. })
    ));
}

/// A validator of seven that has entered its first view. A quorum is 5.
fn of_seven() -> Validator<Signature> {
    let options = Options {
        participants: 7,
        ..options(0)
    };
    let mut running = Validator::<Signature>::begin(&options, leader).unwrap();
    let Some(Task::Write(write)) = running.poll().unwrap() else {
        panic!("its journal is written first");
    };
    running.wrote(write).unwrap();
    assert!(matches!(running.poll(), Ok(Some(Task::Enter { .. }))));
    running
}

fn nullify_of(view: u64) -> Subject {
    let round = Round::new(Epoch::zero(), View::new(view));
    Subject::Nullify { round }
}

fn hear_vote(running: &mut Validator<Signature>, subject: Subject, signer: u32) {
    let signer = Participant::new(signer);
    let attestation = Attestation::new(signer, sign(&subject, signer.get()));
    let vote = Vote::new(subject, attestation);
    running.vote(signer, &vote).unwrap();
}

fn asked(running: &mut Validator<Signature>) -> Wanted<Signature> {
    match running.poll().unwrap() {
        Some(Task::Verify(wanted)) => wanted,
        other => panic!("{other:?}"),
    }
}

#[test]
fn views_are_verified_at_once() {
    let mut running = of_seven();
    for signer in 1..6 {
        hear_vote(&mut running, nullify_of(1), signer);
        hear_vote(&mut running, nullify_of(2), signer);
    }
    let (first, second) = (asked(&mut running), asked(&mut running));
    assert_eq!(*first.subject(), nullify_of(1));
    assert_eq!(*second.subject(), nullify_of(2));
    assert!(running.poll().unwrap().is_none());
    // The second view's are kept until it is next, and none of the first view's is asked again.
    assert_eq!(running.conclude(&second, &[true; 5]), Ok(false));
    assert!(running.poll().unwrap().is_none());
    assert_eq!(running.conclude(&first, &[true; 5]), Ok(true));
    while let Some(task) = running.poll().unwrap() {
        match task {
            Task::Write(write) => running.wrote(write).unwrap(),
            Task::SendCertificate(_) | Task::Enter { .. } | Task::Propose { .. } => {}
            other => panic!("{other:?}"),
        }
    }
    for view in [1, 2] {
        assert!(running.has_certificate(Kind::Nullification, nullify_of(view).round()));
    }
}

fn signers_of(wanted: &Wanted<Signature>) -> Vec<u32> {
    let all = wanted.attestations().iter();
    all.map(|it| it.signer.get()).collect()
}

#[test]
fn late_verdicts_are_kept() {
    let mut running = of_seven();
    let (round, hear) = (nullify_of(1).round(), hear_vote);
    for signer in 1..6 {
        hear(&mut running, nullify_of(1), signer);
    }
    let five = asked(&mut running);
    assert_eq!(five.attestations().len(), 5);
    hear(&mut running, nullify_of(1), 6);
    // The sixth isn't asked about while the five are awaited, ..
    assert!(running.poll().unwrap().is_none());
    // .. so no construction is made by the five alone.
    assert_eq!(running.conclude(&five, &[true; 5]), Ok(false));
    let one = asked(&mut running);
    assert_eq!(signers_of(&one), [6]);
    assert!(running.poll().unwrap().is_none());
    assert!(!running.has_certificate(Kind::Nullification, round));
    // All six are made by what was found. The sixth is blocked for its signature.
    assert_eq!(running.conclude(&one, &[false]), Ok(true));
    let blocked = (Participant::new(6), Cause::Signature);
    let task = running.poll().unwrap();
    assert!(matches!(task, Some(Task::Block(it, cause)) if (it, cause) == blocked));
    let certificate = running.kept(Kind::Nullification, round).unwrap().unwrap();
    let made = running.attestations(&certificate).unwrap().unwrap();
    let signers = made.attestations().iter().map(|it| it.signer.get());
    assert_eq!(signers.collect::<Vec<_>>(), [1, 2, 3, 4, 5]);
}

/// A proposal of view 1, which participant 1 leads.
fn first_proposal() -> Proposal {
    Proposal::new(nullify_of(1).round(), View::zero(), Sha256Digest([7; 32]))
}

/// All that is to be done by now. What is to be written is.
fn tasks(running: &mut Validator<Signature>) -> Vec<Task<Signature>> {
    let mut tasks = Vec::new();
    while let Some(task) = running.poll().unwrap() {
        match task {
            Task::Write(write) => running.wrote(write).unwrap(),
            other => tasks.push(other),
        }
    }
    tasks
}

/// All that is to be verified by now.
fn all_asked(running: &mut Validator<Signature>) -> Vec<Wanted<Signature>> {
    let wanted = tasks(running).into_iter().filter_map(|task| match task {
        Task::Verify(wanted) => Some(wanted),
        _ => None,
    });
    wanted.collect()
}

#[test]
fn kinds_are_verified_at_once() {
    let mut running = of_seven();
    let proposal = first_proposal();
    let (notarize, finalize) = (
        Subject::Notarize { proposal },
        Subject::Finalize { proposal },
    );
    for signer in 1..6 {
        hear_vote(&mut running, notarize, signer);
        hear_vote(&mut running, finalize, signer);
    }
    let wanted = all_asked(&mut running);
    let [first, second] = &wanted[..] else {
        panic!("{wanted:?}");
    };
    assert_eq!((*first.subject(), *second.subject()), (notarize, finalize));
    // The verdicts on the finalizes are kept until the notarization is there.
    assert_eq!(running.conclude(second, &[true; 5]), Ok(false));
    assert!(tasks(&mut running).is_empty());
    assert_eq!(running.conclude(first, &[true; 5]), Ok(true));
    let is_final = |task: &Task<_>| matches!(task, Task::Final(it) if *it == proposal);
    assert!(tasks(&mut running).iter().any(is_final));
    assert_eq!(running.certified(View::new(1)), Some(proposal));
    assert_eq!(running.certified(View::new(2)), None);
}

/// Votes come while verdicts on others of their kind are awaited. These come in another order than
/// they are needed in.
#[test]
fn late_verdicts_of_kinds_are_used() {
    let mut running = of_seven();
    let proposal = first_proposal();
    let subjects = [
        Subject::Notarize { proposal },
        Subject::Finalize { proposal },
    ];
    for subject in subjects {
        for signer in 1..6 {
            hear_vote(&mut running, subject, signer);
        }
    }
    let fives = all_asked(&mut running);
    assert_eq!(
        fives.iter().map(|it| *it.subject()).collect::<Vec<_>>(),
        subjects
    );
    for subject in subjects {
        hear_vote(&mut running, subject, 6);
    }
    assert!(all_asked(&mut running).is_empty());
    // By each that is answered what came of its kind meanwhile is asked about, and nothing else.
    let mut sixth = Vec::new();
    for five in fives.iter().rev() {
        assert_eq!(signers_of(five), [1, 2, 3, 4, 5]);
        assert_eq!(running.conclude(five, &[true; 5]), Ok(false));
        let more = all_asked(&mut running);
        let [one] = &more[..] else {
            panic!("{more:?}");
        };
        assert_eq!((one.subject(), signers_of(one)), (five.subject(), vec![6]));
        sixth.extend(more);
    }
    // The finalizes are answered first, and made once the notarization is.
    assert_eq!(running.conclude(&sixth[0], &[true]), Ok(false));
    assert!(tasks(&mut running).is_empty());
    assert_eq!(running.conclude(&sixth[1], &[true]), Ok(true));
    let is_final = |task: &Task<_>| matches!(task, Task::Final(it) if *it == proposal);
    assert!(tasks(&mut running).iter().any(is_final));
    // They are over by now.
    for wanted in &sixth {
        assert_eq!(running.conclude(wanted, &[true]), Ok(false));
    }
}

/// What two validators of one disk hand out first has the same stamp, so it counts in its own life
/// alone.
#[test]
fn verdicts_are_of_one_life() {
    let mut station = begun(0);
    let hear = |station: &mut Station| {
        for signer in 1..VALIDATORS {
            hear_vote(&mut station.running, nullify_of(1), signer);
        }
        asked(&mut station.running)
    };
    let earlier = hear(&mut station);
    station.restart();
    station.view = View::zero();
    station.go_on(10);
    assert_eq!(station.view, View::new(1));
    let (round, all) = (nullify_of(1).round(), [true; 3]);
    let running = &mut station.running;
    // Also where nothing is handed out yet.
    assert_eq!(running.conclude(&earlier, &all), Ok(false));
    let later = hear(&mut station);
    let running = &mut station.running;
    assert_eq!(later.subject(), earlier.subject());
    assert_eq!(later.attestations(), earlier.attestations());
    assert_eq!(running.conclude(&earlier, &all), Ok(false));
    // Nor do verdicts count that aren't on what is handed out.
    let certificate = nullification(1, &[1, 2, 3]);
    let listed = running.attestations(&certificate).unwrap().unwrap();
    assert_eq!(listed.attestations(), later.attestations());
    assert_eq!(running.conclude(&listed, &all), Ok(false));
    assert!(running.poll().unwrap().is_none());
    assert!(!running.has_certificate(Kind::Nullification, round));
    assert_eq!(running.conclude(&later, &all), Ok(true));
    assert!(running.has_certificate(Kind::Nullification, round));
}

#[test]
fn a_payload_is_forwarded_to_who_may_lack_it() {
    let proposal = first_proposal();
    let notarize = Subject::Notarize { proposal };
    // Where the validator didn't notarize, it may lack the payload too. Who finalizes has it.
    for (is_valid, finalizes) in [(true, false), (true, true), (false, false)] {
        let mut running = of_seven();
        for signer in 1..5 {
            hear_vote(&mut running, notarize, signer);
        }
        if finalizes {
            hear_vote(&mut running, Subject::Finalize { proposal }, 5);
        }
        running.judge(&proposal, is_valid);
        let mut forwarded = Vec::new();
        loop {
            let more = tasks(&mut running);
            if more.is_empty() {
                break;
            }
            for task in more {
                match task {
                    Task::Sign(subject) => {
                        let signature = sign(&subject, 0);
                        let _ = running.signed(subject, &signature, verdicts).unwrap();
                    }
                    Task::Verify(wanted) => {
                        let verdicts = vec![true; wanted.attestations().len()];
                        running.conclude(&wanted, &verdicts).unwrap();
                    }
                    Task::Forward(it, to) => forwarded.push((it, to)),
                    _ => {}
                }
            }
        }
        if is_valid {
            let to = (if finalizes { 6..7 } else { 5..7 }).map(Participant::new);
            assert_eq!(forwarded, [(proposal, to.collect())]);
            continue;
        }
        hear_vote(&mut running, notarize, 5);
        let wanted = all_asked(&mut running).remove(0);
        let verdicts = vec![true; wanted.attestations().len()];
        running.conclude(&wanted, &verdicts).unwrap();
        let more = tasks(&mut running);
        let sends = |task: &Task<_>| matches!(task, Task::SendCertificate(_));
        assert!(more.iter().any(sends));
        assert!(!more.iter().any(|task| matches!(task, Task::Forward(..))));
    }
}

#[test]
fn a_view_says_why_it_hangs() {
    let mut station = begun(2);
    station.go_on(100);
    let view = View::new(1);
    let round = Round::new(Epoch::zero(), view);
    assert_eq!(
        station.running.expire(View::new(2)).to_string(),
        "led by nobody, no proposal, of 3 votes: notarizes 0 and 0 unverified, \
         nullifies 0 and 0 unverified, finalizes 0 and 0 unverified"
    );
    let proposal = Proposal::new(round, View::zero(), Sha256Digest([1; 32]));
    for (signer, subject) in [
        (1, Subject::Notarize { proposal }),
        (0, Subject::Nullify { round }),
        (3, Subject::Nullify { round }),
    ] {
        let signer = Participant::new(signer);
        let attestation = Attestation::new(signer, sign(&subject, signer.get()));
        let vote = Vote::new(subject, attestation);
        station.running.vote(signer, &vote).unwrap();
    }
    assert_eq!(
        station.running.expire(view).to_string(),
        "led by 1, a proposal, of 3 votes: notarizes 0 and 1 unverified, \
         nullifies 0 and 2 unverified, finalizes 0 and 0 unverified"
    );
}

#[test]
fn a_disk_is_of_one_validator() {
    let station = begun(1);
    let started =
        |options: &Options, disk: &[u8]| Validator::start(options, leader, disk, verdicts).err();
    assert_eq!(started(&options(1), &station.disk), None);
    assert_eq!(
        started(&options(2), &station.disk),
        Some(StartError::OtherOwner)
    );
    assert_eq!(
        started(&options(9), &station.disk),
        Some(StartError::UnknownParticipant)
    );
    assert_eq!(started(&options(1), &[]), Some(StartError::NotBegun));
    let short = &station.disk[..station.disk.len() - 1];
    assert_eq!(started(&options(1), short), Some(StartError::Damaged));
    for other in [
        Options {
            epoch: Epoch::new(1),
            ..options(1)
        },
        Options {
            keys: [5; 32],
            ..options(1)
        },
        Options {
            namespace: b"test",
            ..options(1)
        },
    ] {
        assert_eq!(started(&other, &station.disk), Some(StartError::OtherOwner));
    }
}

#[test]
fn subjects_have_messages_of_their_own() {
    let one = begun(1).running;
    let options = Options {
        namespace: b"test",
        ..options(1)
    };
    let other = Validator::<Signature>::begin(&options, leader).unwrap();
    let round = Round::new(Epoch::zero(), View::new(1));
    let proposal = Proposal::new(round, View::zero(), Sha256Digest([7; 32]));
    let subjects = [
        Subject::Notarize { proposal },
        Subject::Finalize { proposal },
        Subject::Nullify { round },
    ];
    let messages = subjects
        .iter()
        .flat_map(|it| [one.message(it).unwrap(), other.message(it).unwrap()]);
    let mut messages: Vec<_> = messages.collect();
    messages.sort();
    messages.dedup();
    assert_eq!(messages.len(), 6);
}

#[test]
#[should_panic = "there isn't one verdict for each"]
fn each_attestation_has_a_verdict() {
    let mut station = begun(0);
    let round = Round::new(Epoch::zero(), View::new(1));
    let subject = Subject::Nullify { round };
    for signer in 1..VALIDATORS {
        let attestation = Attestation::new(Participant::new(signer), sign(&subject, signer));
        let vote = Vote::new(subject, attestation);
        station
            .running
            .vote(Participant::new(signer), &vote)
            .unwrap();
    }
    loop {
        if let Some(Task::Verify(wanted)) = station.running.poll().unwrap() {
            let _ = station.running.conclude(&wanted, &[]);
        }
    }
}
