//! Four validators, of which the last falls silent for good. The first comes late, and may hear a
//! certificate from beyond its window before those of the views before it. The three go on.

mod shared;
mod toy;

use batcher::positions::Round;
use batcher::validator::{Listed, Options, Receipt, Task, Validator, Verdict};
use batcher::{Epoch, Kind, Participant, Sha256Digest, View, Vote};
use shared::{put, verdicts};
use toy::{Signature, sign};

#[derive(Clone)]
enum Message {
    Vote(Vote<Signature>),
    Certificate(Listed),
}

fn options(me: u32) -> Options<'static> {
    Options {
        ahead: 2,
        ..shared::options(me)
    }
}

/// How many views are led by the first, who isn't there yet.
const GIVEN_UP: u64 = 8;

fn leader(view: View) -> Participant {
    match view.get() {
        view if view <= GIVEN_UP => Participant::new(0),
        view => Participant::new((view % 3) as u32),
    }
}

struct Station {
    me: u32,
    running: Validator<Signature>,
    disk: Vec<u8>,
    view: View,
    finals: usize,
    proposes: bool,
}

impl Station {
    fn new(me: u32) -> Self {
        Station {
            me,
            running: Validator::begin(&options(me), leader).unwrap(),
            disk: Vec::new(),
            view: View::zero(),
            finals: 0,
            proposes: true,
        }
    }

    fn restart(&mut self) {
        self.running = Validator::start(&options(self.me), leader, &self.disk, verdicts).unwrap();
    }

    fn hear(&mut self, sender: u32, message: &Message) {
        let sender = Participant::new(sender);
        match message {
            Message::Vote(vote) => {
                self.running.vote(sender, vote).unwrap();
            }
            Message::Certificate(certificate) => {
                let heard = self.running.certificate(sender, certificate, verdicts);
                assert_ne!(heard, Ok(Receipt::Answered(Verdict::Forged)));
            }
        }
    }

    /// Does what is to be done, and gives what is to be sent.
    fn go_on(&mut self) -> Vec<Message> {
        let mut messages = Vec::new();
        while let Some(task) = self.running.poll().unwrap() {
            match task {
                Task::Write(write) => {
                    put(&mut self.disk, &write);
                    self.running.wrote(write).unwrap();
                }
                Task::Block(peer, cause) => panic!("{} blocks {peer} for {cause}", self.me),
                Task::Final(_) => self.finals += 1,
                Task::SendVote(vote) => messages.push(Message::Vote(vote)),
                Task::SendCertificate(made) => messages.push(Message::Certificate(made)),
                Task::Enter { view, .. } => self.view = view,
                Task::Verify(wanted) => {
                    let verdicts = verdicts(&wanted);
                    self.running.conclude(&wanted, &verdicts).unwrap();
                }
                Task::Sign(subject) => {
                    let signature = sign(&subject, self.me);
                    let signed = self.running.signed(subject, &signature, verdicts);
                    let _ = signed.unwrap();
                }
                Task::Propose { .. } if !self.proposes => {}
                Task::Propose { view, parent } => {
                    let payload = Sha256Digest([view.get() as u8; 32]);
                    self.running.propose(view, parent, payload);
                }
                Task::Judge(proposal) => self.running.judge(&proposal, true),
                Task::Forward(..) => {}
                other => unreachable!("{other:?}"),
            }
        }
        messages
    }
}

/// All hear all, and it is how many messages these are. Where nothing is said any more, each one's
/// time is over.
fn turn(all: &mut [Station], sent: &mut Vec<(u32, Message)>) -> usize {
    for one in all.iter_mut() {
        let me = one.me;
        sent.extend(one.go_on().into_iter().map(|message| (me, message)));
    }
    if sent.is_empty() {
        for one in all.iter_mut() {
            let view = one.view;
            one.running.expire(view);
        }
    }
    let heard = std::mem::take(sent);
    for (sender, message) in &heard {
        for one in all.iter_mut().filter(|one| one.me != *sender) {
            one.hear(*sender, message);
            let me = one.me;
            sent.extend(one.go_on().into_iter().map(|message| (me, message)));
        }
    }
    heard.len() * (all.len() - 1)
}

/// So many turns.
fn run(all: &mut [Station], times: usize) {
    let mut sent = Vec::new();
    for _ in 0..times {
        turn(all, &mut sent);
    }
}

/// How many messages are sent until all are behind a view.
fn sent_until(all: &mut [Station], view: u64) -> usize {
    let mut sent = Vec::new();
    let mut messages = 0;
    while all.iter().any(|it| it.view <= View::new(view)) {
        messages += turn(all, &mut sent);
    }
    messages
}

/// The three that are left, the first one as it comes. Where it is `early`, it hears of one view
/// before the others.
fn three(early: bool) -> Vec<Station> {
    let mut others: Vec<_> = (1..4).map(Station::new).collect();
    let last = View::new(GIVEN_UP + 1);
    while others.iter().any(|it| it.view < last) {
        run(&mut others, 1);
    }
    assert!(others.iter().all(|it| it.finals == 0));
    others.pop();
    let mut late = Station::new(0);
    late.go_on();
    if early {
        for view in [6, 1, 2, 3, 4, 5, 7, 8] {
            let round = Round::new(Epoch::zero(), View::new(view));
            let kept = others[0].running.kept(Kind::Nullification, round);
            late.hear(1, &Message::Certificate(kept.unwrap().unwrap()));
            late.go_on();
        }
    }
    let mut all = vec![late];
    all.extend(others);
    all
}

const TIMES: usize = 600;

/// Each of them went on, and half of the times a view became final.
fn assert_finals(all: &[Station]) {
    let finals: Vec<_> = all.iter().map(|it| it.finals).collect();
    assert!(finals.iter().all(|it| *it > TIMES / 4), "{finals:?}");
}

#[test]
fn in_order() {
    let mut all = three(false);
    run(&mut all, TIMES);
    assert_finals(&all);
}

#[test]
fn one_came_from_ahead() {
    let mut all = three(true);
    run(&mut all, TIMES);
    assert_finals(&all);
}

#[test]
fn one_came_from_ahead_and_it_is_restarted() {
    let mut all = three(true);
    run(&mut all, TIMES);
    all[0].restart();
    for one in &mut all {
        one.finals = 0;
    }
    run(&mut all, TIMES);
    assert_finals(&all);
}

/// Nobody proposes, so each view is given up.
#[test]
fn a_view_of_a_long_stall_costs_no_more_messages() {
    let mut all: Vec<_> = (0..4).map(Station::new).collect();
    for one in &mut all {
        one.proposes = false;
    }
    sent_until(&mut all, 499);
    let sent = sent_until(&mut all, 500);
    assert!(sent <= 150, "{sent} messages in view 500");
}
