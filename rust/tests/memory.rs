//! Each request for memory of a script is refused in turn, of the library and of the crate: the call
//! says so, and made again it goes on as if nothing had been.

mod refusing;

use batcher::errors::RoundError;
use batcher::positions::Round as Number;
use batcher::validator::{self, KeptError, Options, PollError, StartError, Task, Validator};
use batcher::{
    Certificate, Epoch, Kind, Mode, Participant, Proposal, Round, Sha256Digest, Step, Subject,
    View, Wanted,
};
use refusing::{Plain, Signature, again, asks, each_refused_in_turn, once, uncounted, vote};

/// A round with what it has answered, as text.
struct Player {
    round: Round<Plain>,
    answers: Vec<String>,
}

const NUMBER: Number = Number::new(Epoch::zero(), View::new(1));

fn proposal(payload: u8) -> Proposal {
    Proposal::new(NUMBER, View::zero(), Sha256Digest([payload; 32]))
}

impl Player {
    fn note<R: std::fmt::Debug>(&mut self, answer: R) {
        self.answers.push(format!("{answer:?}"));
    }

    fn hear(&mut self, granted: &mut Option<u32>, signer: u32, subject: Subject, is_good: bool) {
        let vote = vote(subject, signer, is_good);
        let answer = again(granted, || self.round.add_network(&signer, &vote));
        self.note(answer);
    }

    fn construct(&mut self, granted: &mut Option<u32>) {
        loop {
            let step = again(granted, || self.round.step());
            match step.unwrap() {
                Step::Verify(wanted) => {
                    let verdicts: Vec<_> = wanted
                        .attestations()
                        .iter()
                        .map(|it| it.signature == [1])
                        .collect();
                    again(granted, || self.round.record_verdicts(&wanted, &verdicts)).unwrap();
                }
                Step::VerifyTogether(wanted) => {
                    let passes = wanted.attestations().iter().all(|it| it.signature == [1]);
                    again(granted, || {
                        self.round.record_verdict_together(&wanted, passes)
                    })
                    .unwrap();
                }
                Step::Made(batch) => return self.note(batch),
                Step::Idle => return self.note("idle"),
            }
        }
    }
}

/// Plays a script, and gives what was answered.
fn play(mode: Mode, aggregates: bool, granted: &mut Option<u32>) -> Vec<String> {
    let scheme = Plain::new(4, aggregates);
    let round = again(granted, || Round::in_mode(NUMBER, scheme.clone(), mode)).unwrap();
    let mut player = Player {
        round,
        answers: Vec::new(),
    };
    let leader = again(granted, || player.round.set_leader(Participant::new(0)));
    player.note(leader);
    player.hear(
        granted,
        0,
        Subject::Notarize {
            proposal: proposal(1),
        },
        true,
    );
    player.hear(
        granted,
        1,
        Subject::Notarize {
            proposal: proposal(2),
        },
        true,
    );
    player.hear(
        granted,
        2,
        Subject::Notarize {
            proposal: proposal(2),
        },
        true,
    );
    let subject = Subject::Notarize {
        proposal: proposal(2),
    };
    let own = vote(subject, 3, true);
    let answer = again(granted, || player.round.accept_verified_vote(&own));
    player.note(answer);
    for signer in 0..3 {
        player.hear(
            granted,
            signer,
            Subject::Nullify { round: NUMBER },
            signer != 1,
        );
    }
    player.construct(granted);
    // It replaces the leader's proposal, and the notarizes for the other come back.
    let finalization = Certificate::new(
        Subject::Finalize {
            proposal: proposal(2),
        },
        3,
    );
    let answer = again(granted, || player.round.record_certificate(&finalization));
    player.note(answer);
    player.construct(granted);
    player.hear(granted, 3, Subject::Nullify { round: NUMBER }, true);
    player.construct(granted);
    player.construct(granted);
    let missing = again(granted, || player.round.missing_voters(&proposal(2)));
    player.note(missing);
    player.answers
}

#[test]
fn a_refusal_changes_nothing() {
    for mode in [Mode::Retaining, Mode::Releasing, Mode::Skipped] {
        for aggregates in [false, true] {
            each_refused_in_turn(&format!("{mode:?}, {aggregates}"), |granted| {
                play(mode, aggregates, granted)
            });
        }
    }
}

fn hear_nullify(round: &mut Round<Plain>, signer: u32) {
    let nullify = vote(Subject::Nullify { round: NUMBER }, signer, true);
    let admission = round.add_network(&signer, &nullify).unwrap();
    assert!(admission.added);
}

fn with_three_nullifies(aggregates: bool) -> Round<Plain> {
    let mut round = Round::in_mode(NUMBER, Plain::new(4, aggregates), Mode::Retaining).unwrap();
    for signer in 0..3 {
        hear_nullify(&mut round, signer);
    }
    round
}

fn wanted(round: &mut Round<Plain>) -> Wanted<Signature> {
    match round.step() {
        Ok(Step::Verify(wanted)) => wanted,
        other => panic!("{other:?}"),
    }
}

/// How many votes of the next batch are looked at, and whose are invalid.
fn processed(round: &mut Round<Plain>) -> (usize, Vec<u32>) {
    match round.step() {
        Ok(Step::Made(batch)) => {
            let invalid = batch.invalid.iter().map(|it| it.get()).collect();
            (batch.processed, invalid)
        }
        other => panic!("{other:?}"),
    }
}

/// All are asked for again, and the verdicts that are handed in then count.
#[test]
fn of_a_refused_list_no_verdict_is_recorded() {
    for refused in 0.. {
        let mut round = with_three_nullifies(false);
        let three = wanted(&mut round);
        let answer = once(&mut Some(refused), || {
            round.record_verdicts(&three, &[false; 3])
        });
        if answer.is_ok() {
            assert!(refused > 1, "{refused} requests alone");
            return;
        }
        assert_eq!(answer, Err(RoundError::OutOfMemory));
        let again = wanted(&mut round);
        assert_eq!(again.attestations(), three.attestations());
        assert_eq!(
            round.record_verdicts(&again, &[true, false, true]),
            Ok(true)
        );
        assert_eq!(processed(&mut round), (3, vec![1]));
    }
}

/// Where some have a verdict by then, a list that has these too isn't what is wanted: what is left of it
/// is handed out again.
#[test]
fn what_is_left_of_a_list_is_wanted_again() {
    let mut round = with_three_nullifies(false);
    let three = wanted(&mut round);
    hear_nullify(&mut round, 3);
    let four = wanted(&mut round);
    assert_eq!(
        round.record_verdicts(&three, &[true, false, true]),
        Ok(true)
    );
    assert_eq!(round.record_verdicts(&four, &[true; 4]), Ok(false));
    let left = wanted(&mut round);
    assert_eq!(left.attestations(), &four.attestations()[3..]);
    assert_eq!(round.record_verdicts(&left, &[false]), Ok(true));
    assert_eq!(processed(&mut round), (4, vec![1, 3]));
}

/// A vote of another round isn't looked at, so it takes no memory.
#[test]
fn a_vote_of_another_round_takes_no_memory() {
    let mut round = Round::in_mode(NUMBER, Plain::new(4, false), Mode::Retaining).unwrap();
    let other = Number::new(Epoch::zero(), View::new(9));
    let nullify = vote(Subject::Nullify { round: other }, 1, true);
    let answer = asks(|| round.add_network(&1, &nullify));
    assert_eq!(answer, (Err(RoundError::Elsewhere), false));
}

/// Of two verdicts on the same attestations as a whole the first counts that memory was there for.
#[test]
fn the_first_verdict_on_a_whole_counts() {
    for refused in 0.. {
        let mut round = with_three_nullifies(true);
        let Ok(Step::VerifyTogether(three)) = round.step() else {
            panic!("no verdict as a whole is wanted");
        };
        let answer = once(&mut Some(refused), || {
            round.record_verdict_together(&three, false)
        });
        round.record_verdict_together(&three, true).unwrap();
        let is_asked = matches!(round.step(), Ok(Step::Verify(_)));
        assert_eq!(is_asked, answer.is_ok());
        if answer.is_ok() {
            assert!(refused > 0, "none was refused");
            return;
        }
    }
}

/// A validator of four, with what it gave to be done and what it answered, as text.
struct One {
    running: Validator<Signature>,
    answers: Vec<String>,
}

fn verdicts(wanted: &validator::Wanted<Signature>) -> Vec<bool> {
    let all = wanted.attestations().iter();
    all.map(|it| it.signature == [1]).collect()
}

impl One {
    fn begin(granted: &mut Option<u32>) -> Self {
        let options = Options {
            epoch: Epoch::zero(),
            me: Participant::new(0),
            participants: 4,
            keys: [4; 32],
            namespace: b"memory",
            ahead: 4,
            track_historical_votes: false,
        };
        // It holds something, so that memory is taken for it.
        let count = u64::from(options.participants);
        let leader = move |view: View| Participant::new((view.get() % count) as u32);
        let begin = || Validator::<Signature>::begin(&options, leader);
        let running = match once(granted, begin) {
            Err(StartError::OutOfMemory) => begin(),
            made => made,
        };
        One {
            running: running.unwrap(),
            answers: Vec::new(),
        }
    }

    /// Does all that is to be done.
    fn go_on(&mut self, granted: &mut Option<u32>) {
        let running = &mut self.running;
        loop {
            let task = match once(granted, || running.poll()) {
                Err(PollError::OutOfMemory) => running.poll(),
                task => task,
            };
            match task.unwrap() {
                None => return,
                Some(Task::Write(write)) => once(granted, || running.wrote(write)).unwrap(),
                Some(Task::Verify(wanted)) => {
                    let (subject, all) = (wanted.subject(), wanted.attestations());
                    let verdicts = verdicts(&wanted);
                    let made = again(granted, || running.conclude(&wanted, &verdicts));
                    self.answers.push(format!("{subject:?} {all:?} {made:?}"));
                }
                Some(Task::Sign(subject)) => {
                    let verify = |wanted: &_| uncounted(|| verdicts(wanted));
                    let signed = || running.signed(subject, &[1], verify);
                    let _ = again(granted, signed).unwrap();
                }
                Some(task) => self.answers.push(format!("{task:?}")),
            }
        }
    }

    /// Hears a certificate, of attestations that attest or don't.
    fn hear(&mut self, granted: &mut Option<u32>, sender: u32, subject: Subject, good: [u8; 3]) {
        let mut bytes = 3_u64.to_be_bytes().to_vec();
        for (signer, is_good) in (1_u32..).zip(good) {
            bytes.extend(signer.to_be_bytes());
            bytes.extend([1, is_good]);
            bytes.extend([0; 95]);
        }
        let made = Certificate::new(subject, bytes);
        let sender = Participant::new(sender);
        let verify = |wanted: &_| uncounted(|| verdicts(wanted));
        let heard = again(granted, || self.running.certificate(sender, &made, verify));
        self.answers.push(format!("{heard:?}"));
        self.go_on(granted);
    }
}

#[test]
fn a_validator_goes_on_where_memory_is_refused() {
    each_refused_in_turn("a validator", |granted| {
        let mut it = One::begin(granted);
        it.go_on(granted);
        for signer in 1..4 {
            let nullify = vote(Subject::Nullify { round: NUMBER }, signer, true);
            let sender = nullify.signer();
            let heard = again(granted, || it.running.vote(sender, &nullify));
            it.answers.push(format!("{heard:?}"));
            it.go_on(granted);
        }
        let later = Number::new(Epoch::zero(), View::new(3));
        let proposal = Proposal::new(later, View::zero(), Sha256Digest([7; 32]));
        it.hear(granted, 1, Subject::Notarize { proposal }, [1, 1, 1]);
        it.hear(granted, 2, Subject::Finalize { proposal }, [1, 0, 1]);
        it.hear(granted, 3, Subject::Finalize { proposal }, [1, 1, 1]);
        let kept = match once(granted, || it.running.kept(Kind::Finalization, later)) {
            Err(KeptError::OutOfMemory) => it.running.kept(Kind::Finalization, later),
            kept => kept,
        };
        it.answers.push(format!("{kept:?}"));
        let certified = it.running.certified(View::new(3));
        it.answers.push(format!("{certified:?}"));
        it.answers
    });
}
