//! Rounds over a scheme in Rust.

mod toy;

use batcher::errors::{CertificateError, LeaderError, NewError, OwnError, RoundError};
use batcher::positions::{self, Round as Number};
use batcher::{
    Activity, BlockReason, Epoch, Kind, Mode, Outcome, OwnFault, Participant, Round, Scheme, Set,
    SetFault, Step, Subject, View, Vote, quorum,
};
use std::sync::Arc;
use toy::{KEYS, ROUND, Signature, Toy, bad, certificate, finalize, notarize, nullify, proposal};

fn round(scheme: &Arc<Toy>, mode: Mode) -> Round<Toy> {
    Round::in_mode(ROUND, scheme.clone(), mode).unwrap()
}

/// Takes in a vote from its signer.
fn answer(round: &mut Round<Toy>, vote: Vote<Signature>) -> batcher::Admission<Signature> {
    round
        .add_network(&KEYS[usize::from(vote.signer())], &vote)
        .unwrap()
}

/// The same, where it doesn't matter what is answered.
fn hear(round: &mut Round<Toy>, vote: Vote<Signature>) {
    let _ = answer(round, vote);
}

/// Casts an own vote, which is to be sent.
fn cast(round: &mut Round<Toy>, vote: Vote<Signature>) {
    let outcome = round.accept_verified_vote(&vote);
    assert!(matches!(outcome, Ok(Outcome::ToSend { .. })));
}

fn is_repeat(round: &mut Round<Toy>, vote: Vote<Signature>) -> bool {
    let admission = answer(round, vote);
    !admission.added && admission.block.is_none() && admission.report.is_none()
}

#[test]
fn three_nullifies_make_a_nullification() {
    let scheme = Toy::new(4);
    let mut round = round(&scheme, Mode::Releasing);
    for signer in 0..3 {
        let admission = answer(&mut round, nullify(signer));
        assert!(admission.added && admission.block.is_none());
        assert!(matches!(admission.report, Some(Activity::Nullify(_))));
    }
    assert_eq!(scheme.counted(), [0, 0, 0]);
    let batch = round.try_construct().unwrap().unwrap();
    assert_eq!(scheme.counted(), [1, 3, 0]);
    assert_eq!(
        (batch.processed, batch.fallback, batch.invalid),
        (3, false, vec![])
    );
    let certificate = batch.certificate.unwrap();
    assert_eq!(certificate.subject(), Subject::Nullify { round: ROUND });
    let signers: Vec<_> = certificate
        .content()
        .iter()
        .map(|it| it.signer.get())
        .collect();
    assert_eq!(signers, [0, 1, 2]);
    assert!(round.has_certificate(Kind::Nullification));
    assert_eq!(round.try_construct(), Ok(None));
}

#[test]
fn a_bad_vote_is_named_and_nothing_is_verified_twice() {
    let scheme = Toy::new(4);
    let mut round = round(&scheme, Mode::Retaining);
    hear(&mut round, nullify(0));
    hear(&mut round, bad(nullify(1)));
    assert_eq!(round.try_construct(), Ok(None));
    hear(&mut round, nullify(2));
    let batch = round.try_construct().unwrap().unwrap();
    assert_eq!((batch.processed, batch.fallback), (3, true));
    assert_eq!(batch.invalid, [Participant::new(1)]);
    assert!(batch.certificate.is_none());
    hear(&mut round, nullify(3));
    let batch = round.try_construct().unwrap().unwrap();
    assert_eq!(batch.processed, 1);
    let signers: Vec<_> = batch
        .certificate
        .unwrap()
        .content()
        .iter()
        .map(|it| it.signer.get())
        .collect();
    assert_eq!(signers, [0, 2, 3]);
    assert_eq!(scheme.counted(), [2, 4, 0]);
}

#[test]
fn contradictions_are_blocked_with_their_evidence() {
    let scheme = Toy::new(4);
    let mut round = round(&scheme, Mode::Retaining);
    let (first, second) = (notarize(1, 1), notarize(1, 2));
    hear(&mut round, first);
    assert!(is_repeat(&mut round, first));
    let admission = answer(&mut round, second);
    assert_eq!(admission.block, Some(BlockReason::ConflictingNotarize));
    let (Vote::Notarize(one), Vote::Notarize(other)) = (first, second) else {
        unreachable!()
    };
    assert_eq!(
        admission.report,
        Some(Activity::ConflictingNotarize(one, other))
    );
    let admission = answer(&mut round, bad(first));
    assert_eq!(admission.block, Some(BlockReason::InvalidSignature));
    let admission = round.add_network(&"ada", &second).unwrap();
    assert_eq!(admission.block, Some(BlockReason::NotarizeSignerMismatch));
    let admission = round.add_network(&"zoe", &second).unwrap();
    assert_eq!(admission.block, Some(BlockReason::UnknownParticipant));
    let (early, late) = (nullify(2), finalize(2, 1));
    hear(&mut round, early);
    let admission = answer(&mut round, bad(early));
    assert_eq!(admission.block, Some(BlockReason::ConflictingNullify));
    let admission = answer(&mut round, late);
    assert_eq!(admission.block, Some(BlockReason::FinalizeAfterNullify));
    let (Vote::Nullify(early), Vote::Finalize(late)) = (early, late) else {
        unreachable!()
    };
    assert_eq!(
        admission.report,
        Some(Activity::NullifyFinalize(early, late))
    );
    // None of this took a verification.
    assert_eq!(scheme.counted(), [0, 0, 0]);
}

// Who repeats its vote is honest, whatever has become of the vote meanwhile.
#[test]
fn repeats_are_never_blocked() {
    for mode in [Mode::Retaining, Mode::Releasing, Mode::Skipped] {
        let scheme = Toy::new(4);
        let mut round = round(&scheme, mode);
        let early = [
            notarize(0, 1),
            notarize(1, 1),
            bad(notarize(2, 1)),
            finalize(3, 2),
        ];
        for vote in early {
            assert!(answer(&mut round, vote).added);
            assert!(is_repeat(&mut round, vote));
        }
        round.set_leader(Participant::new(0)).unwrap();
        for vote in early {
            assert!(
                is_repeat(&mut round, vote),
                "{mode:?} before a construction"
            );
        }
        // The bad vote is found out, and its sender may still repeat it.
        let batch = round.try_construct().unwrap();
        assert_eq!(batch.is_none(), mode == Mode::Skipped);
        for vote in early {
            assert!(is_repeat(&mut round, vote), "{mode:?} after a construction");
        }
        hear(&mut round, notarize(3, 1));
        let batch = round.try_construct().unwrap();
        assert_eq!(batch.is_none(), mode == Mode::Skipped);
        for vote in early {
            assert!(
                is_repeat(&mut round, vote),
                "{mode:?} after the notarization"
            );
        }
        // A certificate from outside replaces nothing here, and what is kept stays known.
        let finalization = certificate(
            Subject::Finalize {
                proposal: proposal(1),
            },
            0..3,
        );
        assert_eq!(round.record_certificate(&finalization), Ok(false));
        for vote in early {
            assert!(
                is_repeat(&mut round, vote),
                "{mode:?} after the finalization"
            );
        }
    }
}

// Votes for another proposal than the selected one wait outside of the library's buffers, and come
// back.
#[test]
fn restored_votes_are_verified_again() {
    let scheme = Toy::new(4);
    let mut round = round(&scheme, Mode::Releasing);
    round.set_leader(Participant::new(0)).unwrap();
    hear(&mut round, notarize(0, 1));
    // An own vote for another proposal was verified when it was taken in.
    assert!(round.accept_vote(&notarize(1, 2)).is_ok());
    hear(&mut round, notarize(2, 2));
    hear(&mut round, notarize(3, 2));
    assert_eq!(scheme.counted(), [1, 1, 0]);
    for signer in 1..4 {
        hear(&mut round, nullify(signer));
    }
    assert!(round.try_construct().unwrap().is_some());
    assert_eq!(scheme.counted(), [2, 4, 0]);
    let finalization = certificate(
        Subject::Finalize {
            proposal: proposal(2),
        },
        0..3,
    );
    assert_eq!(round.record_certificate(&finalization), Ok(false));
    let batch = round.try_construct().unwrap().unwrap();
    assert_eq!(batch.processed, 3);
    assert_eq!(batch.certificate.unwrap().proposal(), Some(proposal(2)));
    // The own vote came back as pending too.
    assert_eq!(scheme.counted(), [3, 7, 0]);
}

#[test]
fn the_leaders_proposal_is_notarized_forwarded_and_finalized() {
    let scheme = Toy::new(4);
    let mut round = round(&scheme, Mode::Releasing);
    let me = Participant::new(0);
    hear(&mut round, notarize(1, 7));
    hear(&mut round, notarize(2, 7));
    assert_eq!(round.try_forward_proposal(me), None);
    assert_eq!((round.leader(), round.proposal()), (None, None));
    round.set_leader(Participant::new(2)).unwrap();
    round.set_leader(Participant::new(2)).unwrap();
    assert_eq!(
        round.set_leader(Participant::new(1)),
        Err(LeaderError::LeaderChanged)
    );
    assert_eq!(round.leader(), Some(Participant::new(2)));
    assert_eq!(round.proposal(), Some(proposal(7)));
    assert_eq!(round.try_forward_proposal(me), Some(proposal(7)));
    assert_eq!(round.try_forward_proposal(me), None);
    let Vote::Notarize(own) = notarize(0, 7) else {
        unreachable!()
    };
    let to_send = Outcome::ToSend {
        report: Activity::Notarize(own),
        retained: true,
    };
    assert_eq!(round.accept_vote(&notarize(0, 7)), Ok(to_send));
    let duplicate = Err(OwnError::Own(OwnFault::DuplicateNotarize));
    assert_eq!(round.accept_vote(&notarize(0, 7)), duplicate);
    let batch = round.try_construct().unwrap().unwrap();
    // The own vote is known to attest, so two are pending.
    assert_eq!(batch.processed, 2);
    assert_eq!(batch.certificate.unwrap().kind(), Kind::Notarization);
    let missing = round.missing_voters(&proposal(7)).unwrap();
    assert_eq!(missing, [Participant::new(3)]);
    assert!(round.is_missing_voter(&proposal(7), Participant::new(3)));
    assert!(!round.is_missing_voter(&proposal(7), Participant::new(1)));
    // Its kind is released, so a repeat leaves facts alone.
    let again = round.accept_vote(&notarize(0, 7));
    assert_eq!(again, Ok(Outcome::Duplicate { retained: false }));
    assert_eq!(
        round.accept_vote(&bad(finalize(0, 7))),
        Err(OwnError::NotVerified)
    );
    for signer in 1..4 {
        hear(&mut round, finalize(signer, 7));
    }
    let batch = round.try_construct().unwrap().unwrap();
    assert_eq!(batch.certificate.unwrap().kind(), Kind::Finalization);
}

#[test]
fn own_votes_exclude_each_other() {
    let scheme = Toy::new(4);
    let mut round = round(&scheme, Mode::Retaining);
    cast(&mut round, finalize(0, 1));
    let fault = Err(OwnError::Own(OwnFault::NullifyAfterFinalize));
    assert_eq!(round.accept_verified_vote(&nullify(0)), fault);
    cast(&mut round, nullify(1));
    let again = round.accept_verified_vote(&nullify(1));
    assert_eq!(again, Ok(Outcome::Duplicate { retained: true }));
    let fault = Err(OwnError::Own(OwnFault::FinalizeAfterNullify));
    assert_eq!(round.accept_verified_vote(&finalize(1, 1)), fault);
    assert!(round.has_nullify(Participant::new(1)));
    assert!(!round.has_nullify(Participant::new(0)));
    // Who takes no part has no own vote.
    let stranger = toy::vote(Subject::Nullify { round: ROUND }, 4);
    assert_eq!(
        round.accept_verified_vote(&stranger),
        Err(OwnError::NotVerified)
    );
    assert_eq!(round.accept_vote(&stranger), Err(OwnError::NotVerified));
}

// A second one is on nothing that is wanted.
#[test]
fn the_first_verdict_counts() {
    let scheme = Toy::with(4, false, false);
    let mut round = round(&scheme, Mode::Retaining);
    hear(&mut round, bad(nullify(1)));
    let Step::Verify(wanted) = round.step().unwrap() else {
        panic!("one vote is enough")
    };
    assert_eq!(round.record_verdicts(&wanted, &[false]), Ok(true));
    assert_eq!(round.record_verdicts(&wanted, &[true]), Ok(false));
    let Step::Made(batch) = round.step().unwrap() else {
        panic!("a verdict is there")
    };
    assert_eq!(batch.invalid, [Participant::new(1)]);
}

// Also among verdicts that come at once: what is left of them is wanted again.
#[test]
fn the_first_verdicts_count_among_many() {
    let scheme = Toy::new(4);
    let mut round = round(&scheme, Mode::Retaining);
    for signer in 0..3 {
        hear(&mut round, nullify(signer));
    }
    let Step::Verify(three) = round.step().unwrap() else {
        panic!("three are a quorum")
    };
    hear(&mut round, nullify(3));
    let Step::Verify(four) = round.step().unwrap() else {
        panic!("no verdict is there")
    };
    assert_eq!(four.attestations().len(), 4);
    let found = round.record_verdicts(&three, &[true, false, true]);
    assert_eq!(found, Ok(true));
    assert_eq!(round.record_verdicts(&four, &[true; 4]), Ok(false));
    let Step::Verify(left) = round.step().unwrap() else {
        panic!("one has no verdict")
    };
    assert_eq!(left.attestations(), &four.attestations()[3..]);
    assert_eq!(round.record_verdicts(&left, &[true]), Ok(true));
    let Step::Made(batch) = round.step().unwrap() else {
        panic!("a verdict on each is there")
    };
    assert_eq!((batch.processed, batch.fallback), (4, true));
    assert_eq!(batch.invalid, [Participant::new(1)]);
    let signers = batch.certificate.map(|it| it.content().len());
    assert_eq!(signers, Some(3));
}

#[test]
fn what_is_of_another_round_is_refused() {
    let scheme = Toy::new(4);
    let mut round = round(&scheme, Mode::Releasing);
    let elsewhere = Number::new(Epoch::zero(), View::new(2));
    let vote = toy::vote(Subject::Nullify { round: elsewhere }, 0);
    assert_eq!(round.add_network(&"ada", &vote), Err(RoundError::Elsewhere));
    assert_eq!(round.accept_vote(&vote), Err(OwnError::Elsewhere));
    let nullification = certificate(Subject::Nullify { round: elsewhere }, 0..3);
    assert!(!round.belongs_certificate(&nullification));
    let elsewhere = Err(CertificateError::Elsewhere);
    assert_eq!(round.record_certificate(&nullification), elsewhere);
    assert_eq!(round.record_verified_certificate(&nullification), elsewhere);
    // Attestations of one round aren't taken for another's, though their numbers are the same.
    let mut other = self::round(&scheme, Mode::Releasing);
    for signer in 0..3 {
        hear(&mut round, nullify(signer));
        hear(&mut other, nullify(signer));
    }
    let Step::Verify(wanted) = round.step().unwrap() else {
        panic!("three are a quorum")
    };
    assert_eq!(
        other.record_verdicts(&wanted, &[true; 3]),
        Err(RoundError::Elsewhere)
    );
    let scheme = Toy::with(4, true, true);
    let (mut one, mut other) = (
        self::round(&scheme, Mode::Releasing),
        self::round(&scheme, Mode::Releasing),
    );
    for signer in 0..3 {
        hear(&mut one, nullify(signer));
        hear(&mut other, nullify(signer));
    }
    let Step::VerifyTogether(wanted) = one.step().unwrap() else {
        panic!("it aggregates")
    };
    assert_eq!(
        other.record_verdict_together(&wanted, true),
        Err(RoundError::Elsewhere)
    );
    let none = Round::new(ROUND, Toy::new(0), true);
    assert_eq!(none.unwrap_err(), NewError::NoParticipants);
}

// A certificate is verified by the scheme, unless the caller says that it was.
#[test]
fn forged_certificates_are_refused() {
    let scheme = Toy::new(4);
    let mut round = round(&scheme, Mode::Releasing);
    let subject = Subject::Notarize {
        proposal: proposal(3),
    };
    // Too few, and whoever takes no part.
    for signers in [0..2, 2..5] {
        let forged = certificate(subject, signers);
        assert_eq!(
            round.record_certificate(&forged),
            Err(CertificateError::Forged)
        );
    }
    assert_eq!(round.proposal(), None);
    assert!(!round.has_certificate(Kind::Notarization));
    assert_eq!(
        round.record_certificate(&certificate(subject, 1..4)),
        Ok(true)
    );
    assert_eq!(round.proposal(), Some(proposal(3)));
    let mut round = self::round(&scheme, Mode::Releasing);
    let forged = certificate(subject, 0..0);
    assert_eq!(round.record_verified_certificate(&forged), Ok(true));
    assert_eq!(round.proposal(), Some(proposal(3)));
}

// A round knows the own votes that it was handed. One that is made again has to be handed those that
// were sent, or else it would let another be sent that contradicts them.
#[test]
fn a_round_that_is_made_again_is_handed_the_votes_that_were_sent() {
    let scheme = Toy::new(4);
    let sent = [notarize(0, 7), nullify(0)];
    let contradicts = [notarize(0, 8), finalize(0, 7)];
    for mode in [Mode::Retaining, Mode::Releasing] {
        for vote in contradicts {
            cast(&mut round(&scheme, mode), vote);
        }
        let mut again = round(&scheme, mode);
        for vote in sent {
            cast(&mut again, vote);
        }
        for vote in contradicts {
            let refused = again.accept_vote(&vote);
            assert!(
                matches!(refused, Err(OwnError::Own(_))),
                "{mode:?}, {vote:?}"
            );
        }
    }
}

// Whoever is no participant can't lead, and the leader may still be named.
#[test]
fn a_leader_takes_part() {
    let scheme = Toy::new(4);
    let mut round = round(&scheme, Mode::Releasing);
    for index in [4, u32::MAX] {
        assert_eq!(
            round.set_leader(Participant::new(index)),
            Err(LeaderError::UnknownParticipant)
        );
    }
    assert_eq!(round.leader(), None);
    round.set_leader(Participant::new(3)).unwrap();
    assert_eq!(round.leader(), Some(Participant::new(3)));
    // After that too an index that is no participant's is said to be none.
    assert_eq!(
        round.set_leader(Participant::new(4)),
        Err(LeaderError::UnknownParticipant)
    );
}

// A verdict on a quorum as a whole counts for just that quorum.
#[test]
fn a_vote_that_comes_makes_a_verdict_together_void() {
    let scheme = Toy::with(4, true, true);
    let mut round = round(&scheme, Mode::Releasing);
    for signer in 0..3 {
        hear(&mut round, nullify(signer));
    }
    let Step::VerifyTogether(first) = round.step().unwrap() else {
        panic!("it aggregates")
    };
    hear(&mut round, nullify(3));
    round.record_verdict_together(&first, true).unwrap();
    let Step::VerifyTogether(second) = round.step().unwrap() else {
        panic!("it aggregates")
    };
    assert_eq!(
        (first.attestations().len(), second.attestations().len()),
        (3, 4)
    );
    assert_eq!(second.verified(), 0);
    round.record_verdict_together(&second, true).unwrap();
    assert!(matches!(round.step(), Ok(Step::Made(batch)) if batch.certificate.is_some()));
}

// Verdicts that never come hold up the other kinds, until the step is made again.
#[test]
fn a_step_hands_out_the_same_again_and_what_has_come() {
    let scheme = Toy::new(4);
    let mut round = round(&scheme, Mode::Releasing);
    for signer in 0..3 {
        hear(&mut round, nullify(signer));
    }
    for wanted in [3, 4] {
        let Step::Verify(again) = round.step().unwrap() else {
            panic!("three are a quorum")
        };
        assert_eq!(again.attestations().len(), wanted);
        hear(&mut round, nullify(3));
    }
    assert!(round.try_construct().unwrap().is_some());
}

#[test]
fn a_quorum_is_verified_together_where_it_aggregates() {
    let scheme = Toy::with(4, true, true);
    let mut round = round(&scheme, Mode::Releasing);
    cast(&mut round, nullify(3));
    hear(&mut round, nullify(0));
    hear(&mut round, bad(nullify(1)));
    let Step::VerifyTogether(wanted) = round.step().unwrap() else {
        panic!("it aggregates")
    };
    // The own vote stands first, since it is known to attest.
    assert_eq!(wanted.verified(), 1);
    assert_eq!(wanted.attestations()[0].signer, Participant::new(3));
    assert_eq!(*wanted.subject(), Subject::Nullify { round: ROUND });
    // As a whole they don't pass, so each is looked at.
    let batch = round.try_construct().unwrap().unwrap();
    assert_eq!(
        (batch.fallback, batch.invalid),
        (true, vec![Participant::new(1)])
    );
    assert_eq!(scheme.counted(), [1, 2, 1]);
    hear(&mut round, nullify(2));
    let batch = round.try_construct().unwrap().unwrap();
    assert!(batch.certificate.is_some() && !batch.fallback);
    assert_eq!(scheme.counted(), [1, 2, 2]);
}

#[test]
fn a_scheme_that_is_not_batchable_is_asked_at_once() {
    let scheme = Toy::with(4, false, false);
    let mut round = round(&scheme, Mode::Releasing);
    for signer in 0..3 {
        hear(&mut round, nullify(signer));
        let batch = round.try_construct().unwrap().unwrap();
        assert_eq!(
            (batch.processed, batch.certificate.is_some()),
            (1, signer == 2)
        );
    }
    assert_eq!(scheme.counted(), [3, 3, 0]);
}

// Verdicts that come when their kind was certified meanwhile do no harm.
#[test]
fn verdicts_may_come_late() {
    let scheme = Toy::new(4);
    let mut round = round(&scheme, Mode::Releasing);
    for signer in 0..3 {
        hear(&mut round, nullify(signer));
    }
    let Step::Verify(wanted) = round.step().unwrap() else {
        panic!("three are a quorum")
    };
    let nullification = certificate(Subject::Nullify { round: ROUND }, 0..3);
    assert_eq!(round.record_certificate(&nullification), Ok(false));
    round.record_verdicts(&wanted, &[true; 3]).unwrap();
    assert_eq!(round.try_construct(), Ok(None));
    assert_eq!(scheme.participants().len(), 4);
}

#[test]
#[should_panic(expected = "one verdict for each")]
fn there_is_a_verdict_for_each() {
    let scheme = Toy::new(1);
    let mut round = round(&scheme, Mode::Releasing);
    hear(&mut round, nullify(0));
    if let Step::Verify(wanted) = round.step().unwrap() {
        let _ = round.record_verdicts(&wanted, &[]);
    }
}

#[test]
fn rounds_come_and_go() {
    let scheme = Toy::new(7);
    for view in 0..5_000 {
        let number = positions::Round::new(Epoch::zero(), View::new(view));
        let mut round = Round::skipped(number, scheme.clone()).unwrap();
        for signer in 0..7 {
            let vote = toy::vote(Subject::Nullify { round: number }, signer);
            assert!(answer(&mut round, vote).added);
        }
        assert_eq!(round.try_construct(), Ok(None));
    }
}

#[test]
fn sets_order_their_keys() {
    let set = Set::new(vec![5, 1, 3]).unwrap();
    assert_eq!(set.as_slice(), [1, 3, 5]);
    assert_eq!(set.index(&3), Some(Participant::new(1)));
    assert_eq!(
        set.index_near(&3, Participant::new(0)),
        Some(Participant::new(1))
    );
    assert_eq!(
        set.index_near(&3, Participant::new(9)),
        Some(Participant::new(1))
    );
    assert_eq!((set.index(&4), set.key(Participant::new(3))), (None, None));
    assert_eq!(Set::new(vec![1, 1]), Err(SetFault::Duplicate));
    assert_eq!([0, 1, 4, 100].map(quorum), [0, 1, 3, 67]);
}
