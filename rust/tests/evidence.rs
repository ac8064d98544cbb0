//! Whom reports convict.

mod toy;

use batcher::errors::ConvictError;
use batcher::{Activity, Mode, Participant, Round, Subject, Vote, convicted};
use std::sync::Arc;
use toy::{KEYS, ROUND, Signature, Toy, bad, finalize, notarize, nullify};

/// The report of two votes, by a round that hears them from their signer.
fn report(scheme: &Arc<Toy>, votes: [Vote<Signature>; 2]) -> Activity<Signature> {
    let mut round = Round::in_mode(ROUND, scheme.clone(), Mode::Retaining).unwrap();
    let [_, report] = votes.map(|vote| {
        let sender = KEYS[usize::from(vote.signer())];
        round.add_network(&sender, &vote).unwrap().report
    });
    report.unwrap()
}

#[test]
fn two_votes_that_attest_convict_their_signer() {
    let scheme = Toy::new(4);
    for (signer, votes) in [
        (1, [notarize(1, 1), notarize(1, 2)]),
        (2, [finalize(2, 1), finalize(2, 2)]),
        (3, [nullify(3), finalize(3, 1)]),
        (0, [finalize(0, 1), nullify(0)]),
    ] {
        let found = convicted(&*scheme, &report(&scheme, votes));
        assert_eq!(found, Ok(Some(Participant::new(signer))));
        // Where one of them doesn't attest, nobody is convicted, though the sender is blocked.
        let [first, second] = votes;
        for votes in [[bad(first), second], [first, bad(second)]] {
            assert_eq!(convicted(&*scheme, &report(&scheme, votes)), Ok(None));
        }
    }
}

#[test]
fn one_vote_convicts_nobody() {
    let scheme = Toy::new(4);
    for vote in [notarize(1, 1), nullify(1), finalize(1, 1)] {
        let mut round = Round::new(ROUND, scheme.clone(), true).unwrap();
        let report = round.add_network(&KEYS[1], &vote).unwrap().report;
        assert_eq!(convicted(&*scheme, &report.unwrap()), Ok(None));
    }
    assert_eq!(scheme.counted(), [0, 0, 0]);
}

// A report can be made up. What it holds is looked at, whatever its name is, and what can't convict isn't
// verified.
#[test]
fn what_is_no_contradiction_convicts_nobody() {
    let scheme = Toy::new(4);
    let notarized = |vote| match vote {
        Vote::Notarize(vote) => vote,
        _ => unreachable!(),
    };
    let elsewhere = batcher::positions::Round::new(batcher::Epoch::new(1), ROUND.view);
    let other = Subject::Notarize {
        proposal: batcher::Proposal {
            round: elsewhere,
            ..toy::proposal(2)
        },
    };
    let made_up = [
        // The same vote twice, two signers, one that takes no part, and two rounds.
        [notarize(1, 1), notarize(1, 1)],
        [notarize(1, 1), notarize(2, 2)],
        [notarize(4, 1), notarize(4, 2)],
        [notarize(1, 1), toy::vote(other, 1)],
    ];
    for votes in made_up {
        let [first, second] = votes.map(notarized);
        let report = Activity::ConflictingNotarize(first, second);
        assert_eq!(convicted(&*scheme, &report), Ok(None), "{report:?}");
    }
    assert_eq!(scheme.counted(), [0, 0, 0]);
    let (Vote::Nullify(first), Vote::Finalize(second)) = (nullify(1), finalize(1, 1)) else {
        unreachable!()
    };
    let report = Activity::NullifyFinalize(first, second);
    assert_eq!(convicted(&*scheme, &report), Ok(Some(Participant::new(1))));
    // Each was verified by itself, and nobody has a scheme of no participants.
    assert_eq!(scheme.counted(), [2, 2, 0]);
    assert_eq!(
        convicted(&*Toy::new(0), &report),
        Err(ConvictError::NoParticipants)
    );
}
