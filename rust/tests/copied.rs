//! An example of the documentation, copied: the feature `test` has what it takes.

use batcher::test::*;
use batcher::{BlockReason, Kind, Outcome, Participant, Round};

#[test]
fn an_example_can_be_copied() -> Result<(), batcher::Error> {
    let mut round = Round::new(ROUND, Toy::new(4), true)?;
    round.set_leader(Participant::new(2))?;
    for vote in [notarize(1, 7), notarize(2, 7), bad(notarize(3, 7))] {
        let sender = KEYS[usize::from(vote.signer())];
        let admission = round.add_network(&sender, &vote)?;
        assert!(admission.added && admission.block.is_none());
    }
    let batch = round
        .try_construct()?
        .expect("three votes could be a quorum");
    assert_eq!(batch.invalid, [Participant::new(3)]);
    let vote = notarize(0, 7);
    assert!(matches!(round.accept_vote(&vote)?, Outcome::ToSend { .. }));
    let batch = round.try_construct()?.expect("three votes that attest");
    assert_eq!(batch.kind(), Some(Kind::Notarization));
    let admission = round.add_network(&KEYS[1], &notarize(1, 8))?;
    assert_eq!(admission.block, Some(BlockReason::ConflictingNotarize));
    Ok(())
}
