//! What a validator does wrong, where it does.

use crate::node::Node;
use crate::wire::Message;
use batcher::driver::Message as Said;
use batcher::{Attestation, Participant, Proposal, Sha256Digest, Subject, Vote};

#[derive(Clone, Copy, Debug, PartialEq, Eq)]
pub enum Fault {
    None,
    /// It notarizes one proposal to some and another to others, and nullifies to some what it
    /// finalizes to others. Which are these changes with each view, and now and then both go to
    /// all.
    Equivocates,
}

impl Fault {
    pub fn of(participant: Participant) -> Self {
        match participant.get() {
            2 => Fault::Equivocates,
            _ => Fault::None,
        }
    }

    /// Sends a message to all others, as who has this fault does.
    pub fn send(self, node: &Node, said: Said<[u8; 64]>) {
        let (round, subject) = (said.round(), said.subject());
        let message = Message::Said(said);
        if self == Fault::None || !matches!(message, Message::Said(Said::Vote(_))) {
            return node.peers.send(&message);
        }
        let other = match subject {
            Subject::Notarize { proposal } => {
                let payload = Sha256Digest([7; 32]);
                let proposal = Proposal::new(proposal.round, proposal.parent, payload);
                Subject::Notarize { proposal }
            }
            _ => Subject::Nullify { round },
        };
        let Ok(bytes) = node.driver.message(&other) else {
            return;
        };
        let attestation = Attestation::new(node.driver.me(), node.keys.sign(&bytes));
        let other = Message::Said(Said::Vote(Vote::new(other, attestation)));
        let view = round.view.get();
        let is_one = |peer: Participant| (u64::from(peer.get()) + view) % 2 == 0;
        node.peers
            .send_to(&message, |it| is_one(it) || view % 32 == 0);
        node.peers
            .send_to(&other, |it| !is_one(it) || view % 32 == 0);
    }
}
