//! What validators do wrong, where they do.

use crate::messages::Message;
use crate::validator::Member;
use batcher::{Certificate, Participant, Proposal, Sha256Digest, Subject};
use std::thread::sleep;
use std::time::Duration;

#[derive(Clone, Copy, Debug, PartialEq, Eq)]
pub enum Fault {
    None,
    /// It takes its time, which is no fault.
    Slow,
    /// It notarizes two proposals.
    Equivocates,
    /// It sends certificates that certify nothing.
    Forges,
}

impl Fault {
    pub fn of(participant: Participant) -> Self {
        match participant.get() {
            2 => Fault::Equivocates,
            4 => Fault::Slow,
            5 => Fault::Forges,
            _ => Fault::None,
        }
    }

    /// Whether it keeps to the rules.
    pub fn is_honest(self) -> bool {
        matches!(self, Fault::None | Fault::Slow)
    }

    /// Sends a message as who has this fault does.
    pub fn send(self, validator: &Member, message: Message) {
        match (self, &message) {
            (Fault::Slow, _) => sleep(Duration::from_millis(5)),
            (Fault::Equivocates, Message::Vote(Subject::Notarize { proposal }, _)) => {
                let payload = Sha256Digest([7; 32]);
                let proposal = Proposal::new(proposal.round, proposal.parent, payload);
                let subject = Subject::Notarize { proposal };
                if let Ok(signature) = validator.sign(&subject) {
                    validator
                        .station
                        .peers
                        .send(&Message::Vote(subject, signature));
                }
            }
            // Nobody has one of what is voted for yet, so the others look at it.
            (Fault::Forges, Message::Vote(subject, signature)) => {
                let forged = Certificate::new(*subject, signature.to_vec());
                validator.station.peers.send(&Message::Certificate(forged));
            }
            _ => {}
        }
        validator.station.peers.send(&message);
    }
}
