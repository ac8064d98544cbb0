//! What validators send each other, and its bytes.

use crate::sodium::Signature;
use crate::transport::Wire;
use batcher::positions::Round;
use batcher::validator::Listed;
use batcher::{Certificate, Epoch, Kind, Participant, Proposal, Sha256Digest, Subject, View};

#[derive(Clone)]
pub enum Message {
    /// What the sender voted for, with its signature.
    Vote(Subject, Signature),
    Certificate(Listed),
}

impl Wire for Message {
    /// What it is, its subject, and the signature or the certificate's bytes.
    fn written(&self) -> Vec<u8> {
        let (what, subject, content) = match self {
            Message::Vote(subject, signature) => (0, *subject, &signature[..]),
            Message::Certificate(made) => (1, made.subject(), &made.content()[..]),
        };
        let mut bytes = vec![what, subject.kind() as u8];
        bytes.extend(subject.round().epoch.get().to_be_bytes());
        bytes.extend(subject.round().view.get().to_be_bytes());
        let proposal = subject.proposal();
        bytes.extend(proposal.map_or(0, |it| it.parent.get()).to_be_bytes());
        bytes.extend(proposal.map_or([0; 32], |it| it.payload.0));
        bytes.extend(content);
        bytes
    }

    fn read(_: Participant, bytes: &[u8]) -> Option<Self> {
        let ([what, kind], rest) = bytes.split_first_chunk::<2>()?;
        let (epoch, rest) = rest.split_first_chunk::<8>()?;
        let (view, rest) = rest.split_first_chunk::<8>()?;
        let (parent, rest) = rest.split_first_chunk::<8>()?;
        let (payload, content) = rest.split_first_chunk::<32>()?;
        let number = |bytes: &[u8; 8]| u64::from_be_bytes(*bytes);
        let round = Round::new(Epoch::new(number(epoch)), View::new(number(view)));
        let proposal = Proposal::new(round, View::new(number(parent)), Sha256Digest(*payload));
        let subject = match kind {
            0 => Subject::Notarize { proposal },
            1 => Subject::Nullify { round },
            2 => Subject::Finalize { proposal },
            _ => return None,
        };
        debug_assert_eq!(Kind::Notarization as u8, 0);
        match what {
            0 => Some(Message::Vote(subject, content.try_into().ok()?)),
            1 => Some(Message::Certificate(Certificate::new(
                subject,
                content.to_vec(),
            ))),
            _ => None,
        }
    }
}
