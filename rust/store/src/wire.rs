//! What a validator hears: messages of others, which have bytes, and what comes from within.

use crate::kv::Command;
use crate::sodium::Signature;
use crate::transport::Wire;
use batcher::driver::Message as Said;
use batcher::{Participant, Sha256Digest};
use std::sync::mpsc::SyncSender;

pub enum Message {
    /// A vote or a certificate.
    Said(Said<Signature>),
    /// A block, whose digest is voted on.
    Block(Vec<u8>),
    /// Send me the block of this digest, behind some of its ancestors.
    Want(Sha256Digest),
    /// A command of a client, and where its answer goes. It comes from within.
    Client(Command, SyncSender<String>),
    /// The driver is to be polled. It comes from within.
    Woken,
}

impl Wire for Message {
    fn written(&self) -> Vec<u8> {
        let (what, content) = match self {
            Message::Said(said) => (0, &said.to_bytes()[..]),
            Message::Block(bytes) => (1, &bytes[..]),
            Message::Want(digest) => (2, &digest.0[..]),
            Message::Client(..) | Message::Woken => unreachable!("it isn't sent"),
        };
        [&[what], content].concat()
    }

    fn read(_: Participant, bytes: &[u8]) -> Option<Self> {
        let (what, content) = bytes.split_first()?;
        match what {
            0 => Said::from_bytes(content).map(Message::Said),
            1 => Some(Message::Block(content.to_vec())),
            2 => Some(Message::Want(Sha256Digest(content.try_into().ok()?))),
            _ => None,
        }
    }
}
