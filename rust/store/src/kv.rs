//! Commands of clients, blocks of them, and the values that they make. Numbers are big-endian.

use crate::sodium::sha256;
use batcher::{Sha256Digest, View};
use std::collections::BTreeMap;

/// How many bytes a block has at most.
pub const LONGEST_BLOCK: usize = 256 << 10;

/// What the first block builds on.
pub const START: Sha256Digest = Sha256Digest([0; 32]);

/// What a client wants: to set a value, or to get it where there is none here. By its number it is
/// executed once, however often it is said.
#[derive(Clone)]
pub struct Command {
    pub client: u64,
    pub number: u64,
    pub key: String,
    pub value: Option<String>,
}

impl Command {
    /// How many bytes it has in a block.
    pub fn size(&self) -> usize {
        25 + self.key.len() + self.value.as_ref().map_or(0, String::len)
    }

    fn put(&self, out: &mut Vec<u8>) {
        let value = self.value.as_deref();
        out.extend(self.client.to_be_bytes());
        out.extend(self.number.to_be_bytes());
        out.push(u8::from(value.is_some()));
        for text in [&self.key, value.unwrap_or_default()] {
            out.extend((text.len() as u32).to_be_bytes());
            out.extend(text.as_bytes());
        }
    }

    fn take(bytes: &mut &[u8]) -> Option<Self> {
        let (client, number) = (number(bytes)?, number(bytes)?);
        let [sets] = array(bytes)?;
        let (key, value) = (text(bytes)?, text(bytes)?);
        Some(Command {
            client,
            number,
            key,
            value: (sets == 1).then_some(value),
        })
    }
}

/// What is proposed for a view. It names the block that it builds on by its digest, so that who has
/// a final block knows all that are behind it.
pub struct Block {
    pub view: View,
    pub parent: View,
    pub before: Sha256Digest,
    pub commands: Vec<Command>,
}

impl Block {
    pub fn written(&self) -> Vec<u8> {
        let mut out = Vec::new();
        out.extend(self.view.get().to_be_bytes());
        out.extend(self.parent.get().to_be_bytes());
        out.extend(self.before.0);
        self.commands.iter().for_each(|it| it.put(&mut out));
        out
    }

    /// None where these are the bytes of no block.
    pub fn read(mut bytes: &[u8]) -> Option<Self> {
        let bytes = &mut bytes;
        let (view, parent) = (View::new(number(bytes)?), View::new(number(bytes)?));
        let before = Sha256Digest(array(bytes)?);
        let mut commands = Vec::new();
        while !bytes.is_empty() {
            commands.push(Command::take(bytes)?);
        }
        Some(Block {
            view,
            parent,
            before,
            commands,
        })
    }
}

pub fn digest_of(block: &[u8]) -> Sha256Digest {
    Sha256Digest(sha256(block))
}

fn array<const N: usize>(bytes: &mut &[u8]) -> Option<[u8; N]> {
    let (front, rest) = bytes.split_first_chunk()?;
    *bytes = rest;
    Some(*front)
}

fn number(bytes: &mut &[u8]) -> Option<u64> {
    array(bytes).map(u64::from_be_bytes)
}

fn text(bytes: &mut &[u8]) -> Option<String> {
    let length = u32::from_be_bytes(array(bytes)?) as usize;
    let (front, rest) = bytes.split_at_checked(length)?;
    *bytes = rest;
    String::from_utf8(front.to_vec()).ok()
}

/// The values that the executed blocks make.
#[derive(Default)]
pub struct Values {
    values: BTreeMap<String, String>,
    /// Of each client the number of its last command, and what that was answered.
    sessions: BTreeMap<u64, (u64, String)>,
}

impl Values {
    /// What a command was answered, where it was executed, or a later one of its client was.
    pub fn answer(&self, command: &Command) -> Option<&str> {
        let (last, answer) = self.sessions.get(&command.client)?;
        (*last >= command.number).then_some(answer)
    }

    pub fn execute(&mut self, block: Block) {
        for command in block.commands {
            if self.answer(&command).is_some() {
                continue;
            }
            let answer = match command.value {
                Some(value) => {
                    self.values.insert(command.key, value);
                    "ok".into()
                }
                None => self.values.get(&command.key).cloned().unwrap_or("-".into()),
            };
            self.sessions
                .insert(command.client, (command.number, answer));
        }
    }
}
