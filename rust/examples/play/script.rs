//! The form of scripts: their lines as words, and the words as commands.

use crate::scheme::Sort;
use batcher::positions::Round;
use batcher::{Epoch, Mode, View};
use std::str::FromStr;

/// A `round` line.
#[derive(Clone, Copy, Debug)]
pub struct Opening {
    pub round: Round,
    pub participants: u32,
    pub mode: Mode,
    pub sort: Sort,
}

/// A vote, but for its round and its signer, or a certificate's kind and proposal, which is named
/// by its payload's byte.
#[derive(Clone, Copy, Debug)]
pub enum Ballot {
    Notarize(u8),
    Nullify,
    Finalize(u8),
}

/// A line after `round`.
#[derive(Clone, Copy, Debug)]
pub enum Command {
    Network {
        sender: u64,
        signer: u32,
        ballot: Ballot,
        is_good: bool,
    },
    Own {
        signer: u32,
        ballot: Ballot,
    },
    Certificate(Ballot),
    Leader(u32),
    Construct,
    Forward(u32),
    Missing(u8),
    Blocked,
}

/// What a line says.
pub enum Line {
    Skipped,
    Round(Opening),
    Command(Command),
    Malformed,
}

impl Line {
    /// Reads a line with its ending, after the `round` line that has come.
    pub fn read(line: &[u8], opening: Option<&Opening>) -> Line {
        Line::try_read(line, opening).unwrap_or(Line::Malformed)
    }

    fn try_read(line: &[u8], opening: Option<&Opening>) -> Option<Line> {
        let text = match line.strip_suffix(b"\n") {
            Some(ended) => ended.strip_suffix(b"\r").unwrap_or(ended),
            None => line,
        };
        if !text.is_ascii() {
            return None;
        }
        let text = std::str::from_utf8(text).ok()?;
        // No line has more than six words, so a seventh is enough to tell that there are too many.
        let mut words = [""; 7];
        let mut count = 0;
        for word in text
            .split([' ', '\t'])
            .filter(|word| !word.is_empty())
            .take(words.len())
        {
            words[count] = word;
            count += 1;
        }
        let words = &words[..count];
        if words.first().is_none_or(|first| first.starts_with('#')) {
            return Some(Line::Skipped);
        }
        match opening {
            None => Opening::read(words).map(Line::Round),
            Some(opening) => Command::read(words, opening.participants).map(Line::Command),
        }
    }
}

impl Opening {
    fn read(words: &[&str]) -> Option<Opening> {
        let ["round", epoch, view, participants, mode, sort] = words else {
            return None;
        };
        let round = Round::new(Epoch::new(number(epoch)?), View::new(number(view)?));
        let participants = number(participants)?;
        if !(1..=1000).contains(&participants) {
            return None;
        }
        let mode = match *mode {
            "retaining" => Mode::Retaining,
            "releasing" => Mode::Releasing,
            "skipped" => Mode::Skipped,
            _ => return None,
        };
        let sort = match *sort {
            "keyed" => Sort::Keyed,
            "single" => Sort::Single,
            "sealed" => Sort::Sealed,
            _ => return None,
        };
        Some(Opening {
            round,
            participants,
            mode,
            sort,
        })
    }
}

impl Command {
    fn read(words: &[&str], participants: u32) -> Option<Command> {
        Some(match words {
            ["net", sender, signer, kind, payload, signature] => Command::Network {
                sender: number(sender)?,
                signer: number(signer)?,
                ballot: Ballot::read(kind, payload)?,
                is_good: match *signature {
                    "ok" => true,
                    "bad" => false,
                    _ => return None,
                },
            },
            ["own", signer, kind, payload] => Command::Own {
                signer: number(signer).filter(|signer| *signer < participants)?,
                ballot: Ballot::read(kind, payload)?,
            },
            ["cert", kind, payload] => Command::Certificate(match *kind {
                "notarization" => Ballot::read("notarize", payload)?,
                "nullification" => Ballot::read("nullify", payload)?,
                "finalization" => Ballot::read("finalize", payload)?,
                _ => return None,
            }),
            ["leader", index] => Command::Leader(number(index)?),
            ["construct"] => Command::Construct,
            ["forward", index] => Command::Forward(number(index)?),
            ["missing", payload] => Command::Missing(number(payload)?),
            ["blocked"] => Command::Blocked,
            _ => return None,
        })
    }
}

impl Ballot {
    fn read(kind: &str, payload: &str) -> Option<Ballot> {
        match (kind, payload) {
            ("notarize", payload) => number(payload).map(Ballot::Notarize),
            ("nullify", "-") => Some(Ballot::Nullify),
            ("finalize", payload) => number(payload).map(Ballot::Finalize),
            _ => None,
        }
    }
}

/// The number that decimal digits write, where it is in the type's range.
fn number<N: FromStr>(word: &str) -> Option<N> {
    if word.bytes().all(|byte| byte.is_ascii_digit()) {
        word.parse().ok()
    } else {
        None
    }
}
