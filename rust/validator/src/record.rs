//! What validators note, by which the network sees whether all is as it should be.

use batcher::validator::Cause;
use batcher::{Participant, Proposal, Subject};
use std::collections::{BTreeMap, BTreeSet};
use std::fs::{File, OpenOptions, read_to_string};
use std::io::{Result, Write};
use std::path::Path;

/// Where a validator notes what it does, behind what it noted in its earlier lives. A line is
/// written at once, so that none is torn where it is killed.
pub struct Record(File);

impl Record {
    pub fn open(folder: &Path) -> Result<Self> {
        let mut options = OpenOptions::new();
        let file = options
            .append(true)
            .create(true)
            .open(folder.join("record"))?;
        Ok(Record(file))
    }

    pub fn blocks(&mut self, peer: Participant, cause: Cause) -> Result<()> {
        self.0
            .write_all(format!("blocks {peer} {cause}\n").as_bytes())
    }

    pub fn is_final(&mut self, proposal: &Proposal) -> Result<()> {
        let (view, parent, payload) = (proposal.round.view, proposal.parent, proposal.payload);
        self.0
            .write_all(format!("final {view} {parent} {payload}\n").as_bytes())
    }

    pub fn sends(&mut self, subject: &Subject) -> Result<()> {
        let payload = subject.proposal().map(|it| it.payload.to_string());
        let (kind, view) = (subject.kind(), subject.round().view);
        let line = format!("sends {kind} {view} {}\n", payload.unwrap_or_default());
        self.0.write_all(line.as_bytes())
    }
}

/// What a validator has noted in all of its lives.
#[derive(Default)]
pub struct Noted {
    pub finals: BTreeMap<u64, String>,
    pub blocked: BTreeSet<u32>,
    /// Whether it sent two votes that contradict each other.
    pub contradicts: bool,
}

impl Noted {
    pub fn of(folder: &Path) -> Self {
        let text = read_to_string(folder.join("record")).unwrap_or_default();
        let mut record = Noted::default();
        let mut sent: BTreeMap<(String, u64), String> = BTreeMap::new();
        for line in text.lines() {
            let words: Vec<&str> = line.split(' ').collect();
            match words[..] {
                ["final", view, parent, payload] => {
                    let known = format!("{parent} {payload}");
                    if let Ok(view) = view.parse() {
                        record.finals.insert(view, known);
                    }
                }
                ["blocks", peer, ..] => record.blocked.extend(peer.parse::<u32>()),
                ["sends", kind, view, payload] => {
                    let view = view.parse().unwrap_or(0);
                    let known = sent
                        .entry((kind.into(), view))
                        .or_insert_with(|| payload.into());
                    record.contradicts |= known != payload;
                    let other = match kind {
                        "nullification" => "finalization",
                        "finalization" => "nullification",
                        _ => continue,
                    };
                    record.contradicts |= sent.contains_key(&(other.into(), view));
                }
                _ => {}
            }
        }
        record
    }
}
