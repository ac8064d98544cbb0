//! A member of the network: what comes goes into its validator, and what that gives is done.

use crate::faults::Fault;
use crate::messages::Message;
use crate::record::Record;
use crate::sodium::{KeyPair, PublicKey, Signature, sha256, verify};
use crate::transport::{Inbox, Peers};
use batcher::validator::{Options, Task, Validator, Wanted, timeout};
use batcher::{Attestation, Epoch, Files, Opened, Participant, Sha256Digest, Subject, View, Vote};
use std::error::Error;
use std::sync::mpsc::RecvTimeoutError;
use std::time::{Duration, Instant};

/// How long it waits on a view before it gives the view up.
const PATIENCE: Duration = Duration::from_millis(250);

type Outcome<T> = Result<T, Box<dyn Error>>;

/// What a validator is given: who it is, and the ways to the others.
pub struct Station {
    pub me: Participant,
    pub keys: KeyPair,
    pub participants: Vec<PublicKey>,
    pub fault: Fault,
    pub peers: Peers,
    /// Where it notes what is final, whom it blocks and what it sends.
    pub record: Record,
}

pub struct Member {
    pub station: Station,
    running: Validator<Signature>,
    disk: Files,
    view: View,
    last: View,
    deadline: Instant,
}

impl Member {
    /// The validator that goes on by what its files have. Files that were created for it and have
    /// nothing yet show that nothing was signed, so it begins.
    pub fn new(station: Station, files: Opened) -> Outcome<Self> {
        let count = station.participants.len() as u32;
        let options = Options {
            epoch: Epoch::zero(),
            me: station.me,
            participants: count,
            keys: sha256(&station.participants.concat()),
            namespace: b"batcher validator example",
            ahead: 16,
            track_historical_votes: false,
        };
        let leader = move |view: View| Participant::new((view.get() % u64::from(count)) as u32);
        let verify = |wanted: &_| verdicts(&station.participants, wanted);
        let (running, disk) = files.start(&options, leader, verify)?;
        Ok(Member {
            station,
            running,
            disk,
            view: View::zero(),
            last: View::zero(),
            deadline: Instant::now() + PATIENCE,
        })
    }

    /// Goes on until it is killed.
    pub fn run(mut self, inbox: &Inbox<Message>) -> Outcome<()> {
        loop {
            while let Some(task) = self.running.poll()? {
                self.perform(task)?;
            }
            let left = self.deadline.saturating_duration_since(Instant::now());
            match inbox.recv_timeout(left) {
                Ok((sender, message)) => self.hear(sender, message)?,
                Err(RecvTimeoutError::Timeout) => {
                    self.running.expire(self.view);
                    self.deadline = Instant::now() + timeout(PATIENCE, self.last, self.view);
                }
                Err(RecvTimeoutError::Disconnected) => return Ok(()),
            }
        }
    }

    fn hear(&mut self, sender: Participant, message: Message) -> Outcome<()> {
        match message {
            Message::Vote(subject, signature) => {
                let vote = Vote::new(subject, Attestation::new(sender, signature));
                let _ = self.running.vote(sender, &vote)?;
            }
            Message::Certificate(certificate) => {
                let participants = &self.station.participants;
                let verify = |wanted: &_| verdicts(participants, wanted);
                let _ = self.running.certificate(sender, &certificate, verify)?;
            }
        }
        Ok(())
    }

    fn perform(&mut self, task: Task<Signature>) -> Outcome<()> {
        match task {
            Task::Write(write) => {
                self.disk.write(&write)?;
                self.running.wrote(write).unwrap();
            }
            Task::Block(peer, cause) => {
                self.station.record.blocks(peer, cause)?;
                self.station.peers.block(peer);
            }
            Task::Final(proposal) => {
                self.last = proposal.round.view;
                self.station.record.is_final(&proposal)?;
            }
            Task::SendVote(vote) => {
                let subject = vote.subject();
                self.station.record.sends(&subject)?;
                let message = Message::Vote(subject, vote.attestation().signature);
                self.station.fault.send(self, message);
            }
            Task::SendCertificate(certificate) => {
                let message = Message::Certificate(certificate);
                self.station.fault.send(self, message);
            }
            Task::Enter { view, .. } => {
                self.view = view;
                self.deadline = Instant::now() + timeout(PATIENCE, self.last, self.view);
            }
            Task::Verify(wanted) => {
                let verdicts = verdicts(&self.station.participants, &wanted);
                self.running.conclude(&wanted, &verdicts)?;
            }
            Task::Sign(subject) => {
                let signature = self.sign(&subject)?;
                let participants = &self.station.participants;
                let verify = |wanted: &_| verdicts(participants, wanted);
                let _ = self.running.signed(subject, &signature, verify)?;
            }
            Task::Propose { view, parent } => {
                let numbers = [view, parent].map(|it| it.get().to_be_bytes());
                let payload = Sha256Digest(sha256(&numbers.concat()));
                self.running.propose(view, parent, payload);
            }
            // There is nothing in a payload here.
            Task::Judge(proposal) => self.running.judge(&proposal, true),
            Task::Forward(..) => {}
            other => unreachable!("{other:?}"),
        }
        Ok(())
    }

    /// Its signature, for whatever it is.
    pub fn sign(&self, subject: &Subject) -> Outcome<Signature> {
        Ok(self.station.keys.sign(&self.running.message(subject)?))
    }
}

/// Which of them attest. It needs nothing of the validator, so it might run on other threads.
fn verdicts(participants: &[PublicKey], wanted: &Wanted<Signature>) -> Vec<bool> {
    let attests = |it: &Attestation<Signature>| {
        let key = participants.get(usize::from(it.signer));
        key.is_some_and(|key| verify(key, wanted.message(), &it.signature))
    };
    wanted.attestations().iter().map(attests).collect()
}
