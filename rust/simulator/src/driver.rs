//! All calls of a validator that the simulator makes, so that what changes in the crate changes here.

use crate::config::{Config, Lead};
use crate::memory::{refused, uncounted};
use crate::messages::{Signature, sign, verdicts};
use crate::numbers::Numbers;
use crate::reached::{Mark, Reached};
use batcher::errors::{OutOfMemory, SignError, VoteError};
use batcher::positions::Round;
use batcher::validator::{
    KeptError, Listed, Options, PollError, Progress, Receipt, StartError, Task, Validator, Verdict,
    Wanted, Write,
};
use batcher::{Epoch, Kind, Participant, Proposal, Sha256Digest, Subject, View, Vote};
use std::cell::Cell;

/// Why a call isn't answered.
#[derive(Debug)]
pub enum Fault {
    /// Memory was refused, and all is as before: the call is made again.
    Memory,
    /// What a validator that keeps to the pages never meets.
    Broken(String),
}

impl From<OutOfMemory> for Fault {
    fn from(_: OutOfMemory) -> Self {
        Fault::Memory
    }
}

impl From<VoteError> for Fault {
    fn from(error: VoteError) -> Self {
        match error {
            VoteError::OutOfMemory => Fault::Memory,
            other => Fault::Broken(other.to_string()),
        }
    }
}

impl From<PollError> for Fault {
    fn from(error: PollError) -> Self {
        match error {
            PollError::OutOfMemory => Fault::Memory,
            other => Fault::Broken(other.to_string()),
        }
    }
}

impl From<StartError> for Fault {
    fn from(error: StartError) -> Self {
        match error {
            StartError::OutOfMemory => Fault::Memory,
            other => Fault::Broken(other.to_string()),
        }
    }
}

pub type Answer<T> = Result<T, Fault>;

/// What is kept of a kind and a view.
pub enum Kept {
    Nothing,
    /// It waits for a write.
    Later,
    Certificate(Listed),
}

thread_local! {
    /// Who leads in the run of this thread, so that a leader is a function that takes no memory.
    static LEADS: Cell<Option<(Lead, u64, u32)>> = const { Cell::new(None) };
}

/// The runs of this thread have the leaders of this one from now on.
pub fn lead_as(run: &Config) {
    LEADS.set(Some((run.lead, run.seed, run.count)));
}

fn leader(view: View) -> Participant {
    let (lead, seed, count) = LEADS.get().expect("a run is played");
    Participant::new(lead.leader(seed, count, view.get()))
}

fn options(run: &Config, epoch: u64, me: u32) -> Options<'static> {
    Options {
        epoch: Epoch::new(epoch),
        me: Participant::new(me),
        participants: run.count,
        keys: [4; 32],
        namespace: b"simulator",
        ahead: run.ahead,
        track_historical_votes: run.keeps_votes,
    }
}

pub struct Driver {
    running: Validator<Signature>,
    calls: Calls,
}

/// Which calls have a request for memory refused, and what came of it.
pub struct Calls {
    numbers: Numbers,
    refuses: u64,
    pub reached: Reached,
    refused: bool,
}

impl Calls {
    pub fn new(seed: u64, refuses: u64) -> Self {
        Calls {
            numbers: Numbers::of(seed),
            refuses,
            reached: Reached::none(),
            refused: false,
        }
    }

    fn call<R>(&mut self, mark: Mark, call: impl FnOnce() -> R) -> R {
        if self.refuses == 0 || !self.numbers.chance(self.refuses) {
            return call();
        }
        let granted = self.numbers.pick(&[0, 0, 1, 2, 3, 4, 6, 9, 13, 20]);
        let (answer, was_refused) = refused(granted, call);
        if was_refused {
            self.refused = true;
            self.reached.note(mark);
        }
        answer
    }

    /// Makes a call that can't say that memory was refused, so it asks for none.
    fn call_without_memory<R>(&mut self, call: impl FnOnce() -> R) -> R {
        if self.refuses == 0 {
            return call();
        }
        let (answer, was_refused) = refused(0, call);
        assert!(
            !was_refused,
            "a call asks for memory that has no answer for a refusal"
        );
        answer
    }
}

impl Driver {
    /// The validator of a disk with these bytes, which begins where there are none.
    pub fn start(
        run: &Config,
        epoch: u64,
        me: u32,
        disk: &[u8],
        calls: &mut Option<Calls>,
    ) -> Answer<Self> {
        let options = options(run, epoch, me);
        let by = calls.as_mut().expect("they are given back");
        let running = if disk.is_empty() {
            by.call(Mark::RefusedBegin, || Validator::begin(&options, leader))?
        } else {
            by.call(Mark::RefusedStart, || {
                Validator::start(&options, leader, disk, |it| uncounted(|| verdicts(it)))
            })?
        };
        Ok(Driver {
            running,
            calls: calls.take().expect("they were there"),
        })
    }

    /// Whether one that is started by a disk with these bytes comes to give this as final.
    pub fn finds_final(
        run: &Config,
        epoch: u64,
        me: u32,
        disk: &[u8],
        proposal: &Proposal,
    ) -> bool {
        let started = Validator::start(&options(run, epoch, me), leader, disk, verdicts);
        let Ok(mut running) = started else {
            return false;
        };
        while let Ok(Some(task)) = running.poll() {
            match task {
                Task::Final(other) if other == *proposal => return true,
                Task::Write(write) => running.wrote(write).expect("it has no files"),
                _ => {}
            }
        }
        false
    }

    /// It is stopped, and leaves what came of its calls.
    pub fn stop(self) -> Calls {
        self.calls
    }

    /// All requests are granted from now on.
    pub fn grant_all(&mut self) {
        self.calls.refuses = 0;
    }

    /// Whether a request was refused since this was last asked.
    pub fn was_refused(&mut self) -> bool {
        std::mem::take(&mut self.calls.refused)
    }

    /// What is to be done next.
    pub fn poll(&mut self) -> Answer<Option<Task<Signature>>> {
        Ok(self.calls.call(Mark::RefusedPoll, || self.running.poll())?)
    }

    /// This write lasts.
    pub fn wrote(&mut self, write: Write) -> Answer<()> {
        let call = || self.running.wrote(write);
        let told = self.calls.call_without_memory(call);
        told.map_err(|other| Fault::Broken(other.to_string()))
    }

    pub fn vote(&mut self, sender: u32, vote: &Vote<Signature>) -> Answer<()> {
        let sender = Participant::new(sender);
        let call = || self.running.vote(sender, vote);
        let _ = self.calls.call(Mark::RefusedVote, call)?;
        Ok(())
    }

    /// Whether it is forged.
    pub fn certificate(&mut self, sender: u32, certificate: &Listed) -> Answer<bool> {
        let sender = Participant::new(sender);
        let verify = |wanted: &_| uncounted(|| verdicts(wanted));
        let call = || self.running.certificate(sender, certificate, verify);
        let heard = self.calls.call(Mark::RefusedCertificate, call)?;
        Ok(heard == Receipt::Answered(Verdict::Forged))
    }

    /// Whether a construction is made by these alone.
    pub fn conclude(&mut self, wanted: &Wanted<Signature>) -> Answer<bool> {
        let verdicts = verdicts(wanted);
        let call = || self.running.conclude(wanted, &verdicts);
        Ok(self.calls.call(Mark::RefusedConclude, call)?)
    }

    /// Hands in a signature, and says whether it was taken as one that attests.
    pub fn signed(&mut self, subject: Subject, signature: &Signature) -> Answer<bool> {
        let message = || self.running.message(&subject);
        self.calls.call(Mark::RefusedMessage, message)?;
        let verify = |wanted: &_| uncounted(|| verdicts(wanted));
        let call = || self.running.signed(subject, signature, verify);
        match self.calls.call(Mark::RefusedSigned, call) {
            Ok(_) => Ok(true),
            Err(SignError::NotVerified) => Ok(false),
            Err(SignError::OutOfMemory) => Err(Fault::Memory),
            Err(other) => Err(Fault::Broken(other.to_string())),
        }
    }

    pub fn propose(&mut self, view: View, parent: View, payload: Sha256Digest) {
        let call = || self.running.propose(view, parent, payload);
        self.calls.call_without_memory(call);
    }

    pub fn judge(&mut self, proposal: &Proposal, is_valid: bool) {
        let call = || self.running.judge(proposal, is_valid);
        self.calls.call_without_memory(call);
    }

    pub fn expire(&mut self, view: u64) -> Progress {
        let call = || self.running.expire(View::new(view));
        self.calls.call_without_memory(call)
    }

    pub fn kept(&mut self, kind: Kind, round: Round) -> Answer<Kept> {
        let call = || self.running.kept(kind, round);
        match self.calls.call(Mark::RefusedKept, call) {
            Ok(Some(certificate)) => Ok(Kept::Certificate(certificate)),
            Ok(None) => Ok(Kept::Nothing),
            Err(KeptError::NotWritten) => Ok(Kept::Later),
            Err(KeptError::OutOfMemory) => Err(Fault::Memory),
            Err(other) => Err(Fault::Broken(other.to_string())),
        }
    }

    /// Whether the proposal of a view is there.
    pub fn certified(&mut self, view: View) -> bool {
        let call = || self.running.certified(view);
        self.calls.call_without_memory(call).is_some()
    }

    pub fn has_certificate(&mut self, kind: Kind, round: Round) -> bool {
        let call = || self.running.has_certificate(kind, round);
        self.calls.call_without_memory(call)
    }

    /// Whether a certificate certifies what it names.
    pub fn certifies(&mut self, certificate: &Listed) -> Answer<bool> {
        let call = || self.running.attestations(certificate);
        let wanted = self.calls.call(Mark::RefusedAttestations, call)?;
        Ok(wanted.is_some_and(|it| verdicts(&it).iter().all(|attests| *attests)))
    }
}

/// The own signature of a participant for a subject, by a signer that errs or doesn't.
pub fn own(subject: &Subject, me: u32, errs: bool) -> Signature {
    let signature = sign(subject, me);
    if errs {
        crate::messages::spoilt(signature)
    } else {
        signature
    }
}
