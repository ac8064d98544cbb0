//! A validator with its disk, its key and its verifier. An application is left with its payloads,
//! its network and a timer.
//!
//! A [`Driver`] has a [`Validator`] and three parts that an application brings: a [`Store`] keeps
//! what is written ([`Files`] is one), a [`Signer`] has the key, and a [`Verifier`] knows the keys
//! of all. It writes, signs and verifies by itself, in the right order, and hands each answer to
//! the validator that asked. What is left comes from [`Driver::poll`], one [`Action`] after the
//! other, and what peers send goes in by [`Driver::hear`], which says what became of it.
//!
//! Four validators of one program, with signatures that protect nothing, and disks that are memory:
//!
//! ```
//! # include!(concat!(env!("CARGO_MANIFEST_DIR"), "/tests/toy/mod.rs"));
//! use batcher::driver::{Action, Check, Driver, Options, Signer, Store, Verifier, Write};
//! use batcher::{Epoch, Participant, Sha256Digest, Subject, View};
//! use std::convert::Infallible;
//!
//! #[derive(Default)]
//! struct Memory(Vec<u8>);
//!
//! impl Store for Memory {
//!     type Error = Infallible;
//!
//!     fn write(&mut self, write: &Write) -> Result<(), Infallible> {
//!         if write.replaces() {
//!             self.0.clear();
//!         }
//!         self.0.extend_from_slice(write.bytes());
//!         Ok(())
//!     }
//! }
//!
//! struct Key(u32);
//!
//! impl Signer for Key {
//!     type Signature = Signature;
//!     type Error = Infallible;
//!
//!     fn sign(&mut self, subject: &Subject, _: &[u8]) -> Result<Signature, Infallible> {
//!         Ok(sign(subject, self.0))
//!     }
//! }
//!
//! struct Keys;
//!
//! impl Verifier for Keys {
//!     type Signature = Signature;
//!
//!     fn attests(&mut self, check: &Check<Signature>) -> bool {
//!         attests(check.subject(), check.attestation())
//!     }
//! }
//!
//! # fn main() -> Result<(), Box<dyn std::error::Error>> {
//! let leader = |view: View| Participant::new((view.get() % 4) as u32);
//! let mut all = Vec::new();
//! for me in 0..4 {
//!     let options = Options {
//!         epoch: Epoch::zero(),
//!         me: Participant::new(me),
//!         participants: 4,
//!         keys: [4; 32],
//!         namespace: b"example",
//!         ahead: 16,
//!         track_historical_votes: false,
//!     };
//!     // Nothing was ever written to this disk.
//!     let disk = Memory::default();
//!     all.push(Driver::with_store(disk, &[], &options, leader, Key(me), Keys)?);
//! }
//! while all.iter().any(|it| it.last_final() < View::new(5)) {
//!     let mut sent = Vec::new();
//!     for driver in &mut all {
//!         loop {
//!             match driver.poll()? {
//!                 Action::Wait => break,
//!                 Action::Send(message) => sent.push((driver.me(), message)),
//!                 Action::Propose(wish) => {
//!                     let payload = Sha256Digest([wish.view().get() as u8; 32]);
//!                     driver.propose(wish, payload);
//!                 }
//!                 Action::Judge(wish) => {
//!                     driver.judge(wish, true);
//!                 }
//!                 Action::Final(proposal) => println!("{}: {}", driver.me(), proposal.payload),
//!                 // No view takes too long here, and nobody lacks a payload.
//!                 Action::Enter { .. } | Action::Forward(..) => {}
//!                 other => unreachable!("nobody does wrong, and there is {other:?}"),
//!             }
//!         }
//!     }
//!     for (sender, message) in sent {
//!         for driver in all.iter_mut().filter(|it| it.me() != sender) {
//!             let _ = driver.hear(sender, &message)?;
//!         }
//!     }
//! }
//! # Ok(())
//! # }
//! ```
//!
//! # Slow parts
//!
//! The methods of the three parts are plain calls that return once they have done their work, so
//! that who writes one needs no threads. They are called on the thread of `poll` and `hear`. Where
//! a disk is slow, or a key is in another machine, that thread would wait for them:
//! [`Driver::start_on_threads`] and [`Driver::on_threads`] give each part a thread of its own. Jobs
//! are queued there, the validator goes on meanwhile with what doesn't rest on them, and their
//! answers are taken by the next `poll`. In both cases an answer takes no way through the
//! application, so it can't come back to another validator, twice, changed or not at all.
//!
//! # What a caller can do wrong
//!
//! A caller of a [`Validator`] writes, signs and verifies himself. What he could do wrong there is,
//! with a driver:
//!
//! | Of writes | Here |
//! |---|---|
//! | drop one, or all | there is no task for it |
//! | confirm one before it is given, before it is written, behind another one, twice, or right behind a signature | there is no call for it |
//! | write one twice, since it is given again | the store is called once for each |
//! | confirm what was signed meanwhile, where disk and signer are threads | the driver confirms each write by itself |
//! | panic in one, and go on | [`DriveError::Gone`] |
//! | go on after a disk that is full, or fails | [`DriveError::Store`], and [`DriveError::Ended`] from then on |
//! | confirm what isn't on the disk | can't be with [`Files`]; a duty of another [`Store`] |
//! | add what replaces all that is there | can't be with [`Files`]; a duty of another [`Store`] |
//! | begin where something is written, in this program or a later one | can't be with [`Files`]; with [`Driver::with_store`] a duty, which is to give it all that is written |
//! | have two validators, or programs, write to the same files | `ResourceBusy`, by [`Files::open`] |
//! | make the files again, or open what lacks one of them | `AlreadyExists` and `NotFound`, by [`Files`] |
//! | put an older copy back, of one file or both | a duty: not to |
//! | start by what another participant wrote, or in another epoch or namespace, or with other keys | [`StartError::OtherOwner`] |
//! | start with another number of participants and the same keys | a duty: the bytes of `keys` tell lists apart |
//!
//! | Of signatures | Here |
//! |---|---|
//! | drop a wish for one, or all, or panic in one | there is no task for it; [`DriveError::Gone`] |
//! | sign badly | [`Unsigned::NotVerified`]: nothing is written or sent |
//! | sign another subject, in another view or epoch | the same, since the signature is verified on what was asked for |
//! | sign what nobody asked for | there is no call for it |
//! | sign twice, with other bytes | what the signer answers is handed in once |
//! | sign with a key that another validator has too | a duty: not to |
//!
//! | Of verification | Here |
//! |---|---|
//! | drop what is to be verified, or some of it | there is no task for it |
//! | give verdicts twice, flipped, late, of another validator, or of a view that is over | there is no call for it: the driver asks once, and hands in once |
//! | give too few or too many, also on a certificate | [`DriveError::Verdicts`]; can't be where [`Verifier::attests`] alone is written |
//! | find all bad, or all good | a duty: a verifier tells the truth |
//! | verify a certificate as something else than its attestations | the driver takes it apart |
//!
//! | Else | Here |
//! |---|---|
//! | judge or propose what nobody asked for, something else, or twice | doesn't compile, since [`Judge`] and [`Propose`] are used up; one of an earlier driver is [`Reply::OtherLife`] |
//! | drop what `poll` gives | the compiler warns, since [`Action`] is to be used |
//! | hear itself | [`Heard::Own`] |
//! | take one sender for another | a duty: senders are authenticated |
//! | say that another view takes too long | [`Driver::expire`] answers None |
//! | name a leader that takes no part | [`DriveError::Leader`] |
//! | start with more than 65,535 participants, or look more than 1,024 views ahead | [`StartError::TooMany`] |
//! | name another leader than the others do | a duty: leaders are the same |
//!
//! Of these programs the first is refused for its second judgement, and the second for what it
//! drops. The last compiles:
//!
//! ```compile_fail
//! use batcher::driver::{Driver, Judge, Signer, Store, Verifier};
//! # use batcher::Files;
//! fn twice<S: Signer, V: Verifier<Signature = S::Signature>>(driver: &mut Driver<Files, S, V>, wish: Judge) {
//!     driver.judge(wish, true);
//!     driver.judge(wish, false);
//! }
//! ```
//!
//! ```compile_fail
//! #![deny(unused_must_use)]
//! use batcher::driver::{DriveError, Driver, Signer, Verifier};
//! # use batcher::Files;
//! fn dropped<S: Signer, V: Verifier<Signature = S::Signature>>(driver: &mut Driver<Files, S, V>) -> Result<(), DriveError<std::io::Error>> {
//!     driver.poll()?;
//!     Ok(())
//! }
//! ```
//!
//! ```
//! #![deny(unused_must_use)]
//! use batcher::driver::{DriveError, Driver, Judge, Signer, Verifier};
//! # use batcher::Files;
//! fn once<S: Signer, V: Verifier<Signature = S::Signature>>(driver: &mut Driver<Files, S, V>, wish: Judge) -> Result<(), DriveError<std::io::Error>> {
//!     driver.judge(wish, true);
//!     let _ = driver.poll()?;
//!     Ok(())
//! }
//! ```

mod actions;
mod errors;
mod message;
mod parts;
mod worker;

use crate::errors::{NoThread, OutOfMemory, SignError, VoteError};
use crate::files::{Files, Opened};
use crate::messages::{Kind, Proposal, Sha256Digest, Subject};
use crate::positions::{Epoch, Participant, Round, View};
pub use crate::validator::{
    Cause, Counts, KeptError, Listed, Options, PollError, Progress, StartError, Write,
};
use crate::validator::{Life, Receipt, Task, Validator, Verdict, Wanted, timeout};
pub use actions::{Action, Heard, Judge, Propose, Reply, Unsigned};
pub use errors::{DriveError, OpenError};
pub use message::Message;
pub use parts::{Check, Signature, Signer, Store, Verifier};
use std::collections::VecDeque;
use std::fmt;
use std::path::Path;
use std::sync::mpsc::channel;
use std::time::Duration;
use worker::Worker;

/// The name of the store's thread.
const STORE: &str = "batcher store";

/// How many signatures a signer is asked for at a time. It lacks as many only where it hangs, and
/// what is beyond them is asked for again after a while.
const MOST_SIGNATURES: usize = 16;

/// How many certificates of one peer wait to be verified.
const MOST_CERTIFICATES: usize = 8;

/// What [`Driver::poll`] answers.
pub type Polled<D, S> =
    Result<Action<<S as Signer>::Signature, <S as Signer>::Error>, DriveError<<D as Store>::Error>>;

/// What a signer is asked for: a subject with its bytes.
type ToSign = (Subject, Vec<u8>);

/// What it answers.
type Signed<S> = (
    Subject,
    Result<<S as Signer>::Signature, <S as Signer>::Error>,
);

/// Attestations that are to be verified, of one or more subjects.
struct Asked<G> {
    why: Why<G>,
    wanted: Vec<Wanted<G>>,
    /// Of how many subjects the verdicts are handed in.
    done: usize,
}

/// Whose they are.
enum Why<G> {
    Votes,
    Own(Subject, G),
    Certificate(Participant, Listed),
}

/// What is to be verified, with what the verifier says.
type Verified<G> = (Asked<G>, Vec<bool>);

fn write<D: Store>(store: &mut D, write: Write) -> Result<Write, D::Error> {
    store.write(&write)?;
    Ok(write)
}

fn sign<S: Signer>(signer: &mut S, (subject, message): ToSign) -> Signed<S> {
    let signature = signer.sign(&subject, &message);
    (subject, signature)
}

fn verify<V: Verifier>(verifier: &mut V, asked: Asked<V::Signature>) -> Verified<V::Signature> {
    let verdicts = verdicts(verifier, &asked.wanted);
    (asked, verdicts)
}

fn verdicts<'a, V: Verifier>(verifier: &mut V, lists: &'a [Wanted<V::Signature>]) -> Vec<bool> {
    let of_list = |list: &'a Wanted<V::Signature>| {
        list.attestations().iter().map(|attestation| Check {
            subject: list.subject(),
            message: list.message(),
            attestation,
        })
    };
    let checks: Vec<_> = lists.iter().flat_map(of_list).collect();
    if checks.is_empty() {
        return Vec::new();
    }
    verifier.verify(&checks)
}

/// How many attestations there are in all.
fn count<G>(lists: &[Wanted<G>]) -> usize {
    lists.iter().map(|it| it.attestations().len()).sum()
}

/// A validator that writes, signs and verifies by itself. The [module](self) has a whole program.
///
/// It stays on the thread on which it was made: [`thread`](crate::thread) has handles that don't.
/// Where its own short lists are refused memory, the program ends, as elsewhere in Rust; what the
/// library is refused is an error, after which the same call can be made again.
pub struct Driver<D: Store, S: Signer, V: Verifier<Signature = S::Signature>> {
    running: Validator<S::Signature>,
    store: Worker<D, Write, Result<Write, D::Error>>,
    signer: Worker<S, ToSign, Signed<S>>,
    verifier: Worker<V, Asked<S::Signature>, Verified<S::Signature>>,
    epoch: Epoch,
    me: Participant,
    participants: u32,
    // What is to be signed and isn't handed to the signer yet, and what is.
    wish: Option<Subject>,
    signing: Vec<Subject>,
    // What wasn't signed and isn't handed out yet.
    unsigned: VecDeque<(Subject, Unsigned<S::Error>)>,
    // What is to be verified together.
    batch: Vec<Wanted<S::Signature>>,
    // Certificates that wait, whether one is being verified, and what became of the last one.
    certificates: VecDeque<(Participant, Listed)>,
    is_certifying: bool,
    heard: Option<Heard<S::Signature>>,
    view: View,
    last: View,
    is_expired: bool,
    blocked: Vec<Participant>,
    has_ended: bool,
}

impl<S: Signer, V: Verifier<Signature = S::Signature>> Driver<Files, S, V> {
    /// The validator of these files, which begins where nothing was ever written to them, and else
    /// goes on. What they have is verified first. `leader` says who leads each view, and always
    /// says the same, at all validators.
    ///
    /// # Errors
    ///
    /// As of [`Opened::start`]. `NotVerified` also where the verifier doesn't give one verdict for
    /// each signature. The files are closed then.
    pub fn start(
        files: Opened,
        options: &Options,
        leader: impl Fn(View) -> Participant + 'static,
        signer: S,
        mut verifier: V,
    ) -> Result<Self, StartError> {
        let verify = |wanted: &Wanted<_>| on_start(&mut verifier, wanted);
        let (running, files) = files.start(options, leader, verify)?;
        let store = Worker::new(files, write);
        Ok(Driver::of(running, store, options, signer, verifier))
    }

    /// The same by the files of this folder, with threads as of [`Driver::on_threads`]. The files
    /// don't leave the thread on which they are opened, so they are opened there.
    ///
    /// # Errors
    ///
    /// As of [`Files::open`], [`Driver::start`] and [`Driver::on_threads`]. The files are closed
    /// then.
    pub fn start_on_threads(
        folder: &Path,
        options: &Options,
        leader: impl Fn(View) -> Participant + 'static,
        signer: S,
        mut verifier: V,
        wake: impl Fn() + Clone + Send + 'static,
    ) -> Result<Self, OpenError>
    where
        S: Send + 'static,
        S::Error: Send + 'static,
        S::Signature: Send + 'static,
        V: Send + 'static,
    {
        // Who drops it waits for its thread, which waits for an owner: that is dropped first.
        let store;
        let (owner, life) = channel::<Life>();
        let (found, opened) = channel();
        let folder = folder.to_path_buf();
        let make = move || match Files::open(&folder) {
            Ok(Opened::New(files)) => {
                found.send(Ok(None)).ok()?;
                Some(files.owned_by(life.recv().ok()?))
            }
            Ok(Opened::Written(bytes, files)) => {
                found.send(Ok(Some(bytes))).ok()?;
                Some(files.owned_by(life.recv().ok()?))
            }
            Err(error) => {
                let _ = found.send(Err(error));
                None
            }
        };
        store = Worker::on_thread(STORE, true, write, wake.clone(), make)?;
        let bytes = match opened.recv() {
            Ok(opened) => opened?,
            Err(_) => return Err(OpenError::NoThread),
        };
        let verify = |wanted: &Wanted<_>| on_start(&mut verifier, wanted);
        let mut running = match bytes {
            None => Validator::begin(options, leader)?,
            Some(bytes) => Validator::start(options, leader, &bytes, verify)?,
        };
        running.has_files = true;
        // Where its thread has ended, the first write says so.
        let _ = owner.send(running.life);
        let driver = Driver::of(running, store, options, signer, verifier);
        Ok(driver.others_on_threads(wake)?)
    }
}

impl<D: Store, S: Signer, V: Verifier<Signature = S::Signature>> Driver<D, S, V> {
    /// The validator of a store in the place of [`Files`]. `written` is all that it has, in order,
    /// since the last write that replaced it. Where nothing was ever written to it, there is none,
    /// and the validator begins: who lost what was written doesn't begin again in that epoch.
    ///
    /// # Errors
    ///
    /// As of [`Driver::start`].
    pub fn with_store(
        store: D,
        written: &[u8],
        options: &Options,
        leader: impl Fn(View) -> Participant + 'static,
        signer: S,
        mut verifier: V,
    ) -> Result<Self, StartError> {
        let verify = |wanted: &Wanted<_>| on_start(&mut verifier, wanted);
        let running = match written {
            [] => Validator::begin(options, leader)?,
            written => Validator::start(options, leader, written, verify)?,
        };
        let store = Worker::new(store, write);
        Ok(Driver::of(running, store, options, signer, verifier))
    }

    fn of(
        running: Validator<S::Signature>,
        store: Worker<D, Write, Result<Write, D::Error>>,
        options: &Options,
        signer: S,
        verifier: V,
    ) -> Self {
        Driver {
            running,
            store,
            signer: Worker::new(signer, sign),
            verifier: Worker::new(verifier, verify),
            epoch: options.epoch,
            me: options.me,
            participants: options.participants,
            wish: None,
            signing: Vec::new(),
            unsigned: VecDeque::new(),
            batch: Vec::new(),
            certificates: VecDeque::new(),
            is_certifying: false,
            heard: None,
            view: View::zero(),
            last: View::zero(),
            is_expired: false,
            blocked: Vec::new(),
            has_ended: false,
        }
    }

    /// Gives a store of one's own, the signer and the verifier a thread each. For [`Files`] there
    /// is [`Driver::start_on_threads`]. `wake` is called on these, behind each answer: have the
    /// thread of the driver poll then, as by a message to its inbox. It is a short call that
    /// doesn't wait for that thread.
    ///
    /// Who drops the driver waits for a write that is under way, so that its files are closed then.
    ///
    /// # Errors
    ///
    /// The system gives no thread. The files are closed then.
    pub fn on_threads(self, wake: impl Fn() + Clone + Send + 'static) -> Result<Self, NoThread>
    where
        D: Send + 'static,
        D::Error: Send + 'static,
        S: Send + 'static,
        S::Error: Send + 'static,
        S::Signature: Send + 'static,
        V: Send + 'static,
    {
        let store = self.store.apart(STORE, true, wake.clone())?;
        Driver { store, ..self }.others_on_threads(wake)
    }

    fn others_on_threads(self, wake: impl Fn() + Clone + Send + 'static) -> Result<Self, NoThread>
    where
        S: Send + 'static,
        S::Error: Send + 'static,
        S::Signature: Send + 'static,
        V: Send + 'static,
    {
        Ok(Driver {
            signer: self.signer.apart("batcher signer", false, wake.clone())?,
            verifier: self.verifier.apart("batcher verifier", false, wake)?,
            ..self
        })
    }

    /// What is to be done next. Call it until it answers [`Action::Wait`], and again once something
    /// came: after each call of this driver, and after each `wake` of [`Driver::on_threads`].
    ///
    /// # Errors
    ///
    /// `OutOfMemory`, after which the same call can be made again. After any other error the driver
    /// has ended: start the validator again by its disk.
    pub fn poll(&mut self) -> Polled<D, S> {
        let next = self.go_on();
        self.ends_by(next)
    }

    /// Notes whether it has ended by this.
    fn ends_by<R>(
        &mut self,
        answer: Result<R, DriveError<D::Error>>,
    ) -> Result<R, DriveError<D::Error>> {
        self.has_ended |= !matches!(answer, Ok(_) | Err(DriveError::OutOfMemory));
        answer
    }

    fn go_on(&mut self) -> Polled<D, S> {
        if self.has_ended {
            return Err(DriveError::Ended);
        }
        loop {
            self.take_answers()?;
            if let Some((subject, why)) = self.unsigned.pop_front() {
                return Ok(Action::Unsigned(subject, why));
            }
            match self.running.poll()? {
                Some(Task::Write(write)) => self.store.give(write)?,
                Some(Task::Sign(subject)) => self.wish = Some(subject),
                Some(Task::Verify(wanted)) => self.batch.push(wanted),
                Some(task) => {
                    // On this thread it is verified once all that is ready is sent.
                    if self.verifier.is_apart() {
                        self.verify_batch()?;
                    }
                    return self.action(task);
                }
                None if self.batch.is_empty() => return Ok(Action::Wait),
                None => self.verify_batch()?,
            }
        }
    }

    /// The task, of which the application is left with what it does itself.
    fn action(&mut self, task: Task<S::Signature>) -> Polled<D, S> {
        let life = self.running.life;
        Ok(match task {
            Task::SendVote(vote) => Action::Send(Message::Vote(vote)),
            Task::SendCertificate(made) => Action::Send(Message::Certificate(made)),
            Task::Forward(proposal, to) => Action::Forward(proposal, to),
            Task::Final(proposal) => {
                self.last = proposal.round.view;
                Action::Final(proposal)
            }
            Task::Block(peer, cause) => {
                self.note_blocked(peer);
                Action::Block(peer, cause)
            }
            Task::Enter { view, leader } => {
                (self.view, self.is_expired) = (view, false);
                Action::Enter { view, leader }
            }
            Task::Propose { view, parent } => Action::Propose(Propose {
                view,
                parent,
                before: self.payload(parent),
                life,
            }),
            Task::Judge(proposal) => Action::Judge(Judge {
                proposal,
                before: self.payload(proposal.parent),
                life,
            }),
            Task::Write(_) | Task::Sign(_) | Task::Verify(_) => {
                unreachable!("they are done before")
            }
        })
    }

    fn payload(&self, view: View) -> Option<Sha256Digest> {
        Some(self.running.certified(view)?.payload)
    }

    fn note_blocked(&mut self, peer: Participant) {
        if !self.blocked.contains(&peer) {
            self.blocked.push(peer);
        }
    }

    /// Deals with all that the three parts have answered, and asks them for what follows from that.
    fn take_answers(&mut self) -> Result<(), DriveError<D::Error>> {
        loop {
            let goes_on = self.take_write()?
                | self.ask_for_signature()?
                | self.take_signature()?
                | self.take_verdicts()?
                | self.ask_about_certificate()?;
            if !goes_on {
                return Ok(());
            }
        }
    }

    fn take_write(&mut self) -> Result<bool, DriveError<D::Error>> {
        let Some(_) = self.store.first()? else {
            return Ok(false);
        };
        match self.store.take() {
            Some(Ok(write)) => match self.running.wrote(write) {
                Ok(()) => Ok(true),
                // It is of this validator, and its files have it, so that can't be.
                Err(_) => Err(DriveError::Validator(PollError::Closed)),
            },
            Some(Err(error)) => Err(DriveError::Store(error)),
            None => Ok(false),
        }
    }

    fn ask_for_signature(&mut self) -> Result<bool, DriveError<D::Error>> {
        let Some(subject) = self.wish else {
            return Ok(false);
        };
        if self.signing.contains(&subject) {
            // It was asked before its time was over, and answers for both.
        } else if self.signing.len() >= MOST_SIGNATURES {
            self.running.refuse(&subject);
            self.unsigned.push_back((subject, Unsigned::Busy));
        } else {
            let message = self.running.message(&subject)?;
            self.signing.push(subject);
            self.signer.give((subject, message))?;
        }
        self.wish = None;
        Ok(true)
    }

    fn take_signature(&mut self) -> Result<bool, DriveError<D::Error>> {
        let Some((subject, signature)) = self.signer.first()? else {
            return Ok(false);
        };
        let subject = *subject;
        let wanted = match signature {
            Ok(signature) => match self.running.to_verify(subject, signature) {
                Ok(wanted) => Some(wanted),
                Err(VoteError::OutOfMemory) => return Err(DriveError::OutOfMemory),
                Err(VoteError::SignatureBytes) => None,
            },
            Err(_) => None,
        };
        match (self.signer.take(), wanted) {
            (Some((_, Ok(signature))), Some(wanted)) => {
                self.verify(Why::Own(subject, signature), vec![wanted])?;
            }
            (Some((_, Err(error))), _) => self.leave_unsigned(subject, Unsigned::Refused(error)),
            _ => self.leave_unsigned(subject, Unsigned::SignatureBytes),
        }
        Ok(true)
    }

    /// Another vote may be signed now, and this one after the time is over.
    fn leave_unsigned(&mut self, subject: Subject, why: Unsigned<S::Error>) {
        self.running.refuse(&subject);
        self.signing.retain(|it| *it != subject);
        self.unsigned.push_back((subject, why));
    }

    fn verify_batch(&mut self) -> Result<(), DriveError<D::Error>> {
        if self.batch.is_empty() {
            return Ok(());
        }
        let wanted = std::mem::take(&mut self.batch);
        self.verify(Why::Votes, wanted)
    }

    fn verify(
        &mut self,
        why: Why<S::Signature>,
        wanted: Vec<Wanted<S::Signature>>,
    ) -> Result<(), DriveError<D::Error>> {
        let done = 0;
        Ok(self.verifier.give(Asked { why, wanted, done })?)
    }

    fn take_verdicts(&mut self) -> Result<bool, DriveError<D::Error>> {
        let Some((asked, verdicts)) = self.verifier.first()? else {
            return Ok(false);
        };
        let (wanted, given) = (count(&asked.wanted), verdicts.len());
        if wanted != given {
            return Err(DriveError::Verdicts { wanted, given });
        }
        let all = || verdicts.clone();
        match &asked.why {
            Why::Votes => {
                let mut at = count(&asked.wanted[..asked.done]);
                for list in &asked.wanted[asked.done..] {
                    let end = at + list.attestations().len();
                    self.running.conclude(list, &verdicts[at..end])?;
                    (at, asked.done) = (end, asked.done + 1);
                }
            }
            Why::Own(subject, signature) => {
                let subject = *subject;
                match self.running.signed(subject, signature, |_| all()) {
                    // Where it isn't written, it isn't wanted any more.
                    Ok(_) => {}
                    Err(SignError::OutOfMemory) => return Err(DriveError::OutOfMemory),
                    Err(SignError::NotVerified) => {
                        self.unsigned.push_back((subject, Unsigned::NotVerified));
                    }
                    Err(SignError::SignatureBytes) => {
                        self.unsigned.push_back((subject, Unsigned::SignatureBytes));
                    }
                }
                self.signing.retain(|it| *it != subject);
            }
            Why::Certificate(sender, certificate) => {
                let round = certificate.round();
                let receipt = self.running.certificate(*sender, certificate, |_| all())?;
                self.heard = Some(self.of_certificate(round, receipt));
                self.is_certifying = false;
            }
        }
        let _ = self.verifier.take();
        Ok(true)
    }

    /// One certificate is verified after the other, since most peers send the same one, of which
    /// the others are known by then.
    fn ask_about_certificate(&mut self) -> Result<bool, DriveError<D::Error>> {
        if self.is_certifying {
            return Ok(false);
        }
        let Some((sender, certificate)) = self.certificates.front() else {
            return Ok(false);
        };
        let sender = *sender;
        if let Some(heard) = self.without_verdicts(sender, certificate) {
            self.heard = Some(heard);
            self.certificates.pop_front();
            return Ok(true);
        }
        match self.running.attestations(certificate)? {
            Some(wanted) => {
                if let Some((_, certificate)) = self.certificates.pop_front() {
                    self.is_certifying = true;
                    self.verify(Why::Certificate(sender, certificate), vec![wanted])?;
                }
            }
            None => {
                // It is no list of attestations, so nothing is to be verified.
                let verify = |_: &Wanted<_>| Vec::new();
                let round = certificate.round();
                let receipt = self.running.certificate(sender, certificate, verify)?;
                self.heard = Some(self.of_certificate(round, receipt));
                self.certificates.pop_front();
            }
        }
        Ok(true)
    }

    /// What becomes of a certificate that isn't looked at.
    fn without_verdicts(
        &self,
        sender: Participant,
        certificate: &Listed,
    ) -> Option<Heard<S::Signature>> {
        if self.is_blocked(sender) {
            return Some(Heard::Blocked);
        }
        let receipt = self.running.unwanted(sender, certificate)?;
        Some(self.of_certificate(certificate.round(), receipt))
    }

    fn of_certificate(&self, round: Round, receipt: Receipt<Verdict>) -> Heard<S::Signature> {
        match receipt {
            Receipt::Answered(Verdict::Recorded) => Heard::Taken,
            Receipt::Answered(Verdict::Known) => Heard::Known,
            Receipt::Answered(Verdict::Forged) => Heard::Faulty(Cause::Certificate, None),
            Receipt::Outside => self.outside(round),
            Receipt::Dropped => Heard::Blocked,
            Receipt::Unknown => Heard::Unknown,
        }
    }

    /// Where a round is that isn't looked at.
    fn outside(&self, round: Round) -> Heard<S::Signature> {
        if round.epoch != self.epoch {
            Heard::OtherEpoch
        } else if round.view < self.last.max(self.view) {
            Heard::Behind
        } else {
            Heard::Ahead
        }
    }

    /// Takes in what this participant sent, as the transport has authenticated it, and says what
    /// became of it. Then poll.
    ///
    /// # Errors
    ///
    /// As of [`Driver::poll`].
    pub fn hear(
        &mut self,
        sender: Participant,
        message: &Message<S::Signature>,
    ) -> Result<Heard<S::Signature>, DriveError<D::Error>> {
        let heard = self.take_in(sender, message);
        self.ends_by(heard)
    }

    fn take_in(
        &mut self,
        sender: Participant,
        message: &Message<S::Signature>,
    ) -> Result<Heard<S::Signature>, DriveError<D::Error>> {
        if self.has_ended {
            return Err(DriveError::Ended);
        }
        if sender == self.me {
            return Ok(Heard::Own);
        }
        if sender.get() >= self.participants {
            return Ok(Heard::Unknown);
        }
        if self.is_blocked(sender) {
            return Ok(Heard::Blocked);
        }
        match message {
            Message::Vote(vote) => {
                let round = vote.round();
                let receipt = match self.running.vote(sender, vote) {
                    Err(VoteError::SignatureBytes) => return Ok(Heard::SignatureBytes),
                    receipt => receipt?,
                };
                Ok(match receipt {
                    Receipt::Answered(admission) => match admission.block {
                        Some(reason) => Heard::Faulty(Cause::Vote(reason), admission.report),
                        None if admission.added => Heard::Taken,
                        None => Heard::Known,
                    },
                    Receipt::Outside => self.outside(round),
                    Receipt::Dropped => Heard::Blocked,
                    Receipt::Unknown => Heard::Unknown,
                })
            }
            Message::Certificate(certificate) => {
                let of_sender = self.certificates.iter().filter(|it| it.0 == sender);
                if of_sender.count() >= MOST_CERTIFICATES {
                    return Ok(Heard::Full);
                }
                if let Some(heard) = self.without_verdicts(sender, certificate) {
                    return Ok(heard);
                }
                self.certificates.push_back((sender, certificate.clone()));
                let is_alone = self.certificates.len() == 1 && !self.is_certifying;
                self.heard = None;
                self.take_answers()?;
                let heard = self.heard.take().filter(|_| is_alone);
                Ok(heard.unwrap_or(Heard::Verifying))
            }
        }
    }

    /// The payload that was wanted. It lasts by now, since it may be final soon. Then poll.
    pub fn propose(&mut self, wish: Propose, payload: Sha256Digest) -> Reply {
        let reply = self.replied(wish.life, wish.view);
        if reply == Reply::Taken {
            self.running.propose(wish.view, wish.parent, payload);
        }
        reply
    }

    /// Whether the proposal is valid. Where it is, its payload lasts by now. Where it isn't, its
    /// view is given up. Then poll.
    pub fn judge(&mut self, wish: Judge, is_valid: bool) -> Reply {
        let reply = self.replied(wish.life, wish.proposal.round.view);
        if reply == Reply::Taken {
            self.running.judge(&wish.proposal, is_valid);
        }
        reply
    }

    fn replied(&self, life: Life, view: View) -> Reply {
        if life != self.running.life {
            Reply::OtherLife
        } else if view <= self.last {
            Reply::Over
        } else {
            Reply::Taken
        }
    }

    /// The time of this view is over, for the first time or again. It is given up, unless its
    /// proposal is notarized, and what others may lack is given to be sent again. How far the view is
    /// says why it takes so long. Then poll, and start the timer again.
    ///
    /// None where another view was entered since: nothing is done then.
    pub fn expire(&mut self, view: View) -> Option<Progress> {
        if view != self.view {
            return None;
        }
        self.is_expired = true;
        Some(self.running.expire(view))
    }

    /// How long to wait for the view that was entered, where `base` is enough for one while all is
    /// well: its [`timeout`]. A leader that is blocked here isn't waited for: its view is over at
    /// once. One of an absent leader is given up already, and has a timer to send it all again.
    pub fn patience(&self, base: Duration) -> Duration {
        let leader = self.running.leader(self.view);
        if !self.is_expired && self.is_blocked(leader) {
            return Duration::ZERO;
        }
        timeout(base, self.last, self.view)
    }

    /// What this participant sends is dropped from now on, as where the application has blocked it.
    pub fn block(&mut self, peer: Participant) {
        if peer.get() < self.participants {
            self.note_blocked(peer);
        }
    }

    /// Certificates for who fell behind, as many as this at most, from the final view or this one
    /// on, whichever is later: by these it goes on. There are up to three for each view.
    ///
    /// # Errors
    ///
    /// `NotWritten` while something isn't written: call it again later. `OutOfMemory`.
    pub fn help(&self, from: View, most: usize) -> Result<Vec<Listed>, KeptError> {
        let mut found = Vec::new();
        for view in from.max(self.last).get()..=self.view.get() {
            for kind in [Kind::Finalization, Kind::Notarization, Kind::Nullification] {
                let round = Round::new(self.epoch, View::new(view));
                if found.len() >= most {
                    return Ok(found);
                }
                found.extend(self.running.kept(kind, round)?);
            }
        }
        Ok(found)
    }

    /// Which participant it is.
    pub fn me(&self) -> Participant {
        self.me
    }

    /// The view that was entered last. It is 0 until one was.
    pub fn view(&self) -> View {
        self.view
    }

    /// The last view of which the proposal was given as final. It is 0 until one was.
    pub fn last_final(&self) -> View {
        self.last
    }

    /// Who leads a view.
    pub fn leader(&self, view: View) -> Participant {
        self.running.leader(view)
    }

    /// Who was given to be blocked, or was blocked by [`Driver::block`], in this life.
    pub fn blocked(&self) -> &[Participant] {
        &self.blocked
    }

    /// Whether this one was.
    pub fn is_blocked(&self, peer: Participant) -> bool {
        self.blocked.contains(&peer)
    }

    /// The proposal of a view that is notarized or final. None of views before the final one, nor
    /// of the start, which view 0 is.
    pub fn certified(&self, view: View) -> Option<Proposal> {
        self.running.certified(view)
    }

    /// The bytes that are signed for a subject.
    ///
    /// # Errors
    ///
    /// `OutOfMemory`.
    pub fn message(&self, subject: &Subject) -> Result<Vec<u8>, OutOfMemory> {
        self.running.message(subject)
    }
}

/// What the verifier says as a validator is started, where nothing attests unless there is one
/// verdict for each.
fn on_start<V: Verifier>(verifier: &mut V, wanted: &Wanted<V::Signature>) -> Vec<bool> {
    let found = verdicts(verifier, std::slice::from_ref(wanted));
    let count = wanted.attestations().len();
    if found.len() == count {
        found
    } else {
        vec![false; count]
    }
}

impl<D: Store, S: Signer, V: Verifier<Signature = S::Signature>> fmt::Debug for Driver<D, S, V> {
    fn fmt(&self, f: &mut fmt::Formatter<'_>) -> fmt::Result {
        f.debug_struct("Driver")
            .field("me", &self.me)
            .field("view", &self.view)
            .field("last_final", &self.last)
            .field("blocked", &self.blocked)
            .field("has_ended", &self.has_ended)
            .finish_non_exhaustive()
    }
}
