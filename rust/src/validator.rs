//! A validator: it takes in what comes, votes by the rules, and says what is to be done next.
//!
//! A [`Validator`] has no I/O. What a peer sends goes in by [`Validator::vote`] and
//! [`Validator::certificate`], and [`Validator::poll`] says what is to be done, one [`Task`] after
//! the other, until nothing is: to write to the disk, to send, to verify, to sign. Each task is
//! given once, and only where all is written that it rests on. So what is sent was written before,
//! and a validator that is killed goes on by its disk.
//!
//! Here one is alone, so that its own vote is a quorum:
//!
//! ```
//! # include!(concat!(env!("CARGO_MANIFEST_DIR"), "/tests/toy/mod.rs"));
//! use batcher::validator::{Options, Signed, Task, Validator, Wanted};
//! use batcher::{Epoch, Participant, Sha256Digest, View};
//! # fn main() -> Result<(), Box<dyn std::error::Error>> {
//! let options = Options {
//!     epoch: Epoch::zero(),
//!     me: Participant::new(0),
//!     participants: 1,
//!     keys: [1; 32],
//!     namespace: b"example",
//!     ahead: 16,
//!     track_historical_votes: false,
//! };
//! let leader = |_: View| Participant::new(0);
//! // Which of the attestations attest, one verdict for each.
//! let verify = |wanted: &Wanted<Signature>| -> Vec<bool> {
//!     let all = wanted.attestations().iter();
//!     all.map(|it| attests(wanted.subject(), it)).collect()
//! };
//! let mut validator = Validator::<Signature>::begin(&options, leader)?;
//! let mut disk = Vec::new();
//! let mut last = View::zero();
//! while last < View::new(3) {
//!     match validator.poll()?.expect("it is alone, and goes on") {
//!         Task::Write(write) => {
//!             if write.replaces() {
//!                 disk.clear();
//!             }
//!             disk.extend_from_slice(write.bytes());
//!             validator.wrote(write)?;
//!         }
//!         Task::Propose { view, parent } => {
//!             validator.propose(view, parent, Sha256Digest([view.get() as u8; 32]));
//!         }
//!         Task::Sign(subject) => {
//!             let signed = validator.signed(subject, &sign(&subject, 0), verify)?;
//!             assert_eq!(signed, Signed::Written);
//!         }
//!         Task::Verify(wanted) => {
//!             validator.conclude(&wanted, &verify(&wanted))?;
//!         }
//!         Task::Final(proposal) => last = proposal.round.view,
//!         // Nobody else is there, and no view takes too long.
//!         Task::SendVote(_) | Task::SendCertificate(_) | Task::Enter { .. } => {}
//!         other => unreachable!("nobody else is there, and there is {other:?}"),
//!     }
//! }
//! // What is on its disk is all that it takes to go on. It is verified first.
//! let mut again = Validator::start(&options, leader, &disk, verify)?;
//! assert!(again.poll()?.is_some());
//! # Ok(())
//! # }
//! ```

use crate::answers::{Admission, BlockReason, OwnFault};
use crate::construct::{ONE_EACH, attestations_of, reserve, reserve_each};
use crate::errors::{OutOfMemory, SignError, VoteError, unknown};
use crate::ffi::{self, code, validators};
use crate::flat::{
    block_of, flat_proposal, flat_round, flat_subject, flat_vote, kind_code, kind_of, own_fault,
    proposal_of, report_of, round_of, subject_of, vote_of,
};
use crate::messages::{Attestation, Certificate, Kind, Proposal, Sha256Digest, Subject, Vote};
use crate::positions::{Epoch, Participant, Round, View, quorum};
use std::fmt;
use std::marker::PhantomData;
use std::sync::atomic::{AtomicBool, AtomicU64, Ordering};
use std::time::Duration;

/// What a validator is made of.
#[derive(Clone, Copy, Debug)]
pub struct Options<'a> {
    /// The epoch in which it votes.
    pub epoch: Epoch,
    /// Which participant it is.
    pub me: Participant,
    /// How many participants there are, 65,535 at most.
    pub participants: u32,
    /// Bytes that distinguish the list of their keys from other lists, as its hash does.
    pub keys: [u8; 32],
    /// Keeps its votes apart from those of other uses of the keys.
    pub namespace: &'a [u8],
    /// How many views beyond the current one it looks at: as many as others may be ahead of it in a
    /// short while, such as 16. A participant makes it keep at most one round for each, so they are
    /// 1,024 at most.
    pub ahead: u64,
    /// Whether votes are kept in full until their view is passed, as evidence. Else they are until
    /// their kind is certified.
    pub track_historical_votes: bool,
}

/// Why there is no validator.
#[non_exhaustive]
#[derive(Clone, Copy, Debug, PartialEq, Eq, Hash)]
pub enum StartError {
    /// Memory was refused.
    OutOfMemory,
    /// No participant has this index.
    UnknownParticipant,
    /// There are more than 65,535 participants, or more than 1,024 views ahead.
    TooMany,
    /// The disk has no bytes. Where this participant never signed anything in the epoch, begin.
    NotBegun,
    /// What is on the disk is of another version of the library.
    OtherVersion,
    /// What is on the disk is of another participant, another epoch, other keys or another
    /// namespace.
    OtherOwner,
    /// What is on the disk is no journal, or has what no validator wrote.
    Damaged,
    /// A signature on the disk doesn't attest, as the verifier says: one of its own votes, or one of
    /// a certificate.
    NotVerified,
}

impl fmt::Display for StartError {
    fn fmt(&self, f: &mut fmt::Formatter<'_>) -> fmt::Result {
        match self {
            StartError::OutOfMemory => f.write_str("out of memory"),
            StartError::UnknownParticipant => f.write_str("no participant has this index"),
            StartError::TooMany => f.write_str("too many participants, or views ahead"),
            StartError::NotBegun => f.write_str("the disk has no bytes"),
            StartError::OtherVersion => f.write_str("the journal is of another version"),
            StartError::OtherOwner => f.write_str("the journal is somebody else's"),
            StartError::Damaged => f.write_str("the disk has no journal"),
            StartError::NotVerified => f.write_str("a signature on the disk doesn't attest"),
        }
    }
}

impl std::error::Error for StartError {}

impl From<OutOfMemory> for StartError {
    fn from(_: OutOfMemory) -> Self {
        StartError::OutOfMemory
    }
}

/// A signature that the scheme doesn't make of its bytes is one that doesn't attest.
impl From<VoteError> for StartError {
    fn from(error: VoteError) -> Self {
        match error {
            VoteError::OutOfMemory => StartError::OutOfMemory,
            VoteError::SignatureBytes => StartError::NotVerified,
        }
    }
}

/// Why a validator doesn't say what is to be done.
#[non_exhaustive]
#[derive(Clone, Copy, Debug, PartialEq, Eq, Hash)]
pub enum PollError {
    /// Memory was refused. The same call may succeed later.
    OutOfMemory,
    /// The journal has no room left, which 2^64 bytes are.
    Full,
    /// The journal is closed, which no call of a validator does. Start again by the disk.
    Closed,
    /// The scheme doesn't make the same signature of its bytes again.
    SignatureBytes,
    /// The leader that was named for this view takes no part. Each call says so, until another is
    /// named.
    NoLeader(View, Participant),
}

impl fmt::Display for PollError {
    fn fmt(&self, f: &mut fmt::Formatter<'_>) -> fmt::Result {
        match self {
            PollError::OutOfMemory => f.write_str("out of memory"),
            PollError::Full => f.write_str("the journal is full"),
            PollError::Closed => f.write_str("the journal is closed"),
            PollError::SignatureBytes => f.write_str("signature isn't its bytes"),
            PollError::NoLeader(view, leader) => {
                write!(f, "view {view} is led by {leader}, who takes no part")
            }
        }
    }
}

impl std::error::Error for PollError {}

impl From<VoteError> for PollError {
    fn from(error: VoteError) -> Self {
        match error {
            VoteError::OutOfMemory => PollError::OutOfMemory,
            VoteError::SignatureBytes => PollError::SignatureBytes,
        }
    }
}

impl From<KeptError> for PollError {
    fn from(error: KeptError) -> Self {
        match error {
            KeptError::OutOfMemory => PollError::OutOfMemory,
            // No task shows a certificate before.
            KeptError::NotWritten => unknown(code::NOT_WRITTEN),
        }
    }
}

impl From<OutOfMemory> for PollError {
    fn from(_: OutOfMemory) -> Self {
        PollError::OutOfMemory
    }
}

/// Why a participant is to be blocked.
#[derive(Clone, Copy, Debug, PartialEq, Eq, Hash)]
pub enum Cause {
    /// For a vote that it sent.
    Vote(BlockReason),
    /// It sent a certificate that doesn't certify what it names.
    Certificate,
    /// It sent a vote that doesn't attest.
    Signature,
}

impl fmt::Display for Cause {
    fn fmt(&self, f: &mut fmt::Formatter<'_>) -> fmt::Result {
        match self {
            Cause::Vote(reason) => reason.fmt(f),
            Cause::Certificate => f.write_str("a certificate that doesn't certify"),
            Cause::Signature => f.write_str("a vote that doesn't attest"),
        }
    }
}

/// What became of a peer's message, where `A` is what it is answered.
#[derive(Clone, Copy, Debug, PartialEq, Eq, Hash)]
pub enum Receipt<A> {
    /// It was looked at.
    Answered(A),
    /// It is of a view outside of the window, or of another epoch. That blocks nobody.
    Outside,
    /// The peer was blocked before, so the message wasn't looked at.
    Dropped,
    /// The peer takes no part, so the message wasn't looked at.
    Unknown,
}

/// What became of a peer's certificate.
#[derive(Clone, Copy, Debug, PartialEq, Eq, Hash)]
pub enum Verdict {
    /// It certifies what it names, and is kept.
    Recorded,
    /// It doesn't, and its peer is given to be blocked.
    Forged,
    /// There was one of its kind and view.
    Known,
}

/// What became of a signature of its own that attests.
#[must_use = "its vote may not be written"]
#[non_exhaustive]
#[derive(Clone, Copy, Debug, PartialEq, Eq, Hash)]
pub enum Signed {
    /// Its vote is in the next write, and given to be sent once that lasts.
    Written,
    /// Its vote was cast before in this life, so nothing is written.
    Known,
    /// Another signature was written for the same subject before, so nothing is.
    Other,
    /// A rule refuses its vote by now, so nothing is written.
    Refused,
    /// Its round refuses its vote beside an earlier one, so nothing is written.
    Excluded(OwnFault),
    /// Its view isn't in the window any more, so nothing is written.
    Outside,
    /// The journal has no room left, which 2^64 bytes are.
    Full,
    /// The journal is closed, which no call of a validator does. Start again by the disk.
    Closed,
}

/// How far a kind of a view is from its certificate. Once that is there, no vote of it waits.
#[derive(Clone, Copy, Debug, Default, PartialEq, Eq, Hash)]
pub struct Counts {
    /// How many votes wait that weren't verified.
    pub pending: u64,
    /// How many votes wait that attest.
    pub verified: u64,
    /// Whether there is a certificate.
    pub certified: bool,
}

impl fmt::Display for Counts {
    fn fmt(&self, f: &mut fmt::Formatter<'_>) -> fmt::Result {
        if self.certified {
            return f.write_str("certified");
        }
        write!(f, "{} and {} unverified", self.verified, self.pending)
    }
}

/// How far a view is, and so why it hangs: nobody leads it, nothing is proposed, or votes are
/// missing.
#[derive(Clone, Copy, Debug, PartialEq, Eq, Hash)]
pub struct Progress {
    /// Who leads it.
    pub leader: Option<Participant>,
    /// Whether a proposal is selected.
    pub has_proposal: bool,
    /// How many notarizes there are.
    pub notarizes: Counts,
    /// How many nullifies.
    pub nullifies: Counts,
    /// How many finalizes.
    pub finalizes: Counts,
    /// How many votes make a certificate.
    pub quorum: u32,
}

impl fmt::Display for Progress {
    fn fmt(&self, f: &mut fmt::Formatter<'_>) -> fmt::Result {
        match self.leader {
            Some(leader) => write!(f, "led by {leader}, ")?,
            None => f.write_str("led by nobody, ")?,
        }
        let proposal = if self.has_proposal { "a" } else { "no" };
        write!(f, "{proposal} proposal, of {} votes: ", self.quorum)?;
        let (notarizes, nullifies) = (self.notarizes, self.nullifies);
        write!(f, "notarizes {notarizes}, nullifies {nullifies}, ")?;
        write!(f, "finalizes {}", self.finalizes)
    }
}

/// What is to be written to the disk, once. It may go to another thread.
#[must_use = "the validator waits for it"]
#[derive(Debug)]
pub struct Write {
    replaces: bool,
    bytes: Vec<u8>,
    /// Whose it is.
    pub(crate) life: Life,
    /// How many its validator has given before it.
    pub(crate) number: u64,
    /// Whether the crate's files have it.
    pub(crate) is_written: AtomicBool,
}

impl Write {
    /// Whether the bytes take the place of all that are there. Else they come behind them.
    pub fn replaces(&self) -> bool {
        self.replaces
    }

    /// The bytes. A crash leaves all of them, or none.
    pub fn bytes(&self) -> &[u8] {
        &self.bytes
    }
}

/// A write is confirmed once, and by itself alone. The first programs are refused for that: the last
/// compiles.
///
/// ```compile_fail
/// # use batcher::validator::{Validator, Write, WroteError};
/// # fn confirm(running: &mut Validator<Vec<u8>>, write: Write) -> Result<(), WroteError> {
/// running.wrote(write)?;
/// running.wrote(write)
/// # }
/// ```
///
/// ```compile_fail
/// # use batcher::validator::{Validator, Write, WroteError};
/// # fn confirm(running: &mut Validator<Vec<u8>>, write: Write) -> Result<(), WroteError> {
/// running.wrote(write.clone())?;
/// running.wrote(write)
/// # }
/// ```
///
/// ```
/// # use batcher::validator::{Validator, Write, WroteError};
/// # fn confirm(running: &mut Validator<Vec<u8>>, write: Write) -> Result<(), WroteError> {
/// running.wrote(write)
/// # }
/// ```
#[cfg(doctest)]
struct Confirmed;

/// Why a write isn't confirmed.
#[non_exhaustive]
#[derive(Clone, Copy, Debug, PartialEq, Eq, Hash)]
pub enum WroteError {
    /// Another validator gave it, as one that has started again since.
    OtherLife,
    /// The files of which the validator was made don't have it: [`Files::write`](crate::Files::write)
    /// wasn't called with it, or failed. Start again by the files.
    NotWritten,
}

impl fmt::Display for WroteError {
    fn fmt(&self, f: &mut fmt::Formatter<'_>) -> fmt::Result {
        match self {
            WroteError::OtherLife => f.write_str("another validator gave this to be written"),
            WroteError::NotWritten => f.write_str("the files don't have this"),
        }
    }
}

impl std::error::Error for WroteError {}

/// Why a certificate isn't shown.
#[non_exhaustive]
#[derive(Clone, Copy, Debug, PartialEq, Eq, Hash)]
pub enum KeptError {
    /// Memory was refused. The same call may succeed later.
    OutOfMemory,
    /// Something that the validator did isn't written yet, so the certificate may have a vote of its
    /// own that the disk lacks. Ask again after [`Validator::wrote`].
    NotWritten,
}

impl fmt::Display for KeptError {
    fn fmt(&self, f: &mut fmt::Formatter<'_>) -> fmt::Result {
        match self {
            KeptError::OutOfMemory => f.write_str("out of memory"),
            KeptError::NotWritten => f.write_str("not written yet"),
        }
    }
}

impl std::error::Error for KeptError {}

impl From<OutOfMemory> for KeptError {
    fn from(_: OutOfMemory) -> Self {
        KeptError::OutOfMemory
    }
}

/// One of the validators that this program has made, and whether it began.
#[derive(Clone, Copy, Debug, PartialEq, Eq, Hash)]
pub(crate) struct Life {
    number: u64,
    pub(crate) begins: bool,
}

impl Life {
    fn next(begins: bool) -> Self {
        static LIVES: AtomicU64 = AtomicU64::new(0);
        let number = LIVES.fetch_add(1, Ordering::Relaxed);
        Life { number, begins }
    }
}

/// Attestations of one subject, on each of which a verdict is wanted. It is plain data: it may go
/// to another thread, and the validator goes on meanwhile.
#[derive(Clone, Debug)]
pub struct Wanted<G> {
    subject: Subject,
    message: Vec<u8>,
    attestations: Vec<Attestation<G>>,
    /// None where they aren't of a construction.
    stamp: Option<Stamp>,
}

/// By this the library knows again what it has handed out. Each validator counts from 0 on, so a
/// number is of one life.
#[derive(Clone, Copy, Debug)]
struct Stamp {
    life: Life,
    number: u64,
}

impl<G> Wanted<G> {
    /// What they are to attest to.
    pub fn subject(&self) -> &Subject {
        &self.subject
    }

    /// The bytes of that, on which their signatures are: its [message](Validator::message).
    pub fn message(&self) -> &[u8] {
        &self.message
    }

    /// The attestations, each of another participant.
    pub fn attestations(&self) -> &[Attestation<G>] {
        &self.attestations
    }
}

/// A certificate as a validator sends it: the bytes are the list of its attestations.
pub type Listed = Certificate<Vec<u8>>;

/// What is to be done. Each is given once.
#[must_use = "it isn't given again"]
#[non_exhaustive]
#[derive(Debug)]
pub enum Task<G> {
    /// Write this to the disk, and say so by [`Validator::wrote`] once it lasts. Before that no other
    /// write is given, nothing is given to be sent or signed, and nothing is final.
    Write(Write),
    /// Block this participant: drop what it sends, and close its connection.
    Block(Participant, Cause),
    /// This proposal is final, and so are those that it builds on. Its finalization is written.
    Final(Proposal),
    /// Send this vote to all others.
    SendVote(Vote<G>),
    /// Send this certificate to all others.
    SendCertificate(Listed),
    /// Send the payload of this proposal, which is notarized, to these participants, which may lack it:
    /// neither a vote that came shows that they have it, nor the notarization. The validator has it
    /// itself, as its own vote shows.
    Forward(Proposal, Vec<Participant>),
    /// This view is entered: start its timer. Once it is over, say so by [`Validator::expire`].
    /// Where its leader is blocked here, or absent, the view is given up already.
    Enter {
        /// The view.
        view: View,
        /// Who leads it.
        leader: Participant,
    },
    /// Find out which of these attest, and say so by [`Validator::conclude`].
    Verify(Wanted<G>),
    /// Sign this with the key of the validator, and say so by [`Validator::signed`].
    Sign(Subject),
    /// Make the payload of a proposal, and say so by [`Validator::propose`].
    Propose {
        /// The view that it is for.
        view: View,
        /// The view of the proposal that it builds on.
        parent: View,
    },
    /// Find out whether this proposal is valid, and say so by [`Validator::judge`].
    Judge(Proposal),
}

/// A view is final three views later at most, where nothing goes wrong.
const USUAL: u64 = 3;

/// How often the time of a view doubles at most.
const MOST_DOUBLED: u64 = 4;

/// How long the timer of a view is, where `base` is enough for one while all is well and `last` is the
/// last view that is final. It doubles with each view beyond the usual three that isn't, up to sixteen
/// times `base`, so that a network gets slow enough for its timers.
///
/// ```
/// use batcher::View;
/// use batcher::validator::timeout;
/// use std::time::Duration;
///
/// let base = Duration::from_millis(250);
/// let of = |view| timeout(base, View::new(10), View::new(view)).as_millis();
/// assert_eq!([11, 12, 13, 14, 15].map(of), [250, 250, 250, 500, 1000]);
/// assert_eq!(of(10_000), 4000);
/// ```
pub fn timeout(base: Duration, last: View, view: View) -> Duration {
    let usual = last.get().saturating_add(USUAL);
    let doubled = view.get().saturating_sub(usual).min(MOST_DOUBLED);
    base.saturating_mul(1 << doubled)
}

/// A validator, which votes for one participant in one epoch.
///
/// What it does is the proved library's. It stays on the thread on which it was made.
pub struct Validator<G> {
    library: validators::Validator,
    pub(crate) life: Life,
    leader: Box<dyn Leads>,
    epoch: Epoch,
    me: Participant,
    participants: u32,
    // How many bytes are signed at most.
    most_bytes: u64,
    // The library's last task, and whether it isn't handed out yet, or there may be more of it.
    task: validators::Task,
    waits: bool,
    // Where the library lists attestations.
    list: Vec<ffi::Attestation>,
    // What is listed there and isn't handed out yet, since memory was refused for it, and the number
    // of its stamp.
    lent: Option<(ffi::Step, u64)>,
    // Where the library answers to a vote.
    answer: ffi::Admission,
    // The last view that was entered.
    entered: View,
    // How many writes were given, and how many of them last.
    writes: u64,
    written: u64,
    // What is final once the write of this number lasts, which has its finalization.
    held: Option<(Proposal, u64)>,
    // Whether it was made of the crate's files, which write what it gives.
    pub(crate) has_files: bool,
    signatures: PhantomData<G>,
}

impl<G: Clone + AsRef<[u8]> + for<'b> TryFrom<&'b [u8]>> Validator<G> {
    /// A validator of whose participant nothing was ever signed in the epoch. Its disk has no
    /// bytes, and is a store in the place of [`Files`](crate::Files): by these it begins with
    /// [`NewFiles::begin`](crate::NewFiles::begin) alone. `leader` says who leads each view, and
    /// always says the same.
    ///
    /// Who lost the disk of a validator doesn't begin it again in the same epoch: it could sign what
    /// contradicts what it signed before.
    ///
    /// # Errors
    ///
    /// `UnknownParticipant`, `TooMany` and `OutOfMemory`.
    pub fn begin(
        options: &Options,
        leader: impl Fn(View) -> Participant + 'static,
    ) -> Result<Self, StartError> {
        Validator::of(options, leader, true, &[], &[])
    }

    /// The validator whose disk has these bytes, all that it had written. It goes on from there.
    ///
    /// Before that the votes are verified that its disk shows, which are sent again: its own, and those
    /// that its certificates list. `verify` finds out which attest, one verdict for each. It is called
    /// for each of its own, and for those of a certificate.
    ///
    /// # Errors
    ///
    /// What is on the disk isn't this validator's, a signature there isn't good, the options are out
    /// of bounds, or memory is refused.
    ///
    /// # Panics
    ///
    /// Where there isn't one verdict for each.
    pub fn start(
        options: &Options,
        leader: impl Fn(View) -> Participant + 'static,
        disk: &[u8],
        mut verify: impl FnMut(&Wanted<G>) -> Vec<bool>,
    ) -> Result<Self, StartError> {
        let verdicts = verify_disk(options, disk, &mut verify)?;
        Validator::of(options, leader, false, disk, &verdicts)
    }

    /// What is listed, to be verified.
    fn wanted(
        &self,
        subject: Subject,
        list: &[ffi::Attestation],
        stamp: Option<Stamp>,
    ) -> Result<Wanted<G>, VoteError> {
        Ok(Wanted {
            attestations: attestations_of(list)?,
            message: self.message(&subject)?,
            subject,
            stamp,
        })
    }

    fn of(
        options: &Options,
        leader: impl Fn(View) -> Participant + 'static,
        begins: bool,
        disk: &[u8],
        verdicts: &[bool],
    ) -> Result<Self, StartError> {
        let flat = flat_options(options, begins);
        let library = validators::Validator::start(&flat, options.namespace, disk, verdicts)
            .map_err(|answer| start_error(answer, options))?;
        let mut list = Vec::new();
        let none = ffi::Attestation::default();
        reserve_each(&mut list, options.participants, none).map_err(|_| StartError::OutOfMemory)?;
        let mut most_bytes = 0;
        let none = ffi::Proposal::default();
        // There is no room, so it says how many they are.
        let answer = library.message(code::NOTARIZATION, &none, &mut Vec::new(), &mut most_bytes);
        debug_assert_eq!(answer, code::SHORT);
        Ok(Validator {
            library,
            life: Life::next(begins),
            leader: boxed(leader).map_err(|_| StartError::OutOfMemory)?,
            epoch: options.epoch,
            me: options.me,
            participants: options.participants,
            most_bytes,
            task: validators::Task::default(),
            waits: false,
            list,
            lent: None,
            answer: ffi::Admission::default(),
            entered: View::zero(),
            writes: 0,
            written: 0,
            held: None,
            has_files: false,
            signatures: PhantomData,
        })
    }

    /// What is to be done next. None where nothing is, until something comes: a message, an answer,
    /// or the end of a write.
    ///
    /// # Errors
    ///
    /// `Closed`, after which the validator is started again by its disk. After `OutOfMemory` the
    /// same call can be made again. `NoLeader`, until `leader` names a participant: meanwhile nothing
    /// else is given.
    pub fn poll(&mut self) -> Result<Option<Task<G>>, PollError> {
        if let Some((proposal, _)) = self.held.take_if(|it| it.1 < self.written) {
            return Ok(Some(Task::Final(proposal)));
        }
        loop {
            if !self.waits {
                match self.library.poll(&mut self.task) {
                    code::DONE => self.waits = true,
                    code::WRITE => return Ok(self.give()?.map(Task::Write)),
                    code::IDLE => return Ok(None),
                    code::OUT_OF_MEMORY => return Err(PollError::OutOfMemory),
                    code::FULL => return Err(PollError::Full),
                    code::CLOSED => return Err(PollError::Closed),
                    other => unknown(other),
                }
            }
            if self.rests_on_a_write() {
                return Ok(self.give()?.map(Task::Write));
            }
            let task = self.handed_out()?;
            self.waits = matches!(task, Some(Task::Verify(_)));
            if task.is_some() {
                return Ok(task);
            }
        }
    }

    /// Whether the task that waits shows a certificate, and something isn't written that was done
    /// since it was given. Memory was refused for it then.
    fn rests_on_a_write(&self) -> bool {
        let flat = &self.task;
        let shows = [code::TASK_SEND_CERTIFICATE, code::TASK_FORWARD].contains(&flat.task);
        shows && self.is_unwritten(flat.kind)
    }

    /// Whether the certificate of the task and of this kind isn't shown yet, since something isn't
    /// written.
    fn is_unwritten(&self, kind: u8) -> bool {
        let (mut proposal, mut count) = (self.task.proposal, 0);
        let kept = self
            .library
            .kept(kind, &mut proposal, &mut Vec::new(), &mut count);
        kept == code::NOT_WRITTEN
    }

    /// The task that waits, unless it is done here.
    fn handed_out(&mut self) -> Result<Option<Task<G>>, PollError> {
        let flat = &self.task;
        Ok(Some(match flat.task {
            code::TASK_BLOCK => {
                Task::Block(Participant::new(flat.participant), cause_of(flat.cause))
            }
            code::TASK_FINAL => {
                let proposal = proposal_of(&flat.proposal);
                // The write that comes next has what makes it final.
                if self.is_unwritten(kind_code(Kind::Finalization)) {
                    self.held = Some((proposal, self.writes));
                    return Ok(None);
                }
                Task::Final(proposal)
            }
            // It was verified as this validator was started.
            code::TASK_CAST => match self.library.cast(&flat.vote, true) {
                code::OUT_OF_MEMORY => return Err(PollError::OutOfMemory),
                _ => return Ok(None),
            },
            code::TASK_SEND_VOTE => Task::SendVote(vote_of(&flat.vote)?),
            code::TASK_SEND_CERTIFICATE => {
                let kind = kind_of(flat.kind);
                match self.kept(kind, round_of(&flat.proposal))? {
                    Some(certificate) => Task::SendCertificate(certificate),
                    None => return Ok(None),
                }
            }
            code::TASK_ENTER => {
                let view = View::new(flat.proposal.view);
                let leader = self.leader.leader(view);
                match self.library.enter(view.get(), leader.get()) {
                    code::OUT_OF_MEMORY => return Err(PollError::OutOfMemory),
                    code::UNKNOWN => return Err(PollError::NoLeader(view, leader)),
                    _ => {
                        self.entered = view;
                        Task::Enter { view, leader }
                    }
                }
            }
            code::TASK_VERIFY => return Ok(self.lend()?.map(Task::Verify)),
            code::TASK_SIGN => Task::Sign(subject_of(kind_of(flat.kind), &flat.proposal)),
            code::TASK_PROPOSE => Task::Propose {
                view: View::new(flat.proposal.view),
                parent: View::new(flat.proposal.parent),
            },
            code::TASK_JUDGE => Task::Judge(proposal_of(&flat.proposal)),
            code::TASK_FORWARD => return self.forward(round_of(&flat.proposal)),
            other => unknown(other),
        }))
    }

    /// Who isn't known to have the payload that is notarized in a round, where this validator has it.
    fn forward(&self, round: Round) -> Result<Option<Task<G>>, PollError> {
        let made = self.subject_certified(Kind::Notarization, round);
        let Some(proposal) = made.and_then(|it| it.proposal()) else {
            return Ok(None);
        };
        let (mut list, mut count) = (Vec::new(), 0);
        reserve_each(&mut list, self.participants, 0)?;
        match self
            .library
            .lacking(&flat_proposal(&proposal), &mut list, &mut count)
        {
            code::DONE => list.truncate(count as usize),
            // Nothing else is known of the view, as after a start.
            code::IDLE => list = self.unlisted(round)?,
            code::OUT_OF_MEMORY => return Err(PollError::OutOfMemory),
            other => unknown(other),
        }
        let mut to = Vec::new();
        reserve(&mut to, list.len())?;
        to.extend(list.into_iter().map(Participant::new));
        let has_it = !to.contains(&self.me);
        Ok((has_it && !to.is_empty()).then_some(Task::Forward(proposal, to)))
    }

    /// Who isn't in the notarization of a round.
    fn unlisted(&self, round: Round) -> Result<Vec<u32>, PollError> {
        let mut others = Vec::new();
        let Some(Certificate::Notarization(made)) = self.kept(Kind::Notarization, round)? else {
            return Ok(others);
        };
        let listed = self.listing(&made.certificate)?.unwrap_or_default();
        reserve(&mut others, self.participants as usize)?;
        let is_listed = |it: &u32| listed.iter().any(|attestation| attestation.signer == *it);
        others.extend((0..self.participants).filter(|it| !is_listed(it)));
        Ok(others)
    }

    /// What is to be written, where no write is under way.
    fn give(&mut self) -> Result<Option<Write>, PollError> {
        let (mut count, mut replaces) = (0, false);
        let (mut bytes, number) = (Vec::new(), self.writes);
        loop {
            match self
                .library
                .give(number, &mut bytes, &mut count, &mut replaces)
            {
                code::DONE => {
                    self.writes += 1;
                    return Ok(Some(Write {
                        replaces,
                        bytes,
                        life: self.life,
                        number,
                        is_written: AtomicBool::new(false),
                    }));
                }
                code::IDLE => return Ok(None),
                code::SHORT => reserve_bytes(&mut bytes, count)?,
                other => unknown(other),
            }
        }
    }

    /// What is to be verified next. None where nothing is left, or where the library has verdicts
    /// on all that the next construction looks at, and has made it.
    fn lend(&mut self) -> Result<Option<Wanted<G>>, PollError> {
        let (step, number) = match self.lent {
            Some(lent) => lent,
            None => {
                let (mut step, mut number) = (ffi::Step::default(), 0);
                match self.library.lend(&mut step, &mut number, &mut self.list) {
                    code::VERIFY => *self.lent.insert((step, number)),
                    code::DONE | code::IDLE => return Ok(None),
                    code::OUT_OF_MEMORY => return Err(PollError::OutOfMemory),
                    other => unknown(other),
                }
            }
        };
        let subject = subject_of(kind_of(step.kind), &step.proposal);
        let (life, list) = (self.life, &self.list[..step.listed as usize]);
        let wanted = self.wanted(subject, list, Some(Stamp { life, number }))?;
        self.lent = None;
        Ok(Some(wanted))
    }

    /// This is written, so that a crash leaves it, and so is no more: what came since it was given is
    /// given next. Then poll. Where a write failed, start again by the disk.
    ///
    /// # Errors
    ///
    /// `OtherLife`, where another validator gave it, as before a start by the same disk. `NotWritten`,
    /// where this one was made of [`Files`](crate::Files), and they don't have it. Nothing changes.
    pub fn wrote(&mut self, write: Write) -> Result<(), WroteError> {
        if write.life != self.life {
            return Err(WroteError::OtherLife);
        }
        if self.has_files && !write.is_written.load(Ordering::Relaxed) {
            return Err(WroteError::NotWritten);
        }
        match self.library.wrote(write.number) {
            code::DONE => {
                self.written = write.number + 1;
                Ok(())
            }
            // It is the one that is under way, since there is no other, and it was there once.
            other => unknown(other),
        }
    }

    /// Takes in a vote that this participant sent, as the transport has authenticated it. Then
    /// poll.
    ///
    /// # Errors
    ///
    /// `OutOfMemory`, after which the same call can be made again. `SignatureBytes`, where a
    /// signature has more than 96 bytes.
    pub fn vote(
        &mut self,
        sender: Participant,
        vote: &Vote<G>,
    ) -> Result<Receipt<Admission<G>>, VoteError> {
        let flat = flat_vote(vote)?;
        match self
            .library
            .vote(u64::from(sender.get()), &flat, &mut self.answer)
        {
            code::DONE => Ok(Receipt::Answered(Admission {
                added: self.answer.added,
                block: block_of(self.answer.block),
                report: report_of(&self.answer, vote)?,
            })),
            code::ELSEWHERE => Ok(Receipt::Outside),
            code::DROPPED => Ok(Receipt::Dropped),
            code::UNKNOWN => Ok(Receipt::Unknown),
            code::OUT_OF_MEMORY => Err(VoteError::OutOfMemory),
            other => unknown(other),
        }
    }

    /// The attestations that a certificate is made of: of a quorum of different participants. It
    /// certifies where each attests its subject. None where it is no such list, or has a signature
    /// that is none of the scheme's.
    ///
    /// # Errors
    ///
    /// `OutOfMemory`.
    pub fn attestations(&self, certificate: &Listed) -> Result<Option<Wanted<G>>, OutOfMemory> {
        match self.listing(certificate.content())? {
            Some(list) => self.wanted_of(certificate.subject(), &list),
            None => Ok(None),
        }
    }

    /// What becomes of a certificate of this participant that isn't looked at.
    pub(crate) fn unwanted(
        &self,
        sender: Participant,
        certificate: &Listed,
    ) -> Option<Receipt<Verdict>> {
        let (subject, peer) = (certificate.subject(), u64::from(sender.get()));
        let kind = kind_code(subject.kind());
        match self.library.wants(peer, kind, &flat_subject(&subject)) {
            code::DONE => None,
            code::KNOWN => Some(Receipt::Answered(Verdict::Known)),
            code::ELSEWHERE => Some(Receipt::Outside),
            code::DROPPED => Some(Receipt::Dropped),
            code::UNKNOWN => Some(Receipt::Unknown),
            other => unknown(other),
        }
    }

    /// The list that the bytes of a certificate are.
    fn listing(&self, bytes: &[u8]) -> Result<Option<Vec<ffi::Attestation>>, OutOfMemory> {
        let (mut list, mut count) = (Vec::new(), 0);
        reserve_each(&mut list, self.participants, ffi::Attestation::default())?;
        match self.library.listed(bytes, &mut list, &mut count) {
            code::VERIFY => {
                list.truncate(count as usize);
                Ok(Some(list))
            }
            code::FORGED => Ok(None),
            code::OUT_OF_MEMORY => Err(OutOfMemory),
            other => unknown(other),
        }
    }

    /// What is listed, to be verified, if each signature is one of the scheme's.
    fn wanted_of(
        &self,
        subject: Subject,
        list: &[ffi::Attestation],
    ) -> Result<Option<Wanted<G>>, OutOfMemory> {
        match self.wanted(subject, list, None) {
            Ok(wanted) => Ok(Some(wanted)),
            Err(VoteError::SignatureBytes) => Ok(None),
            Err(VoteError::OutOfMemory) => Err(OutOfMemory),
        }
    }

    /// Takes in a certificate that this participant sent. `verify` finds out which of the
    /// [attestations](Validator::attestations) that it is made of attest, one verdict for each. It isn't
    /// called where the certificate isn't looked at. Then poll.
    ///
    /// One from beyond the window is learned too: by it a validator that fell behind goes on. Who
    /// forges is given to be blocked, whatever the view, and is dropped from then on.
    ///
    /// # Errors
    ///
    /// `OutOfMemory`, after which the same call can be made again.
    ///
    /// # Panics
    ///
    /// Where there isn't one verdict for each.
    pub fn certificate(
        &mut self,
        sender: Participant,
        certificate: &Listed,
        verify: impl FnOnce(&Wanted<G>) -> Vec<bool>,
    ) -> Result<Receipt<Verdict>, OutOfMemory> {
        if let Some(receipt) = self.unwanted(sender, certificate) {
            return Ok(receipt);
        }
        let subject = certificate.subject();
        let (peer, kind) = (u64::from(sender.get()), kind_code(subject.kind()));
        let flat = flat_subject(&subject);
        let bytes = certificate.content();
        let mut verdicts = Vec::new();
        if let Some(list) = self.listing(bytes)? {
            match self.wanted_of(subject, &list)? {
                Some(wanted) => verdicts = verdicts_on(&wanted, verify),
                // One of them attests nothing, so it certifies nothing.
                None => {
                    reserve(&mut verdicts, list.len())?;
                    verdicts.resize(list.len(), false);
                }
            }
        }
        match self
            .library
            .certificate(peer, kind, &flat, bytes, &verdicts)
        {
            code::DONE => Ok(Receipt::Answered(Verdict::Recorded)),
            code::KNOWN => Ok(Receipt::Answered(Verdict::Known)),
            code::FORGED => Ok(Receipt::Answered(Verdict::Forged)),
            code::ELSEWHERE => Ok(Receipt::Outside),
            code::DROPPED => Ok(Receipt::Dropped),
            code::UNKNOWN => Ok(Receipt::Unknown),
            code::OUT_OF_MEMORY => Err(OutOfMemory),
            other => unknown(other),
        }
    }

    /// Which of the attestations attest, one verdict for each. Then poll. They may come late, and
    /// lists may be answered in any order. True where a construction is made by them.
    ///
    /// Else they are kept, as where another one is made first, or where a vote came meanwhile. They
    /// count for nothing where another validator handed this out, as before a start by the same
    /// disk, or where nothing is awaited on it any more.
    ///
    /// # Errors
    ///
    /// `OutOfMemory`, after which the same call can be made again.
    ///
    /// # Panics
    ///
    /// Where there isn't one verdict for each.
    pub fn conclude(&mut self, wanted: &Wanted<G>, verdicts: &[bool]) -> Result<bool, VoteError> {
        assert_eq!(wanted.attestations.len(), verdicts.len(), "{ONE_EACH}");
        let number = match wanted.stamp {
            Some(stamp) if stamp.life == self.life => stamp.number,
            _ => return Ok(false),
        };
        let (view, kind) = (wanted.subject.round().view, wanted.subject.kind());
        match self
            .library
            .conclude(view.get(), kind_code(kind), number, verdicts)
        {
            code::DONE => Ok(true),
            code::IDLE | code::STALE => Ok(false),
            code::OUT_OF_MEMORY => Err(VoteError::OutOfMemory),
            other => unknown(other),
        }
    }

    /// The signature of what was given to be signed. `verify` finds out whether it attests, one
    /// verdict on the one attestation: a signer may err, and all would block this validator for it.
    /// The vote is given to be sent once it is written. Where it isn't, [`Signed`] says why. Then poll.
    ///
    /// # Errors
    ///
    /// `OutOfMemory`, after which the same call can be made again. `NotVerified`, where it doesn't
    /// attest, and `SignatureBytes`, where a signature has more than 96 bytes. Nothing is written
    /// then, and another vote may be given to be signed. This one is again after [`Validator::expire`].
    ///
    /// # Panics
    ///
    /// Where there isn't one verdict.
    pub fn signed(
        &mut self,
        subject: Subject,
        signature: &G,
        verify: impl FnOnce(&Wanted<G>) -> Vec<bool>,
    ) -> Result<Signed, SignError> {
        let vote = Vote::new(subject, Attestation::new(self.me, signature.clone()));
        let (flat, wanted) = match self.to_cast(&vote) {
            Ok(it) => it,
            Err(error) => {
                if error == VoteError::SignatureBytes {
                    self.refuse(&subject);
                }
                return Err(error.into());
            }
        };
        Ok(match self.library.cast(&flat, attest(&wanted, verify)) {
            code::DONE => Signed::Written,
            code::KNOWN => Signed::Known,
            code::SIGNED => Signed::Other,
            code::REFUSED => Signed::Refused,
            code::ELSEWHERE => Signed::Outside,
            code::FULL => Signed::Full,
            code::CLOSED => Signed::Closed,
            code::NOT_VERIFIED => return Err(SignError::NotVerified),
            code::OUT_OF_MEMORY => return Err(SignError::OutOfMemory),
            other => Signed::Excluded(own_fault(other)),
        })
    }

    /// An own vote as the library takes it, and its attestation as it is made of these bytes.
    fn to_cast(&self, vote: &Vote<G>) -> Result<(ffi::Vote, Wanted<G>), VoteError> {
        let flat = flat_vote(vote)?;
        let list = std::slice::from_ref(&flat.attestation);
        let wanted = self.wanted(vote.subject(), list, None)?;
        Ok((flat, wanted))
    }

    /// The own signature for this as it is written, to be verified.
    pub(crate) fn to_verify(
        &self,
        subject: Subject,
        signature: &G,
    ) -> Result<Wanted<G>, VoteError> {
        let vote = Vote::new(subject, Attestation::new(self.me, signature.clone()));
        Ok(self.to_cast(&vote)?.1)
    }

    /// Who leads a view.
    pub(crate) fn leader(&self, view: View) -> Participant {
        self.leader.leader(view)
    }

    /// There is no signature for this.
    pub(crate) fn refuse(&mut self, subject: &Subject) {
        let none = ffi::Vote {
            proposal: flat_subject(subject),
            attestation: ffi::Attestation {
                signer: self.me.get(),
                ..ffi::Attestation::default()
            },
            kind: kind_code(subject.kind()),
        };
        let answer = self.library.cast(&none, false);
        debug_assert_eq!(answer, code::NOT_VERIFIED);
    }

    /// The bytes to sign for a subject, and to verify a signature on it: no other subject has the
    /// same ones, and none in another namespace.
    ///
    /// # Errors
    ///
    /// `OutOfMemory`.
    pub fn message(&self, subject: &Subject) -> Result<Vec<u8>, OutOfMemory> {
        let (mut bytes, mut count) = (Vec::new(), 0);
        reserve_bytes(&mut bytes, self.most_bytes)?;
        loop {
            match self.ask_message(subject, &mut bytes, &mut count) {
                code::DONE => return Ok(bytes),
                code::SHORT => reserve_bytes(&mut bytes, count)?,
                other => unknown(other),
            }
        }
    }

    /// Has the library write the bytes to sign, if there is room for them.
    fn ask_message(&self, subject: &Subject, bytes: &mut Vec<u8>, count: &mut u64) -> u8 {
        let kind = kind_code(subject.kind());
        self.library
            .message(kind, &flat_subject(subject), bytes, count)
    }

    /// Proposes this payload in a view, on the proposal of the view `parent`. Then poll.
    pub fn propose(&mut self, view: View, parent: View, payload: Sha256Digest) {
        let round = Round::new(self.epoch, view);
        self.judge(&Proposal::new(round, parent, payload), true);
    }

    /// Whether a proposal is valid. Of one that isn't, the view is given up. Then poll.
    pub fn judge(&mut self, proposal: &Proposal, valid: bool) {
        // By its contract the library answers nothing else.
        let answer = self.library.judge(&flat_proposal(proposal), valid);
        debug_assert_eq!(answer, code::DONE);
    }

    /// The time of a view is over, for the first time or again. It is given up, unless its proposal
    /// is notarized, and a part of what was sent is given to be sent again: own votes of the current
    /// view, the finalization of the final view, the certificates of the two newest views, and in
    /// turn those of four others. Then poll. How far the view is says why it takes so long.
    pub fn expire(&mut self, view: View) -> Progress {
        let mut flat = validators::Progress::default();
        let answer = self.library.expire(view.get(), &mut flat);
        debug_assert_eq!(answer, code::DONE);
        self.progress_of(&flat)
    }

    /// How far a view is, and so why it takes so long. Nothing changes by it.
    pub fn progress(&self, view: View) -> Progress {
        let mut flat = validators::Progress::default();
        let answer = self.library.progress(view.get(), &mut flat);
        debug_assert_eq!(answer, code::DONE);
        self.progress_of(&flat)
    }

    fn progress_of(&self, flat: &validators::Progress) -> Progress {
        Progress {
            leader: flat.has_leader.then(|| Participant::new(flat.leader)),
            has_proposal: flat.has_proposal,
            notarizes: counts_of(&flat.notarizes),
            nullifies: counts_of(&flat.nullifies),
            finalizes: counts_of(&flat.finalizes),
            quorum: quorum(self.participants),
        }
    }

    /// The view that it is in, also before the first poll: the highest that was entered or is final.
    /// It is view 0 where there is none yet.
    pub fn view(&self) -> View {
        self.views().0
    }

    /// The highest view that is final, which [`Task::Final`] may not have named yet. It is view 0 where
    /// there is none yet.
    pub fn last_final(&self) -> View {
        self.views().1
    }

    fn views(&self) -> (View, View) {
        let (mut current, mut last) = (0, 0);
        let answer = self.library.views(&mut current, &mut last);
        debug_assert_eq!(answer, code::DONE);
        (View::new(current), View::new(last))
    }

    /// Whether this participant is blocked, so that nothing it sends is looked at. One that takes no
    /// part is none.
    pub fn blocked(&self, participant: Participant) -> bool {
        let hears = || self.library.hears(u64::from(participant.get()));
        participant.get() < self.participants && hears() == code::DROPPED
    }

    /// The proposal of a view that is notarized or final. The parent of another is named by its view.
    /// None of views before the final one, nor of the start, which view 0 is.
    pub fn certified(&self, view: View) -> Option<Proposal> {
        let round = Round::new(self.epoch, view);
        [Kind::Notarization, Kind::Finalization]
            .into_iter()
            .find_map(|kind| self.subject_certified(kind, round)?.proposal())
    }

    /// Whether a certificate of this kind and round is known, and kept: no other one is wanted.
    pub fn has_certificate(&self, kind: Kind, round: Round) -> bool {
        self.subject_certified(kind, round).is_some()
    }

    fn subject_certified(&self, kind: Kind, round: Round) -> Option<Subject> {
        let mut flat = flat_round(&round);
        match self.library.certified(kind_code(kind), &mut flat) {
            code::DONE => Some(subject_of(kind, &flat)),
            code::IDLE => None,
            other => unknown(other),
        }
    }

    /// The certificate of this kind and round, if it is kept: those are from the final view on. Send
    /// them to who fell behind.
    ///
    /// # Errors
    ///
    /// `OutOfMemory`, and `NotWritten` where it may have an own vote that isn't on the disk.
    pub fn kept(&self, kind: Kind, round: Round) -> Result<Option<Listed>, KeptError> {
        let (mut flat, mut count) = (flat_round(&round), 0);
        let mut bytes = Vec::new();
        loop {
            match self
                .library
                .kept(kind_code(kind), &mut flat, &mut bytes, &mut count)
            {
                code::DONE => {
                    return Ok(Some(Certificate::new(subject_of(kind, &flat), bytes)));
                }
                code::IDLE => return Ok(None),
                code::SHORT => reserve_bytes(&mut bytes, count)?,
                code::NOT_WRITTEN => return Err(KeptError::NotWritten),
                other => unknown(other),
            }
        }
    }
}

/// Whether each attests, as the verifier says.
fn verdicts_on<G>(wanted: &Wanted<G>, verify: impl FnOnce(&Wanted<G>) -> Vec<bool>) -> Vec<bool> {
    let verdicts = verify(wanted);
    assert_eq!(wanted.attestations.len(), verdicts.len(), "{ONE_EACH}");
    verdicts
}

/// Whether all attest.
fn attest<G>(wanted: &Wanted<G>, verify: impl FnOnce(&Wanted<G>) -> Vec<bool>) -> bool {
    verdicts_on(wanted, verify).iter().all(|attests| *attests)
}

impl<G> fmt::Debug for Validator<G> {
    fn fmt(&self, f: &mut fmt::Formatter<'_>) -> fmt::Result {
        f.debug_struct("Validator")
            .field("epoch", &self.epoch)
            .field("me", &self.me)
            .field("entered", &self.entered)
            .finish_non_exhaustive()
    }
}

/// Who leads each view.
trait Leads {
    fn leader(&self, view: View) -> Participant;
}

/// One function in an array, since a list takes memory that may be refused, and a box doesn't.
impl<F: Fn(View) -> Participant> Leads for [F; 1] {
    fn leader(&self, view: View) -> Participant {
        self[0](view)
    }
}

fn boxed(leader: impl Fn(View) -> Participant + 'static) -> Result<Box<dyn Leads>, OutOfMemory> {
    let mut one = Vec::new();
    one.try_reserve_exact(1).map_err(|_| OutOfMemory)?;
    one.push(leader);
    match <Box<[_; 1]>>::try_from(one.into_boxed_slice()) {
        Ok(one) => Ok(one),
        Err(_) => unreachable!("it has one"),
    }
}

fn counts_of(flat: &validators::Counts) -> Counts {
    Counts {
        pending: flat.pending,
        verified: flat.verified,
        certified: flat.certified,
    }
}

fn start_error(answer: u8, options: &Options) -> StartError {
    match answer {
        code::OUT_OF_MEMORY => StartError::OutOfMemory,
        code::MALFORMED if options.me.get() < options.participants => StartError::TooMany,
        code::MALFORMED => StartError::UnknownParticipant,
        code::NOT_BEGUN => StartError::NotBegun,
        code::OTHER_VERSION => StartError::OtherVersion,
        code::OTHER_OWNER => StartError::OtherOwner,
        code::DAMAGED => StartError::Damaged,
        code::NOT_VERIFIED => StartError::NotVerified,
        other => unknown(other),
    }
}

fn flat_options(options: &Options, begins: bool) -> validators::ValidatorOptions {
    validators::ValidatorOptions {
        epoch: options.epoch.get(),
        ahead: options.ahead,
        participants: options.participants,
        participant: options.me.get(),
        keys: options.keys,
        track_historical_votes: options.track_historical_votes,
        begins,
    }
}

/// Has each vote verified that a disk shows, and gives a verdict on each. Its own, which come first, are
/// verified one by one, and of the others those at once that are of one subject.
fn verify_disk<G: for<'b> TryFrom<&'b [u8]>>(
    options: &Options,
    disk: &[u8],
    verify: &mut impl FnMut(&Wanted<G>) -> Vec<bool>,
) -> Result<Vec<bool>, StartError> {
    let shown = shown_by(options, disk)?;
    let mut verdicts = Vec::new();
    reserve(&mut verdicts, shown.len()).map_err(|_| StartError::OutOfMemory)?;
    let (own, mut left) = shown.split_at(own_votes(&shown, options.me));
    for vote in own {
        let wanted = wanted_on(options.namespace, std::slice::from_ref(vote))?;
        verdicts.extend(verdicts_on(&wanted, &mut *verify));
    }
    while !left.is_empty() {
        let (votes, others) = left.split_at(together(left));
        let wanted = wanted_on(options.namespace, votes)?;
        verdicts.extend(verdicts_on(&wanted, &mut *verify));
        left = others;
    }
    Ok(verdicts)
}

/// The votes that a disk shows: its own, and those that its certificates list.
fn shown_by(options: &Options, disk: &[u8]) -> Result<Vec<ffi::Vote>, StartError> {
    let (flat, mut votes, mut count) = (flat_options(options, false), Vec::new(), 0);
    loop {
        match validators::Validator::disk(&flat, options.namespace, disk, &mut votes, &mut count) {
            code::DONE => return Ok(votes),
            code::SHORT => {
                let count = usize::try_from(count).map_err(|_| StartError::OutOfMemory)?;
                reserve(&mut votes, count).map_err(|_| StartError::OutOfMemory)?;
                votes.resize(count, ffi::Vote::default());
            }
            other => return Err(start_error(other, options)),
        }
    }
}

/// How many of the first votes are its own. It has none twice, so one that is there again is of a
/// certificate.
fn own_votes(votes: &[ffi::Vote], me: Participant) -> usize {
    let ends = |at: &usize| {
        let vote = &votes[*at];
        let subject = subject_voted(vote);
        vote.attestation.signer != me.get()
            || votes[..*at].iter().any(|it| subject_voted(it) == subject)
    };
    (0..votes.len()).find(ends).unwrap_or(votes.len())
}

/// How many of the first votes are of one subject, each of another participant.
fn together(votes: &[ffi::Vote]) -> usize {
    let subject = subject_voted(&votes[0]);
    let ends = |at: &usize| {
        let (before, vote) = (&votes[..*at], &votes[*at]);
        let signer = vote.attestation.signer;
        subject_voted(vote) != subject || before.iter().any(|it| it.attestation.signer == signer)
    };
    (1..votes.len()).find(ends).unwrap_or(votes.len())
}

fn subject_voted(vote: &ffi::Vote) -> Subject {
    subject_of(kind_of(vote.kind), &vote.proposal)
}

/// What these votes attest, all of one subject, to be verified.
fn wanted_on<G: for<'b> TryFrom<&'b [u8]>>(
    namespace: &[u8],
    votes: &[ffi::Vote],
) -> Result<Wanted<G>, StartError> {
    let mut list = Vec::new();
    reserve(&mut list, votes.len()).map_err(|_| StartError::OutOfMemory)?;
    list.extend(votes.iter().map(|vote| vote.attestation));
    let attestations = match attestations_of(&list) {
        Ok(it) => it,
        // One of them is no signature of the scheme.
        Err(VoteError::SignatureBytes) => return Err(StartError::NotVerified),
        Err(VoteError::OutOfMemory) => return Err(StartError::OutOfMemory),
    };
    let subject = subject_voted(&votes[0]);
    let message = message_in(namespace, &subject).map_err(|_| StartError::OutOfMemory)?;
    Ok(Wanted {
        subject,
        message,
        attestations,
        stamp: None,
    })
}

/// The bytes to sign for a subject in a namespace.
fn message_in(namespace: &[u8], subject: &Subject) -> Result<Vec<u8>, OutOfMemory> {
    let (kind, flat) = (kind_code(subject.kind()), flat_subject(subject));
    let (mut bytes, mut count) = (Vec::new(), 0);
    loop {
        match validators::message(namespace, kind, &flat, &mut bytes, &mut count) {
            code::DONE => return Ok(bytes),
            code::SHORT => reserve_bytes(&mut bytes, count)?,
            other => unknown(other),
        }
    }
}

/// Makes room for as many bytes as are wanted.
pub(crate) fn reserve_bytes(bytes: &mut Vec<u8>, count: u64) -> Result<(), OutOfMemory> {
    let count = usize::try_from(count).map_err(|_| OutOfMemory)?;
    reserve(bytes, count.saturating_sub(bytes.len()))
}

fn cause_of(flat: u8) -> Cause {
    match flat {
        code::CAUSE_CERTIFICATE => Cause::Certificate,
        code::CAUSE_SIGNATURE => Cause::Signature,
        other => match block_of(other) {
            Some(reason) => Cause::Vote(reason),
            None => unknown(other),
        },
    }
}
