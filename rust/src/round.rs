//! One round: what it answers to votes, and the certificates that it makes of them.

use crate::answers::{Admission, Batch, Mode, Outcome};
use crate::construct::{Constructions, Next, reserve_each};
pub use crate::construct::{Wanted, WantedTogether};
use crate::errors::{
    CertificateError, ConstructError, LeaderError, NewError, OutOfMemory, OwnError, RoundError,
    unknown,
};
use crate::ffi::{self, code};
use crate::flat::{
    block_of, flat_proposal, flat_subject, flat_vote, kind_code, mode_code, own_fault, proposal_of,
    report_of,
};
use crate::messages::{Certificate, Kind, Proposal, Vote};
use crate::positions::{self, Participant};
use crate::scheme::Scheme;
use std::fmt;
use std::sync::Arc;

/// What the library is given for a sender that is no participant. All of these have lower names.
const NOBODY: u64 = u64::MAX;

/// What the library is given as the name of a sender.
pub(crate) fn name_of(sender: Option<Participant>) -> u64 {
    sender.map_or(NOBODY, |index| u64::from(index.get()))
}

/// What a construction comes to.
#[must_use = "what was made isn't given again"]
#[derive(Clone, Debug)]
pub enum Step<G, C> {
    /// No kind is ready.
    Idle,
    /// A verdict on each is wanted first: [`Round::record_verdicts`]. The round is as it was.
    Verify(Wanted<G>),
    /// One verdict on all of them as a whole is wanted first: [`Round::record_verdict_together`].
    /// The round is as it was. Only a scheme that [aggregates](Scheme::aggregates) is asked so.
    VerifyTogether(WantedTogether<G>),
    /// An attempt was made.
    Made(Batch<C>),
}

/// The votes of one round, and the certificates that they have made.
///
/// Its answers are the proved library's. It stays on the thread on which it was made;
/// [`crate::thread`] has a handle that goes anywhere.
///
/// ```
/// # include!(concat!(env!("CARGO_MANIFEST_DIR"), "/tests/toy/mod.rs"));
/// use batcher::{Activity, BlockReason, Mode, Round};
/// # fn main() -> Result<(), batcher::Error> {
/// let scheme = Toy::new(4);
/// let mut round = Round::in_mode(ROUND, scheme.clone(), Mode::Releasing)?;
/// for signer in 0..3 {
///     let admission = round.add_network(&KEYS[signer], &nullify(signer as u32))?;
///     assert!(admission.added && admission.block.is_none());
/// }
/// // Nothing was verified until now. All three are, at once, and make a certificate.
/// let batch = round.try_construct()?.expect("a quorum is there");
/// assert_eq!((batch.processed, batch.fallback), (3, false));
/// assert!(batch.certificate.is_some() && batch.invalid.is_empty());
/// assert!(round.try_construct()?.is_none());
/// # Ok(())
/// # }
/// ```
pub struct Round<S: Scheme> {
    library: ffi::Round,
    scheme: Arc<S>,
    number: positions::Round,
    mode: Mode,
    constructions: Constructions,
    // Where the library answers to a vote.
    answer: ffi::Admission,
}

impl<S: Scheme> Round<S> {
    /// A round in which nothing has happened. Where historical votes are tracked, votes are kept in
    /// full to its end, else until their kind is certified.
    ///
    /// Notarizes and finalizes wait until a proposal is selected: by the notarize of the leader,
    /// once [`Round::set_leader`] names it, by a certificate, or by an own finalize.
    ///
    /// # Errors
    ///
    /// `NoParticipants` and `OutOfMemory`.
    pub fn new(
        round: positions::Round,
        scheme: Arc<S>,
        track_historical_votes: bool,
    ) -> Result<Self, NewError> {
        let mode = if track_historical_votes {
            Mode::Retaining
        } else {
            Mode::Releasing
        };
        Round::in_mode(round, scheme, mode)
    }

    /// A round of a view that was skipped. It keeps facts of the votes alone and makes no
    /// certificate, since peers have any that it may need.
    ///
    /// # Errors
    ///
    /// `NoParticipants` and `OutOfMemory`.
    pub fn skipped(round: positions::Round, scheme: Arc<S>) -> Result<Self, NewError> {
        Round::in_mode(round, scheme, Mode::Skipped)
    }

    /// A round in a mode.
    ///
    /// # Errors
    ///
    /// `NoParticipants` and `OutOfMemory`.
    pub fn in_mode(round: positions::Round, scheme: Arc<S>, mode: Mode) -> Result<Self, NewError> {
        let participants = scheme.participants().len();
        if participants == 0 {
            return Err(NewError::NoParticipants);
        }
        let library = ffi::Round::new(&ffi::RoundOptions {
            epoch: round.epoch.get(),
            view: round.view.get(),
            participants,
            keys: scheme.keys(),
            mode: mode_code(mode),
            batchable: scheme.is_batchable(),
        })
        .map_err(|answer| match answer {
            code::OUT_OF_MEMORY => NewError::OutOfMemory,
            answer => unknown(answer),
        })?;
        Ok(Round {
            library,
            scheme,
            number: round,
            mode,
            constructions: Constructions::new(),
            answer: ffi::Admission::default(),
        })
    }

    /// The number of the round.
    pub fn number(&self) -> positions::Round {
        self.number
    }

    /// How the round keeps its votes.
    pub fn mode(&self) -> Mode {
        self.mode
    }

    /// The scheme that it was made with.
    pub fn scheme(&self) -> &Arc<S> {
        &self.scheme
    }

    /// Whether the vote is of this round. Its parent view isn't looked at.
    pub fn belongs(&self, vote: &Vote<S::Signature>) -> bool {
        vote.round() == self.number
    }

    /// Whether the certificate is of this round. Its parent view isn't looked at.
    pub fn belongs_certificate(&self, certificate: &Certificate<S::Certificate>) -> bool {
        certificate.round() == self.number
    }

    /// Takes in a vote that the network brought. The sender is who the transport has authenticated.
    ///
    /// The first of each kind per signer is added, except a nullify after a finalize of its signer,
    /// or a finalize after its nullify. A sender is to be blocked for that, for the vote of another
    /// signer, and for two votes that are known to differ. To block it is the caller's matter: a
    /// round goes on taking in its votes. A vote that isn't added isn't kept.
    ///
    /// Votes come from their signers alone. Where the network gossips, don't hand in a vote under
    /// the key of who relays it, who would be blocked for it.
    ///
    /// After a vote that was added, construct.
    ///
    /// ```
    /// # include!(concat!(env!("CARGO_MANIFEST_DIR"), "/tests/toy/mod.rs"));
    /// use batcher::{Activity, BlockReason, Round, Vote};
    /// # fn main() -> Result<(), batcher::Error> {
    /// let mut round = Round::new(ROUND, Toy::new(4), true)?;
    /// let (first, second) = (notarize(1, 7), notarize(1, 8));
    /// assert!(round.add_network(&KEYS[1], &first)?.added);
    /// let again = round.add_network(&KEYS[1], &first)?;
    /// assert!(!again.added && again.block.is_none());
    /// let other = round.add_network(&KEYS[1], &second)?;
    /// assert_eq!(other.block, Some(BlockReason::ConflictingNotarize));
    /// assert!(matches!(other.report, Some(Activity::ConflictingNotarize(..))));
    /// # Ok(())
    /// # }
    /// ```
    ///
    /// # Errors
    ///
    /// `Elsewhere`, for which nobody is to be blocked, and `OutOfMemory`. In a loop over many
    /// votes, go on with the others after it.
    pub fn add_network(
        &mut self,
        sender: &S::PublicKey,
        vote: &Vote<S::Signature>,
    ) -> Result<Admission<S::Signature>, RoundError> {
        let sender = self.scheme.participants().index_near(sender, vote.signer());
        let flat = flat_vote(vote)?;
        match self
            .library
            .add_network(name_of(sender), &flat, &mut self.answer)
        {
            code::DONE => {}
            code::ELSEWHERE => return Err(RoundError::Elsewhere),
            code::OUT_OF_MEMORY => return Err(RoundError::OutOfMemory),
            answer => unknown(answer),
        }
        Ok(Admission {
            added: self.answer.added,
            block: block_of(self.answer.block),
            report: report_of(&self.answer, vote)?,
        })
    }

    /// Takes in a vote of the node's own, which the scheme is asked to verify. **It is to be sent
    /// only where it is `ToSend`**: not every vote that isn't refused is.
    ///
    /// A second notarize or finalize of a signer is refused while the first is kept. Once that isn't
    /// kept any more, the second is refused where what is known shows that the two differ, and is a
    /// duplicate otherwise. A second nullify is a duplicate. A nullify is refused after a finalize,
    /// and a finalize after a nullify.
    ///
    /// Hand in votes of one's own participant alone, and a finalize only of a proposal that is
    /// notarized: it selects its proposal, also where it is a duplicate, and votes for another
    /// proposal count no more.
    ///
    /// A round knows the own votes that it was handed, and no others. So keep the bytes of each own
    /// vote before it is handed in, since the next certificate may have it. A round that is made
    /// again for the same view, as after a restart or after [`Gone`](crate::errors::Gone), knows none of them, and
    /// would let another be sent that contradicts them. Hand those in first, as the same bytes and
    /// in the same order. Where that can't be done, cast nothing more in that view. **Where one is
    /// answered `OutOfMemory`, hand in no other until the same one is answered otherwise**: it comes
    /// first then.
    ///
    /// ```
    /// # include!(concat!(env!("CARGO_MANIFEST_DIR"), "/tests/toy/mod.rs"));
    /// use batcher::{Error, Outcome, OwnFault, Round, Vote};
    /// # fn main() -> Result<(), batcher::Error> {
    /// let mut round = Round::new(ROUND, Toy::new(4), true)?;
    /// let mut sent = Vec::new();
    /// let mut cast = |round: &mut Round<Toy>, vote: Vote<Signature>| {
    ///     if let Outcome::ToSend { .. } = round.accept_vote(&vote)? {
    ///         sent.push(vote);
    ///     }
    ///     Ok::<(), Error>(())
    /// };
    /// cast(&mut round, nullify(0))?;
    /// // The second one isn't refused, and isn't to be sent either.
    /// cast(&mut round, nullify(0))?;
    /// // Who gave the view up finalizes nothing in it.
    /// let refused = cast(&mut round, finalize(0, 7));
    /// assert_eq!(refused, Err(Error::Own(OwnFault::FinalizeAfterNullify)));
    /// assert_eq!(sent, [nullify(0)]);
    /// # Ok(())
    /// # }
    /// ```
    ///
    /// # Errors
    ///
    /// `Elsewhere`, `OutOfMemory`, `NotVerified` where the scheme says that it doesn't attest, and
    /// `Own`.
    pub fn accept_vote(
        &mut self,
        vote: &Vote<S::Signature>,
    ) -> Result<Outcome<S::Signature>, OwnError> {
        if !self.belongs(vote) {
            return Err(OwnError::Elsewhere);
        }
        let attests = attests(&*self.scheme, vote);
        self.accept(vote, attests)
    }

    /// The same of a vote of which the caller knows that it attests, as it has just signed it. What
    /// is proved rests on that.
    ///
    /// # Errors
    ///
    /// As of [`Round::accept_vote`]. `NotVerified` where its signer takes no part.
    pub fn accept_verified_vote(
        &mut self,
        vote: &Vote<S::Signature>,
    ) -> Result<Outcome<S::Signature>, OwnError> {
        self.accept(vote, true)
    }

    fn accept(
        &mut self,
        vote: &Vote<S::Signature>,
        attests: bool,
    ) -> Result<Outcome<S::Signature>, OwnError> {
        let flat = flat_vote(vote)?;
        match self.library.accept_vote(&flat, attests, &mut self.answer) {
            code::DONE => {}
            code::ELSEWHERE => return Err(OwnError::Elsewhere),
            code::NOT_VERIFIED => return Err(OwnError::NotVerified),
            code::OUT_OF_MEMORY => return Err(OwnError::OutOfMemory),
            answer => return Err(OwnError::Own(own_fault(answer))),
        }
        let retained = self.answer.retained;
        if !self.answer.added {
            return Ok(Outcome::Duplicate { retained });
        }
        // A vote that was added is reported.
        match report_of(&self.answer, vote)? {
            Some(report) => Ok(Outcome::ToSend { report, retained }),
            None => unknown(code::DONE),
        }
    }

    /// Takes in a certificate that came from elsewhere, which the scheme is asked to verify. It
    /// completes its kind, fixes its proposal where none is fixed, and releases the votes of its
    /// kind. Where [`Round::has_certificate`] says that one of its kind is there, it says nothing
    /// new, and needn't be handed in. Those that the round made are recorded already.
    ///
    /// Of a notarization it answers whether another proposal is selected than before. Of other
    /// certificates it answers false, also where a finalization selects one. So construct after
    /// each, whatever the answer is.
    ///
    /// ```
    /// # include!(concat!(env!("CARGO_MANIFEST_DIR"), "/tests/toy/mod.rs"));
    /// use batcher::errors::CertificateError;
    /// use batcher::{Kind, Round, Subject};
    /// # fn main() -> Result<(), batcher::Error> {
    /// let mut round = Round::new(ROUND, Toy::new(4), false)?;
    /// // No leader is named, so the notarizes wait.
    /// for signer in 0..3 {
    ///     assert!(round.add_network(&KEYS[signer], &notarize(signer as u32, 7))?.added);
    /// }
    /// assert!(round.try_construct()?.is_none());
    /// let subject = Subject::Finalize { proposal: proposal(7) };
    /// // Two signers are no quorum: who sent that is to be blocked.
    /// let forged = certificate(subject, 0..2);
    /// assert_eq!(round.record_certificate(&forged), Err(CertificateError::Forged));
    /// // A finalization selects its proposal, so the notarizes make a certificate.
    /// assert!(!round.record_certificate(&certificate(subject, 1..4))?);
    /// let batch = round.try_construct()?.expect("a quorum is there");
    /// assert!(batch.certificate.is_some_and(|it| it.kind() == Kind::Notarization));
    /// # Ok(())
    /// # }
    /// ```
    ///
    /// # Errors
    ///
    /// `Elsewhere`, for which nobody is to be blocked, `Forged` where the scheme says that it
    /// doesn't certify what it names, and `OutOfMemory`.
    pub fn record_certificate(
        &mut self,
        certificate: &Certificate<S::Certificate>,
    ) -> Result<bool, CertificateError> {
        if !self.belongs_certificate(certificate) {
            return Err(CertificateError::Elsewhere);
        }
        if !self
            .scheme
            .verify_certificate(&certificate.subject(), certificate.content())
        {
            return Err(CertificateError::Forged);
        }
        self.record_verified_certificate(certificate)
    }

    /// The same of a certificate of which the caller knows that it certifies what it names, as it
    /// was verified elsewhere. **One that doesn't may select a proposal that nobody voted for, and
    /// its kind makes no certificate any more.** So verify it before:
    ///
    /// ```
    /// # include!(concat!(env!("CARGO_MANIFEST_DIR"), "/tests/toy/mod.rs"));
    /// use batcher::{Round, Scheme, Subject};
    /// # fn main() -> Result<(), batcher::Error> {
    /// # let mut round = Round::new(ROUND, Toy::new(4), false)?;
    /// # let scheme = round.scheme().clone();
    /// # let certificate = certificate(Subject::Nullify { round: ROUND }, 0..3);
    /// if round.belongs_certificate(&certificate)
    ///     && scheme.verify_certificate(&certificate.subject(), certificate.content())
    /// {
    ///     round.record_verified_certificate(&certificate)?;
    /// }
    /// # assert!(round.has_certificate(batcher::Kind::Nullification));
    /// # Ok(())
    /// # }
    /// ```
    ///
    /// # Errors
    ///
    /// `Elsewhere` and `OutOfMemory`.
    pub fn record_verified_certificate(
        &mut self,
        certificate: &Certificate<S::Certificate>,
    ) -> Result<bool, CertificateError> {
        if !self.belongs_certificate(certificate) {
            return Err(CertificateError::Elsewhere);
        }
        let mut selected_anew = false;
        match self.library.record_certificate(
            kind_code(certificate.kind()),
            &flat_subject(&certificate.subject()),
            self.scheme
                .certificate_bytes(certificate.content())
                .as_ref(),
            &mut selected_anew,
        ) {
            code::DONE => Ok(selected_anew),
            code::ELSEWHERE => Err(CertificateError::Elsewhere),
            code::OUT_OF_MEMORY => Err(CertificateError::OutOfMemory),
            answer => unknown(answer),
        }
    }

    /// Names the leader. If its notarize is kept, that selects its proposal where none is selected,
    /// so construct after this.
    ///
    /// A leader's index is the place of its key in the scheme's [`Set`](crate::Set), which is
    /// sorted, and not in the list that the set was made of. Who is named can't be changed.
    ///
    /// ```
    /// # include!(concat!(env!("CARGO_MANIFEST_DIR"), "/tests/toy/mod.rs"));
    /// use batcher::{Participant, Round, Scheme};
    /// # fn main() -> Result<(), batcher::Error> {
    /// let scheme = Toy::new(4);
    /// let mut round = Round::new(ROUND, scheme.clone(), false)?;
    /// let leader = scheme.participants().index(&"cyd").expect("cyd takes part");
    /// round.set_leader(leader)?;
    /// assert_eq!(round.leader(), Some(leader));
    /// assert!(round.set_leader(Participant::new(4)).is_err());
    /// # Ok(())
    /// # }
    /// ```
    ///
    /// # Errors
    ///
    /// `UnknownParticipant` where the index is no participant's, and `LeaderChanged` where another
    /// leader was named before.
    pub fn set_leader(&mut self, leader: Participant) -> Result<(), LeaderError> {
        if self.scheme.participants().key(leader).is_none() {
            return Err(LeaderError::UnknownParticipant);
        }
        self.set_any_leader(leader)
    }

    // As the library has it, which takes each index. Scripts of calls name such leaders too.
    #[doc(hidden)]
    pub fn set_any_leader(&mut self, leader: Participant) -> Result<(), LeaderError> {
        match self.library.set_leader(leader.get()) {
            code::DONE => Ok(()),
            code::LEADER_CHANGED => Err(LeaderError::LeaderChanged),
            answer => unknown(answer),
        }
    }

    /// The leader, once it is named.
    pub fn leader(&self) -> Option<Participant> {
        let mut leader = 0;
        (self.library.leader(&mut leader) == code::DONE).then(|| Participant::new(leader))
    }

    /// The selected proposal: the leader's, or one that evidence fixed.
    pub fn proposal(&self) -> Option<Proposal> {
        let mut proposal = ffi::Proposal::default();
        (self.library.proposal(&mut proposal) == code::DONE).then(|| proposal_of(&proposal))
    }

    /// The selected proposal, to hand on: once at most, and not where the leader that was named is
    /// `me`.
    pub fn try_forward_proposal(&mut self, me: Participant) -> Option<Proposal> {
        let mut proposal = ffi::Proposal::default();
        match self.library.try_forward_proposal(me.get(), &mut proposal) {
            code::DONE => Some(proposal_of(&proposal)),
            code::IDLE => None,
            answer => unknown(answer),
        }
    }

    /// Whether a certificate of the kind is there.
    pub fn has_certificate(&self, kind: Kind) -> bool {
        let mut has = false;
        self.library.has_certificate(kind_code(kind), &mut has) == code::DONE && has
    }

    /// Whether the signer's nullify is kept in full.
    pub fn has_nullify(&self, signer: Participant) -> bool {
        let mut has = false;
        self.library.has_nullify(signer.get(), &mut has) == code::DONE && has
    }

    /// Whether nothing shows that the participant has the proposal's contents: neither a notarize
    /// nor a finalize for it. A vote shows that also where it doesn't attest. Of votes that aren't
    /// kept in full, one for the selected proposal counts for whichever is asked about: so ask about
    /// the selected one.
    pub fn is_missing_voter(&self, proposal: &Proposal, participant: Participant) -> bool {
        let (proposal, mut is_missing) = (flat_proposal(proposal), false);
        let answer = self
            .library
            .is_missing_voter(&proposal, participant.get(), &mut is_missing);
        answer != code::DONE || is_missing
    }

    /// The participants of whom [`Round::is_missing_voter`] is true, in ascending order.
    ///
    /// # Errors
    ///
    /// `OutOfMemory`.
    pub fn missing_voters(&self, proposal: &Proposal) -> Result<Vec<Participant>, OutOfMemory> {
        let mut list = Vec::new();
        reserve_each(&mut list, self.scheme.participants().len(), 0)?;
        let mut count = 0;
        match self
            .library
            .missing_voters(&flat_proposal(proposal), &mut list, &mut count)
        {
            code::DONE => {}
            code::OUT_OF_MEMORY => return Err(OutOfMemory),
            answer => unknown(answer),
        }
        list.truncate(count as usize);
        Ok(list.into_iter().map(Participant::new).collect())
    }

    /// Makes the next construction, and has the scheme verify what it takes. None where no kind is
    /// ready.
    ///
    /// Call it after each added vote, named leader and recorded certificate, until it answers none:
    /// a batch without a certificate needn't be the last. A round gives three in a row at most.
    ///
    /// A batch is given once, with its certificate. Deal with each before the next call, so that
    /// none is lost where that is refused.
    ///
    /// ```
    /// # include!(concat!(env!("CARGO_MANIFEST_DIR"), "/tests/toy/mod.rs"));
    /// use batcher::{Kind, Participant, Round};
    /// # fn main() -> Result<(), batcher::Error> {
    /// # let mut round = Round::new(ROUND, Toy::new(4), false)?;
    /// # for vote in [bad(notarize(1, 7)), notarize(2, 7), notarize(3, 7)] {
    /// #     assert!(round.add_network(&KEYS[vote.signer().get() as usize], &vote)?.added);
    /// #     let nullify = nullify(vote.signer().get());
    /// #     assert!(round.add_network(&KEYS[vote.signer().get() as usize], &nullify)?.added);
    /// # }
    /// # let (mut send, mut block) = (Vec::new(), Vec::new());
    /// round.set_leader(Participant::new(2))?;
    /// while let Some(batch) = round.try_construct()? {
    ///     for signer in batch.invalid {
    ///         block.push(signer);
    ///     }
    ///     if let Some(certificate) = batch.certificate {
    ///         send.push(certificate);
    ///     }
    /// }
    /// # assert_eq!(block, [Participant::new(1)]);
    /// # assert!(send.iter().map(|it| it.kind()).eq([Kind::Nullification]));
    /// # Ok(())
    /// # }
    /// ```
    ///
    /// # Errors
    ///
    /// `OutOfMemory`.
    ///
    /// # Panics
    ///
    /// Where the scheme doesn't give a verdict on each attestation.
    pub fn try_construct(&mut self) -> Result<Option<Batch<S::Certificate>>, ConstructError> {
        self.constructions
            .construct(&*self.scheme, &mut self.library)
    }

    /// Makes the next construction, or hands out what has to be verified for it, which may be done
    /// anywhere. Votes may be added meanwhile; then a later step may want more.
    ///
    /// Call it after each added vote, named leader and recorded certificate, and after each verdict
    /// that is recorded, until it answers `Idle` or something to verify: a batch without a
    /// certificate needn't be the last. A batch is given once, with its certificate.
    ///
    /// A step before the verdicts are in hands out the same again, and what has come since. One
    /// kind is handed out at a time, so verdicts that never come hold up the other kinds too.
    /// Where a verifier fails or is late, step again, and have that verified.
    ///
    /// ```
    /// # include!(concat!(env!("CARGO_MANIFEST_DIR"), "/tests/toy/mod.rs"));
    /// use batcher::{Round, Scheme, Step};
    /// # fn main() -> Result<(), batcher::Error> {
    /// let scheme = Toy::new(4);
    /// let mut round = Round::new(ROUND, scheme.clone(), false)?;
    /// for signer in 0..3 {
    ///     round.add_network(&KEYS[signer], &nullify(signer as u32))?;
    /// }
    /// let Step::Verify(wanted) = round.step()? else { panic!("three votes are a quorum") };
    /// let worker = std::thread::spawn(move || {
    ///     let verdicts = scheme.verify_attestations(wanted.subject(), wanted.attestations());
    ///     (wanted, verdicts)
    /// });
    /// round.add_network(&KEYS[3], &nullify(3))?;
    /// let (wanted, verdicts) = worker.join().unwrap();
    /// round.record_verdicts(&wanted, &verdicts)?;
    /// // The vote that came meanwhile is wanted alone.
    /// let Step::Verify(later) = round.step()? else { panic!("a vote has come") };
    /// round.record_verdicts(&later, &[true])?;
    /// assert!(matches!(round.step()?, Step::Made(batch) if batch.processed == 4));
    /// # Ok(())
    /// # }
    /// ```
    ///
    /// # Errors
    ///
    /// `OutOfMemory`.
    pub fn step(&mut self) -> Result<Step<S::Signature, S::Certificate>, ConstructError> {
        Ok(
            match self.constructions.step(&*self.scheme, &mut self.library)? {
                Next::Idle => Step::Idle,
                Next::Verify(wanted) => Step::Verify(wanted),
                Next::VerifyTogether(wanted) => Step::VerifyTogether(wanted),
                Next::Made(batch) => Step::Made(batch),
            },
        )
    }

    /// Records a verdict on each of the attestations that a step has handed out, in their order, and
    /// says whether they are recorded. Then step again, also where no vote has come.
    ///
    /// They aren't recorded where something else is wanted first by now, as after a certificate or
    /// after other verdicts on some of them: what is still wanted of them the next step hands out
    /// again.
    ///
    /// **A verdict can't be taken back, and after false the next batch names its signer**, unless a
    /// certificate of that kind comes first. Where the verification failed to run, record nothing,
    /// and step again.
    ///
    /// # Errors
    ///
    /// `Elsewhere` where they are of another round, and `OutOfMemory`, where none is recorded and the
    /// same call can be made again.
    ///
    /// # Panics
    ///
    /// Where there isn't one verdict for each.
    pub fn record_verdicts(
        &mut self,
        wanted: &Wanted<S::Signature>,
        verdicts: &[bool],
    ) -> Result<bool, RoundError> {
        self.constructions
            .record_verdicts(&mut self.library, wanted, verdicts)
    }

    /// Records whether the attestations that a step has handed out pass as a whole. Then step
    /// again, also where no vote has come.
    ///
    /// It counts for these attestations together, and for no others: where a vote of their kind
    /// comes before the next step, that asks for a verdict on all of them with the new one. Of two
    /// verdicts in a row on the same attestations the first counts.
    ///
    /// # Errors
    ///
    /// `Elsewhere` where they are of another round, and `OutOfMemory`, after which the same call
    /// can be made again.
    pub fn record_verdict_together(
        &mut self,
        wanted: &WantedTogether<S::Signature>,
        passes: bool,
    ) -> Result<(), RoundError> {
        self.constructions.record_verdict_together(wanted, passes)
    }
}

/// Whether a vote attests, as the scheme says, which isn't asked of a signer that takes no part.
pub(crate) fn attests<S: Scheme>(scheme: &S, vote: &Vote<S::Signature>) -> bool {
    let attestation = std::slice::from_ref(vote.attestation());
    scheme.participants().key(vote.signer()).is_some()
        && scheme.verify_attestations(&vote.subject(), attestation) == [true]
}

impl<S: Scheme> fmt::Debug for Round<S> {
    fn fmt(&self, f: &mut fmt::Formatter<'_>) -> fmt::Result {
        f.debug_struct("Round")
            .field("number", &self.number)
            .field("mode", &self.mode)
            .finish_non_exhaustive()
    }
}
