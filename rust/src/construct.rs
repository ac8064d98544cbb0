//! Constructions of a round: what they want verified, what was found, and what they give.

use crate::answers::Batch;
use crate::errors::{ConstructError, OutOfMemory, RoundError, VoteError, unknown};
use crate::ffi::{self, code};
use crate::flat::{attestation_of, flat_attestation, flat_subject, kind_code, kind_of, subject_of};
use crate::messages::{Attestation, Certificate, Subject};
use crate::positions::{Participant, quorum};
use crate::scheme::Scheme;
use std::sync::atomic::{AtomicU64, Ordering};

/// Attestations of one subject, on each of which a verdict is wanted. It is plain data: it may go
/// to another thread, and the round goes on meanwhile.
#[derive(Clone, Debug)]
pub struct Wanted<G> {
    subject: Subject,
    attestations: Vec<Attestation<G>>,
    /// Whom it is to be handed back to.
    owner: u64,
}

impl<G> Wanted<G> {
    /// What they are to attest to.
    pub fn subject(&self) -> &Subject {
        &self.subject
    }

    /// The attestations, each of another participant.
    pub fn attestations(&self) -> &[Attestation<G>] {
        &self.attestations
    }
}

/// Attestations of one subject, on which one verdict is wanted, as a whole. It is plain data: it
/// may go to another thread, and the round goes on meanwhile.
#[derive(Clone, Debug)]
pub struct WantedTogether<G> {
    wanted: Wanted<G>,
    verified: usize,
}

impl<G> WantedTogether<G> {
    /// What they are to attest to.
    pub fn subject(&self) -> &Subject {
        self.wanted.subject()
    }

    /// The attestations, each of another participant.
    pub fn attestations(&self) -> &[Attestation<G>] {
        self.wanted.attestations()
    }

    /// How many of them, at the front, are known to attest.
    pub fn verified(&self) -> usize {
        self.verified
    }
}

/// Of a caller that hands in more verdicts than attestations, or fewer.
pub(crate) const ONE_EACH: &str = "there isn't one verdict for each";

/// What the next construction comes to.
pub(crate) enum Next<G, C> {
    Idle,
    Verify(Wanted<G>),
    VerifyTogether(WantedTogether<G>),
    Made(Batch<C>),
}

/// What was last found of attestations as a whole.
struct Together {
    subject: Subject,
    list: Vec<ffi::Attestation>,
    passes: bool,
}

pub(crate) struct Constructions {
    /// A number that distinguishes a round from all others of the process.
    owner: u64,
    // Where the library lists attestations and signers: a place for each participant, once one is
    // wanted.
    known: Vec<ffi::Attestation>,
    list: Vec<ffi::Attestation>,
    signers: Vec<u32>,
    together: Option<Together>,
    /// A batch that the library has made, and that memory was refused for here. It is in the
    /// lists.
    unfinished: Option<ffi::Step>,
}

impl Constructions {
    pub(crate) fn new() -> Self {
        static NEXT: AtomicU64 = AtomicU64::new(0);
        Constructions {
            owner: NEXT.fetch_add(1, Ordering::Relaxed),
            known: Vec::new(),
            list: Vec::new(),
            signers: Vec::new(),
            together: None,
            unfinished: None,
        }
    }

    /// The next construction, for which the scheme verifies on the spot what is wanted. None where
    /// there is nothing to be made.
    pub(crate) fn construct<S: Scheme>(
        &mut self,
        scheme: &S,
        library: &mut ffi::Round,
    ) -> Result<Option<Batch<S::Certificate>>, ConstructError> {
        loop {
            match self.step(scheme, library)? {
                Next::Idle => return Ok(None),
                Next::Made(batch) => return Ok(Some(batch)),
                Next::Verify(wanted) => {
                    let Wanted {
                        subject,
                        attestations,
                        ..
                    } = &wanted;
                    let verdicts = scheme.verify_attestations(subject, attestations);
                    assert_eq!(attestations.len(), verdicts.len(), "{ONE_EACH}");
                    // They are in the list as the library wrote them.
                    hand_in(library, subject, &self.list[..verdicts.len()], &verdicts)?;
                }
                Next::VerifyTogether(together) => {
                    let Wanted {
                        subject,
                        attestations,
                        ..
                    } = &together.wanted;
                    let passes = scheme.verify_together(subject, attestations, together.verified);
                    self.note_together(&together.wanted, passes)?;
                }
            }
        }
    }

    /// The next construction, or what it wants verified first.
    pub(crate) fn step<S: Scheme>(
        &mut self,
        scheme: &S,
        library: &mut ffi::Round,
    ) -> Result<Next<S::Signature, S::Certificate>, ConstructError> {
        let participants = scheme.participants().len();
        reserve_each(&mut self.known, participants, ffi::Attestation::default())?;
        reserve_each(&mut self.list, participants, ffi::Attestation::default())?;
        reserve_each(&mut self.signers, participants, 0)?;
        if let Some(step) = self.unfinished {
            return self.finish(scheme, step);
        }
        let mut step = ffi::Step::default();
        match library.try_construct(
            &mut step,
            &mut self.known,
            &mut self.list,
            &mut self.signers,
        ) {
            code::IDLE => Ok(Next::Idle),
            code::DONE => self.finish(scheme, step),
            code::VERIFY => self.verify(scheme, library, &step),
            code::OUT_OF_MEMORY => Err(ConstructError::OutOfMemory),
            answer => unknown(answer),
        }
    }

    /// What a step wants, or the batch of what was found to pass as a whole.
    fn verify<S: Scheme>(
        &mut self,
        scheme: &S,
        library: &mut ffi::Round,
        step: &ffi::Step,
    ) -> Result<Next<S::Signature, S::Certificate>, ConstructError> {
        let subject = subject_of(kind_of(step.kind), &step.proposal);
        let (verified, wanted) = (step.verified as usize, step.listed as usize);
        let all = verified + wanted;
        if scheme.aggregates() && all >= quorum(scheme.participants().len()) as usize {
            // No participant is listed twice, so there is room.
            self.known[verified..all].copy_from_slice(&self.list[..wanted]);
            match self.found(&subject, all) {
                None => {
                    let wanted = self.wanted(subject, &self.known[..all])?;
                    return Ok(Next::VerifyTogether(WantedTogether { wanted, verified }));
                }
                Some(false) => {}
                Some(true) => {
                    let (list, mut made) = (&self.known[..all], ffi::Step::default());
                    match library.construct_together(step.kind, &step.proposal, list, &mut made) {
                        code::DONE => {
                            self.list[..all].copy_from_slice(&self.known[..all]);
                            return self.finish(scheme, made);
                        }
                        // Verdicts on some of those that wait are recorded, so these aren't all.
                        code::STALE => {}
                        code::OUT_OF_MEMORY => return Err(ConstructError::OutOfMemory),
                        answer => unknown(answer),
                    }
                }
            }
        }
        Ok(Next::Verify(self.wanted(subject, &self.list[..wanted])?))
    }

    /// What was last found of the known ones as a whole, if that was of them.
    fn found(&self, subject: &Subject, all: usize) -> Option<bool> {
        let last = self.together.as_ref()?;
        (last.subject == *subject && last.list == self.known[..all]).then_some(last.passes)
    }

    fn wanted<G: for<'b> TryFrom<&'b [u8]>>(
        &self,
        subject: Subject,
        list: &[ffi::Attestation],
    ) -> Result<Wanted<G>, VoteError> {
        Ok(Wanted {
            subject,
            attestations: attestations_of(list)?,
            owner: self.owner,
        })
    }

    /// Hands in the verdicts on what a step has wanted, and says whether they are recorded: not
    /// where that isn't wanted any more.
    pub(crate) fn record_verdicts<G: AsRef<[u8]>>(
        &mut self,
        library: &mut ffi::Round,
        wanted: &Wanted<G>,
        verdicts: &[bool],
    ) -> Result<bool, RoundError> {
        let count = wanted.attestations.len();
        assert_eq!(count, verdicts.len(), "{ONE_EACH}");
        if wanted.owner != self.owner {
            return Err(RoundError::Elsewhere);
        }
        // There was room for each participant when it was handed out.
        for (place, attestation) in self.known.iter_mut().zip(&wanted.attestations) {
            *place = flat_attestation(attestation)?;
        }
        Ok(hand_in(
            library,
            &wanted.subject,
            &self.known[..count],
            verdicts,
        )?)
    }

    /// Notes whether what a step has wanted passes as a whole. Of two verdicts in a row on the same
    /// attestations the first counts.
    pub(crate) fn record_verdict_together<G: AsRef<[u8]>>(
        &mut self,
        wanted: &WantedTogether<G>,
        passes: bool,
    ) -> Result<(), RoundError> {
        if wanted.wanted.owner != self.owner {
            return Err(RoundError::Elsewhere);
        }
        Ok(self.note_together(&wanted.wanted, passes)?)
    }

    fn note_together<G: AsRef<[u8]>>(
        &mut self,
        wanted: &Wanted<G>,
        passes: bool,
    ) -> Result<(), VoteError> {
        let Wanted {
            subject,
            attestations,
            ..
        } = wanted;
        let mut list = Vec::new();
        reserve(&mut list, attestations.len())?;
        for attestation in attestations {
            list.push(flat_attestation(attestation)?);
        }
        let is_same = |last: &Together| last.subject == *subject && last.list == list;
        if !self.together.as_ref().is_some_and(is_same) {
            self.together = Some(Together {
                subject: *subject,
                list,
                passes,
            });
        }
        Ok(())
    }

    /// Hands over a batch that the library has made.
    fn finish<S: Scheme>(
        &mut self,
        scheme: &S,
        step: ffi::Step,
    ) -> Result<Next<S::Signature, S::Certificate>, ConstructError> {
        self.unfinished = Some(step);
        let made = self.made(scheme, &step);
        if !matches!(made, Err(ConstructError::OutOfMemory)) {
            self.unfinished = None;
        }
        Ok(Next::Made(made?))
    }

    fn made<S: Scheme>(
        &self,
        scheme: &S,
        step: &ffi::Step,
    ) -> Result<Batch<S::Certificate>, ConstructError> {
        let signers = &self.signers[..step.invalid as usize];
        let mut invalid = Vec::new();
        reserve(&mut invalid, signers.len())?;
        invalid.extend(signers.iter().map(|index| Participant::new(*index)));
        let mut certificate = None;
        if step.certified {
            let subject = subject_of(kind_of(step.kind), &step.proposal);
            let mut quorum = attestations_of(&self.list[..step.listed as usize])?;
            quorum.sort_unstable_by_key(|it: &Attestation<_>| it.signer);
            let content = scheme.assemble(&subject, &quorum);
            if !S::ASSEMBLED_CERTIFIES && !scheme.verify_certificate(&subject, &content) {
                return Err(ConstructError::BadAssembly);
            }
            certificate = Some(Certificate::new(subject, content));
        }
        Ok(Batch {
            processed: step.processed as usize,
            invalid,
            certificate,
            fallback: step.fallback,
        })
    }
}

/// Hands in verdicts on a list, and says whether they are recorded.
fn hand_in(
    library: &mut ffi::Round,
    subject: &Subject,
    list: &[ffi::Attestation],
    verdicts: &[bool],
) -> Result<bool, OutOfMemory> {
    let (kind, proposal) = (kind_code(subject.kind()), flat_subject(subject));
    match library.record_verdicts(kind, &proposal, list, verdicts) {
        code::DONE => Ok(true),
        code::STALE => Ok(false),
        code::OUT_OF_MEMORY => Err(OutOfMemory),
        answer => unknown(answer),
    }
}

pub(crate) fn attestations_of<G: for<'b> TryFrom<&'b [u8]>>(
    list: &[ffi::Attestation],
) -> Result<Vec<Attestation<G>>, VoteError> {
    let mut attestations = Vec::new();
    reserve(&mut attestations, list.len())?;
    for flat in list {
        attestations.push(attestation_of(flat)?);
    }
    Ok(attestations)
}

/// Makes room in a list.
pub(crate) fn reserve<T>(list: &mut Vec<T>, more: usize) -> Result<(), OutOfMemory> {
    list.try_reserve_exact(more).map_err(|_| OutOfMemory)
}

/// Makes a list have as many places as there are participants.
pub(crate) fn reserve_each<T: Clone>(
    list: &mut Vec<T>,
    participants: u32,
    nothing: T,
) -> Result<(), OutOfMemory> {
    reserve(list, (participants as usize).saturating_sub(list.len()))?;
    list.resize(participants as usize, nothing);
    Ok(())
}
