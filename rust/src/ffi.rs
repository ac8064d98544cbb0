//! The one module with `unsafe`: the declarations of `include/batcher.h`, safe calls over them, the
//! heap that the static library takes its memory from, and a lock of files. `tools/header` compares
//! the declarations with the header.

use std::alloc::{Layout, alloc, dealloc, realloc};
use std::ffi::c_void;
use std::ptr;

pub(crate) mod files;
pub(crate) mod lock;
pub(crate) mod validators;

/// The numbers of the header: answers of calls, kinds, modes, block reasons, causes, reports,
/// tasks and changes.
#[allow(dead_code)]
pub(crate) mod code {
    pub(crate) const DONE: u8 = 0;
    pub(crate) const NONE: u8 = 1;
    pub(crate) const MALFORMED: u8 = 2;
    pub(crate) const ELSEWHERE: u8 = 3;
    pub(crate) const OUT_OF_MEMORY: u8 = 4;
    pub(crate) const LEADER_CHANGED: u8 = 5;
    pub(crate) const NOT_VERIFIED: u8 = 6;
    pub(crate) const DUPLICATE_NOTARIZE: u8 = 7;
    pub(crate) const DUPLICATE_FINALIZE: u8 = 8;
    pub(crate) const CONFLICTING: u8 = 9;
    pub(crate) const NULLIFY_AFTER_FINALIZE: u8 = 10;
    pub(crate) const FINALIZE_AFTER_NULLIFY: u8 = 11;
    pub(crate) const IDLE: u8 = 12;
    pub(crate) const VERIFY: u8 = 13;
    pub(crate) const STALE: u8 = 14;
    pub(crate) const DROPPED: u8 = 15;
    pub(crate) const UNKNOWN: u8 = 16;
    pub(crate) const PASSED: u8 = 17;
    pub(crate) const KNOWN: u8 = 18;
    pub(crate) const FORGED: u8 = 19;
    pub(crate) const SHORT: u8 = 20;
    pub(crate) const WRITE: u8 = 21;
    pub(crate) const FULL: u8 = 22;
    pub(crate) const CLOSED: u8 = 23;
    pub(crate) const NOT_OWN: u8 = 24;
    pub(crate) const SIGNED: u8 = 25;
    pub(crate) const REFUSED: u8 = 26;
    pub(crate) const NOT_BEGUN: u8 = 27;
    pub(crate) const BEGUN: u8 = 28;
    pub(crate) const OTHER_VERSION: u8 = 29;
    pub(crate) const OTHER_OWNER: u8 = 30;
    pub(crate) const DAMAGED: u8 = 31;
    pub(crate) const UNFINISHED: u8 = 32;
    pub(crate) const NOT_WRITTEN: u8 = 33;
    pub(crate) const NOT_GIVEN: u8 = 34;
    pub(crate) const NOTARIZATION: u8 = 0;
    pub(crate) const NULLIFICATION: u8 = 1;
    pub(crate) const FINALIZATION: u8 = 2;
    pub(crate) const RETAINING: u8 = 0;
    pub(crate) const RELEASING: u8 = 1;
    pub(crate) const SKIPPED: u8 = 2;
    pub(crate) const BLOCK_NONE: u8 = 0;
    pub(crate) const BLOCK_UNKNOWN_PARTICIPANT: u8 = 1;
    pub(crate) const BLOCK_NOTARIZE_SIGNER_MISMATCH: u8 = 2;
    pub(crate) const BLOCK_NULLIFY_SIGNER_MISMATCH: u8 = 3;
    pub(crate) const BLOCK_FINALIZE_SIGNER_MISMATCH: u8 = 4;
    pub(crate) const BLOCK_CONFLICTING_NOTARIZE: u8 = 5;
    pub(crate) const BLOCK_CONFLICTING_NULLIFY: u8 = 6;
    pub(crate) const BLOCK_CONFLICTING_FINALIZE: u8 = 7;
    pub(crate) const BLOCK_INVALID_SIGNATURE: u8 = 8;
    pub(crate) const BLOCK_NULLIFY_AFTER_FINALIZE: u8 = 9;
    pub(crate) const BLOCK_FINALIZE_AFTER_NULLIFY: u8 = 10;
    pub(crate) const CAUSE_NONE: u8 = 0;
    pub(crate) const CAUSE_CERTIFICATE: u8 = 64;
    pub(crate) const CAUSE_SIGNATURE: u8 = 65;
    pub(crate) const REPORT_NONE: u8 = 0;
    pub(crate) const REPORT_NOTARIZE: u8 = 1;
    pub(crate) const REPORT_NULLIFY: u8 = 2;
    pub(crate) const REPORT_FINALIZE: u8 = 3;
    pub(crate) const REPORT_CONFLICTING_NOTARIZE: u8 = 4;
    pub(crate) const REPORT_CONFLICTING_FINALIZE: u8 = 5;
    pub(crate) const REPORT_NULLIFY_FINALIZE: u8 = 6;
    pub(crate) const TASK_BLOCK: u8 = 0;
    pub(crate) const TASK_FINAL: u8 = 1;
    pub(crate) const TASK_CAST: u8 = 2;
    pub(crate) const TASK_SEND_VOTE: u8 = 3;
    pub(crate) const TASK_SEND_CERTIFICATE: u8 = 4;
    pub(crate) const TASK_ENTER: u8 = 5;
    pub(crate) const TASK_VERIFY: u8 = 6;
    pub(crate) const TASK_SIGN: u8 = 7;
    pub(crate) const TASK_PROPOSE: u8 = 8;
    pub(crate) const TASK_JUDGE: u8 = 9;
    pub(crate) const TASK_FORWARD: u8 = 10;
    pub(crate) const CHANGE_FRAME: u8 = 0;
    pub(crate) const CHANGE_BYTE: u8 = 1;
    pub(crate) const CHANGE_LENGTH: u8 = 2;
}

/// `struct batcher_proposal`
#[repr(C)]
#[derive(Clone, Copy, Default)]
pub(crate) struct Proposal {
    pub(crate) epoch: u64,
    pub(crate) view: u64,
    pub(crate) parent: u64,
    pub(crate) payload: [u8; 32],
}

/// How many bytes a signature has at most, `BATCHER_SIGNATURE_BYTES` of the header.
pub(crate) const WIDTH: usize = 96;

/// `struct batcher_attestation`
#[repr(C)]
#[derive(Clone, Copy, PartialEq, Eq)]
pub(crate) struct Attestation {
    pub(crate) signer: u32,
    pub(crate) length: u8,
    pub(crate) bytes: [u8; WIDTH],
}

impl Default for Attestation {
    fn default() -> Self {
        Attestation {
            signer: 0,
            length: 0,
            bytes: [0; WIDTH],
        }
    }
}

/// `struct batcher_vote`
#[repr(C)]
#[derive(Clone, Copy, Default)]
pub(crate) struct Vote {
    pub(crate) proposal: Proposal,
    pub(crate) attestation: Attestation,
    pub(crate) kind: u8,
}

/// `struct batcher_admission`
#[repr(C)]
#[derive(Clone, Copy, Default)]
pub(crate) struct Admission {
    pub(crate) first: Vote,
    pub(crate) second: Vote,
    pub(crate) report: u8,
    pub(crate) block: u8,
    pub(crate) added: bool,
    pub(crate) retained: bool,
}

/// `struct batcher_step`
#[repr(C)]
#[derive(Clone, Copy, Default)]
pub(crate) struct Step {
    pub(crate) proposal: Proposal,
    pub(crate) processed: u64,
    pub(crate) listed: u64,
    pub(crate) verified: u64,
    pub(crate) invalid: u64,
    pub(crate) kind: u8,
    pub(crate) certified: bool,
    pub(crate) fallback: bool,
}

/// `struct batcher_round_options`
#[repr(C)]
pub(crate) struct RoundOptions {
    pub(crate) epoch: u64,
    pub(crate) view: u64,
    pub(crate) participants: u32,
    pub(crate) keys: [u8; 32],
    pub(crate) mode: u8,
    pub(crate) batchable: bool,
}

/// `struct batcher_round`
#[repr(C)]
struct RoundHandle {
    at: *mut c_void,
}

/// A round in the library's memory. It owns that, and `Drop` gives it back.
///
/// It is neither `Send` nor `Sync`, by its pointer: the library counts references without atomics.
pub(crate) struct Round {
    handle: RoundHandle,
}

// No function here unwinds: Rattle has no panics. A slice is a pointer and its length.
unsafe extern "C" {
    /// Its name has the version of the header, so a library of another one doesn't link.
    safe fn batcher_abi_9();

    fn batcher_round_new(round: *mut RoundHandle, options: *const RoundOptions) -> u8;
    fn batcher_round_free(round: *mut RoundHandle);
    fn batcher_round_add_network(
        round: *mut RoundHandle,
        sender: u64,
        vote: *const Vote,
        admission: *mut Admission,
    ) -> u8;
    fn batcher_round_accept_vote(
        round: *mut RoundHandle,
        vote: *const Vote,
        attests: bool,
        admission: *mut Admission,
    ) -> u8;
    fn batcher_round_record_certificate(
        round: *mut RoundHandle,
        kind: u8,
        proposal: *const Proposal,
        bytes: *const u8,
        bytes_length: usize,
        selected_anew: *mut bool,
    ) -> u8;
    fn batcher_round_record_verdicts(
        round: *mut RoundHandle,
        kind: u8,
        proposal: *const Proposal,
        list: *const Attestation,
        list_length: usize,
        verdicts: *const bool,
        verdicts_length: usize,
    ) -> u8;
    fn batcher_round_set_leader(round: *mut RoundHandle, leader: u32) -> u8;
    fn batcher_round_leader(round: *const RoundHandle, leader: *mut u32) -> u8;
    fn batcher_round_proposal(round: *const RoundHandle, proposal: *mut Proposal) -> u8;
    fn batcher_round_try_forward_proposal(
        round: *mut RoundHandle,
        me: u32,
        proposal: *mut Proposal,
    ) -> u8;
    fn batcher_round_has_certificate(round: *const RoundHandle, kind: u8, has: *mut bool) -> u8;
    fn batcher_round_has_nullify(round: *const RoundHandle, signer: u32, has: *mut bool) -> u8;
    fn batcher_round_is_missing_voter(
        round: *const RoundHandle,
        proposal: *const Proposal,
        participant: u32,
        is_missing: *mut bool,
    ) -> u8;
    fn batcher_round_missing_voters(
        round: *const RoundHandle,
        proposal: *const Proposal,
        list: *mut u32,
        length: usize,
        count: *mut u64,
    ) -> u8;
    fn batcher_round_try_construct(
        round: *mut RoundHandle,
        step: *mut Step,
        known: *mut Attestation,
        known_length: usize,
        list: *mut Attestation,
        list_length: usize,
        signers: *mut u32,
        signers_length: usize,
    ) -> u8;
    fn batcher_round_construct_together(
        round: *mut RoundHandle,
        kind: u8,
        proposal: *const Proposal,
        list: *const Attestation,
        list_length: usize,
        step: *mut Step,
    ) -> u8;
    fn batcher_convicted(
        participants: u32,
        keys: *const u8,
        first: *const Vote,
        second: *const Vote,
        first_attests: bool,
        second_attests: bool,
        convicted: *mut u32,
    ) -> u8;
}

/// Whom two votes of participants with these keys convict, where each attests or doesn't.
pub(crate) fn convicted(
    participants: u32,
    keys: &[u8; 32],
    [first, second]: [&Vote; 2],
    [first_attests, second_attests]: [bool; 2],
    convicted: &mut u32,
) -> u8 {
    // SAFETY: each pointer is to a live value of its type, which is the call's alone where it
    // writes. The call keeps none.
    unsafe {
        batcher_convicted(
            participants,
            keys.as_ptr(),
            first,
            second,
            first_attests,
            second_attests,
            convicted,
        )
    }
}

impl Drop for Round {
    fn drop(&mut self) {
        // SAFETY: the handle is empty, or is one that `batcher_round_new` filled and nobody else
        // has.
        unsafe { batcher_round_free(&mut self.handle) }
    }
}

// Each call is given a handle that is empty or was filled by `batcher_round_new`, and that nobody
// else has meanwhile: a `Round` is never copied nor shared with another thread, and no call calls
// back. Each other pointer is to a live value of its type, which is the call's alone where it
// writes, and a length is that of its slice. No call keeps a pointer.
impl Round {
    /// A round, or the code that was answered.
    pub(crate) fn new(options: &RoundOptions) -> Result<Self, u8> {
        let handle = RoundHandle {
            at: ptr::null_mut(),
        };
        let mut round = Round { handle };
        batcher_abi_9();
        // SAFETY: as above; an empty handle is a null pointer.
        match unsafe { batcher_round_new(&mut round.handle, options) } {
            code::DONE => Ok(round),
            answer => Err(answer),
        }
    }

    #[inline]
    pub(crate) fn add_network(
        &mut self,
        sender: u64,
        vote: &Vote,
        admission: &mut Admission,
    ) -> u8 {
        // SAFETY: as above.
        unsafe { batcher_round_add_network(&mut self.handle, sender, vote, admission) }
    }

    pub(crate) fn accept_vote(
        &mut self,
        vote: &Vote,
        attests: bool,
        admission: &mut Admission,
    ) -> u8 {
        // SAFETY: as above.
        unsafe { batcher_round_accept_vote(&mut self.handle, vote, attests, admission) }
    }

    pub(crate) fn record_certificate(
        &mut self,
        kind: u8,
        proposal: &Proposal,
        bytes: &[u8],
        selected_anew: &mut bool,
    ) -> u8 {
        // SAFETY: as above.
        unsafe {
            batcher_round_record_certificate(
                &mut self.handle,
                kind,
                proposal,
                bytes.as_ptr(),
                bytes.len(),
                selected_anew,
            )
        }
    }

    pub(crate) fn set_leader(&mut self, leader: u32) -> u8 {
        // SAFETY: as above.
        unsafe { batcher_round_set_leader(&mut self.handle, leader) }
    }

    pub(crate) fn leader(&self, leader: &mut u32) -> u8 {
        // SAFETY: as above.
        unsafe { batcher_round_leader(&self.handle, leader) }
    }

    pub(crate) fn proposal(&self, proposal: &mut Proposal) -> u8 {
        // SAFETY: as above.
        unsafe { batcher_round_proposal(&self.handle, proposal) }
    }

    pub(crate) fn try_forward_proposal(&mut self, me: u32, proposal: &mut Proposal) -> u8 {
        // SAFETY: as above.
        unsafe { batcher_round_try_forward_proposal(&mut self.handle, me, proposal) }
    }

    pub(crate) fn has_certificate(&self, kind: u8, has: &mut bool) -> u8 {
        // SAFETY: as above.
        unsafe { batcher_round_has_certificate(&self.handle, kind, has) }
    }

    pub(crate) fn has_nullify(&self, signer: u32, has: &mut bool) -> u8 {
        // SAFETY: as above.
        unsafe { batcher_round_has_nullify(&self.handle, signer, has) }
    }

    pub(crate) fn is_missing_voter(
        &self,
        proposal: &Proposal,
        participant: u32,
        is_missing: &mut bool,
    ) -> u8 {
        // SAFETY: as above.
        unsafe { batcher_round_is_missing_voter(&self.handle, proposal, participant, is_missing) }
    }

    pub(crate) fn missing_voters(
        &self,
        proposal: &Proposal,
        list: &mut [u32],
        count: &mut u64,
    ) -> u8 {
        // SAFETY: as above.
        unsafe {
            batcher_round_missing_voters(
                &self.handle,
                proposal,
                list.as_mut_ptr(),
                list.len(),
                count,
            )
        }
    }
}

impl Round {
    pub(crate) fn record_verdicts(
        &mut self,
        kind: u8,
        proposal: &Proposal,
        list: &[Attestation],
        verdicts: &[bool],
    ) -> u8 {
        // SAFETY: as above.
        unsafe {
            batcher_round_record_verdicts(
                &mut self.handle,
                kind,
                proposal,
                list.as_ptr(),
                list.len(),
                verdicts.as_ptr(),
                verdicts.len(),
            )
        }
    }

    pub(crate) fn try_construct(
        &mut self,
        step: &mut Step,
        known: &mut [Attestation],
        list: &mut [Attestation],
        signers: &mut [u32],
    ) -> u8 {
        // SAFETY: as above.
        unsafe {
            batcher_round_try_construct(
                &mut self.handle,
                step,
                known.as_mut_ptr(),
                known.len(),
                list.as_mut_ptr(),
                list.len(),
                signers.as_mut_ptr(),
                signers.len(),
            )
        }
    }

    pub(crate) fn construct_together(
        &mut self,
        kind: u8,
        proposal: &Proposal,
        list: &[Attestation],
        step: &mut Step,
    ) -> u8 {
        // SAFETY: as above.
        unsafe {
            batcher_round_construct_together(
                &mut self.handle,
                kind,
                proposal,
                list.as_ptr(),
                list.len(),
                step,
            )
        }
    }
}

// The library asks for memory by the three functions below. It names no size where it gives a block
// back, which Rust's heap wants, so each block has 16 bytes before it in which its size is noted.
// That keeps it aligned, since an alignment that is asked for divides 16.
const BEFORE: usize = 16;

/// A pointer to a block, where there is one, and else to a place that nobody uses.
#[repr(C)]
pub struct Tried {
    ok: bool,
    at: *mut c_void,
}

static NOWHERE: u128 = 0;

fn layout(size: usize) -> Option<Layout> {
    Layout::from_size_align(size.checked_add(BEFORE)?, BEFORE).ok()
}

/// # Safety
///
/// `block` is null, or a block of this layout that Rust's heap has just given.
unsafe fn tried(block: *mut u8, layout: Layout) -> Tried {
    if block.is_null() {
        return refused();
    }
    // SAFETY: the block is of 16 bytes or more and aligned by 16, so a size fits at its start, and
    // what is after the first 16 is still in the block or at its end.
    unsafe {
        block.cast::<usize>().write(layout.size());
        Tried {
            ok: true,
            at: block.add(BEFORE).cast(),
        }
    }
}

fn refused() -> Tried {
    Tried {
        ok: false,
        at: (&raw const NOWHERE).cast_mut().cast(),
    }
}

/// # Safety
///
/// `at` is what `rattle_alloc` or `rattle_realloc` has answered with `ok`, and wasn't given back
/// since.
unsafe fn block_of(at: *mut c_void) -> (*mut u8, Layout) {
    // SAFETY: 16 bytes before it its block begins, with the size that `tried` has noted, of a
    // layout that was one.
    unsafe {
        let block = at.cast::<u8>().sub(BEFORE);
        let size = block.cast::<usize>().read();
        (block, Layout::from_size_align_unchecked(size, BEFORE))
    }
}

#[unsafe(no_mangle)]
extern "C" fn rattle_alloc(size: usize, _align: usize) -> Tried {
    let Some(layout) = layout(size) else {
        return refused();
    };
    // SAFETY: the layout has 16 bytes or more, and the block is handed on as it was given.
    unsafe { tried(alloc(layout), layout) }
}

/// # Safety
///
/// As of `block_of`.
#[unsafe(no_mangle)]
unsafe extern "C" fn rattle_realloc(
    at: *mut c_void,
    _kept: usize,
    size: usize,
    _align: usize,
) -> Tried {
    let Some(layout) = layout(size) else {
        return refused();
    };
    // SAFETY: the block is one of Rust's heap with the layout that it was given by, as the caller
    // promises.
    unsafe {
        let (block, before) = block_of(at);
        tried(realloc(block, before, layout.size()), layout)
    }
}

/// # Safety
///
/// As of `block_of`.
#[unsafe(no_mangle)]
unsafe extern "C" fn rattle_dealloc(at: *mut c_void) {
    // SAFETY: as of `rattle_realloc`.
    unsafe {
        let (block, layout) = block_of(at);
        dealloc(block, layout);
    }
}

#[cfg(test)]
mod tests {
    use super::*;

    #[test]
    fn blocks_keep_their_bytes_and_refusals_are_answers() {
        let block = rattle_alloc(3, 1);
        assert!(block.ok && block.at.addr() % 16 == 0);
        // SAFETY: the block is of 3 bytes, then of 5000, then of 2, and is given back once.
        unsafe {
            block.at.cast::<[u8; 3]>().write([1, 2, 3]);
            let refused = rattle_realloc(block.at, 3, usize::MAX - 20, 1);
            assert!(!refused.ok && !refused.at.is_null());
            let larger = rattle_realloc(block.at, 3, 5000, 1);
            assert!(larger.ok);
            assert_eq!(larger.at.cast::<[u8; 3]>().read(), [1, 2, 3]);
            let smaller = rattle_realloc(larger.at, 2, 2, 1);
            assert!(smaller.ok && smaller.at.addr() % 16 == 0);
            assert_eq!(smaller.at.cast::<[u8; 2]>().read(), [1, 2]);
            rattle_dealloc(smaller.at);
        }
        for size in [usize::MAX, usize::MAX - 15, isize::MAX as usize - 15] {
            assert!(!rattle_alloc(size, 8).ok);
        }
        let nothing = rattle_alloc(0, 16);
        assert!(nothing.ok);
        // SAFETY: the block is given back once.
        unsafe { rattle_dealloc(nothing.at) };
    }
}
