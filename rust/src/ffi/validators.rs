//! What is declared of validators. `tools/header` compares these declarations with the header too.

use super::{Admission, Attestation, Proposal, Step, Vote, code};
use std::ffi::c_void;
use std::ptr;

/// `struct batcher_task`
#[repr(C)]
#[derive(Clone, Copy, Default)]
pub(crate) struct Task {
    pub(crate) vote: Vote,
    pub(crate) proposal: Proposal,
    pub(crate) participant: u32,
    pub(crate) task: u8,
    pub(crate) kind: u8,
    pub(crate) cause: u8,
}

/// `struct batcher_counts`
#[derive(Clone, Copy, Default)]
#[repr(C)]
pub(crate) struct Counts {
    pub(crate) pending: u64,
    pub(crate) verified: u64,
    pub(crate) certified: bool,
}

/// `struct batcher_progress`
#[derive(Clone, Copy, Default)]
#[repr(C)]
pub(crate) struct Progress {
    pub(crate) notarizes: Counts,
    pub(crate) nullifies: Counts,
    pub(crate) finalizes: Counts,
    pub(crate) leader: u32,
    pub(crate) has_leader: bool,
    pub(crate) has_proposal: bool,
}

/// `struct batcher_validator_options`
#[repr(C)]
pub(crate) struct ValidatorOptions {
    pub(crate) epoch: u64,
    pub(crate) ahead: u64,
    pub(crate) participants: u32,
    pub(crate) participant: u32,
    pub(crate) keys: [u8; 32],
    pub(crate) track_historical_votes: bool,
    pub(crate) begins: bool,
}

/// `struct batcher_validator`
#[repr(C)]
struct ValidatorHandle {
    at: *mut c_void,
}

/// A validator in the library's memory, of which the same holds as of a round.
pub(crate) struct Validator {
    handle: ValidatorHandle,
}

unsafe extern "C" {
    fn batcher_validator_disk(
        options: *const ValidatorOptions,
        namespace: *const u8,
        namespace_length: usize,
        disk: *const u8,
        disk_length: usize,
        list: *mut Vote,
        list_length: usize,
        count: *mut u64,
    ) -> u8;
    fn batcher_validator_start(
        validator: *mut ValidatorHandle,
        options: *const ValidatorOptions,
        namespace: *const u8,
        namespace_length: usize,
        disk: *const u8,
        disk_length: usize,
        verdicts: *const bool,
        verdicts_length: usize,
    ) -> u8;
    fn batcher_validator_free(validator: *mut ValidatorHandle);
    fn batcher_validator_poll(validator: *mut ValidatorHandle, task: *mut Task) -> u8;
    fn batcher_validator_give(
        validator: *mut ValidatorHandle,
        number: u64,
        room: *mut u8,
        room_length: usize,
        count: *mut u64,
        replaces: *mut bool,
    ) -> u8;
    fn batcher_validator_wrote(validator: *mut ValidatorHandle, number: u64) -> u8;
    fn batcher_validator_vote(
        validator: *mut ValidatorHandle,
        peer: u64,
        vote: *const Vote,
        admission: *mut Admission,
    ) -> u8;
    fn batcher_validator_certificate(
        validator: *mut ValidatorHandle,
        peer: u64,
        kind: u8,
        proposal: *const Proposal,
        bytes: *const u8,
        bytes_length: usize,
        verdicts: *const bool,
        verdicts_length: usize,
    ) -> u8;
    fn batcher_validator_listed(
        validator: *const ValidatorHandle,
        bytes: *const u8,
        bytes_length: usize,
        list: *mut Attestation,
        list_length: usize,
        count: *mut u64,
    ) -> u8;
    fn batcher_validator_wants(
        validator: *const ValidatorHandle,
        peer: u64,
        kind: u8,
        proposal: *const Proposal,
    ) -> u8;
    fn batcher_validator_lend(
        validator: *mut ValidatorHandle,
        step: *mut Step,
        stamp: *mut u64,
        list: *mut Attestation,
        list_length: usize,
    ) -> u8;
    fn batcher_validator_conclude(
        validator: *mut ValidatorHandle,
        view: u64,
        kind: u8,
        stamp: u64,
        verdicts: *const bool,
        verdicts_length: usize,
    ) -> u8;
    fn batcher_message(
        namespace: *const u8,
        namespace_length: usize,
        kind: u8,
        proposal: *const Proposal,
        room: *mut u8,
        room_length: usize,
        count: *mut u64,
    ) -> u8;
    fn batcher_validator_message(
        validator: *const ValidatorHandle,
        kind: u8,
        proposal: *const Proposal,
        room: *mut u8,
        room_length: usize,
        count: *mut u64,
    ) -> u8;
    fn batcher_validator_cast(
        validator: *mut ValidatorHandle,
        vote: *const Vote,
        attests: bool,
    ) -> u8;
    fn batcher_validator_enter(validator: *mut ValidatorHandle, view: u64, leader: u32) -> u8;
    fn batcher_validator_judge(
        validator: *mut ValidatorHandle,
        proposal: *const Proposal,
        valid: bool,
    ) -> u8;
    fn batcher_validator_expire(
        validator: *mut ValidatorHandle,
        view: u64,
        progress: *mut Progress,
    ) -> u8;
    fn batcher_validator_progress(
        validator: *const ValidatorHandle,
        view: u64,
        progress: *mut Progress,
    ) -> u8;
    fn batcher_validator_views(
        validator: *const ValidatorHandle,
        current: *mut u64,
        last: *mut u64,
    ) -> u8;
    fn batcher_validator_hears(validator: *const ValidatorHandle, peer: u64) -> u8;
    fn batcher_validator_certified(
        validator: *const ValidatorHandle,
        kind: u8,
        proposal: *mut Proposal,
    ) -> u8;
    fn batcher_validator_kept(
        validator: *const ValidatorHandle,
        kind: u8,
        proposal: *mut Proposal,
        room: *mut u8,
        room_length: usize,
        count: *mut u64,
    ) -> u8;
    fn batcher_validator_lacking(
        validator: *const ValidatorHandle,
        proposal: *const Proposal,
        list: *mut u32,
        list_length: usize,
        count: *mut u64,
    ) -> u8;
}

impl Drop for Validator {
    fn drop(&mut self) {
        // SAFETY: the handle is empty, or is one that `batcher_validator_start` filled and nobody
        // else has.
        unsafe { batcher_validator_free(&mut self.handle) }
    }
}

// As of the calls of a round.
impl Validator {
    /// The votes that a disk shows, where there is room for all. Else how many they are.
    pub(crate) fn disk(
        options: &ValidatorOptions,
        namespace: &[u8],
        disk: &[u8],
        list: &mut [Vote],
        count: &mut u64,
    ) -> u8 {
        super::batcher_abi_9();
        // SAFETY: as above, and each list is as long as is said.
        unsafe {
            batcher_validator_disk(
                options,
                namespace.as_ptr(),
                namespace.len(),
                disk.as_ptr(),
                disk.len(),
                list.as_mut_ptr(),
                list.len(),
                count,
            )
        }
    }

    /// A validator, or the code that was answered.
    pub(crate) fn start(
        options: &ValidatorOptions,
        namespace: &[u8],
        disk: &[u8],
        verdicts: &[bool],
    ) -> Result<Self, u8> {
        let handle = ValidatorHandle {
            at: ptr::null_mut(),
        };
        let mut made = Validator { handle };
        super::batcher_abi_9();
        // SAFETY: as above; an empty handle is a null pointer.
        let answer = unsafe {
            batcher_validator_start(
                &mut made.handle,
                options,
                namespace.as_ptr(),
                namespace.len(),
                disk.as_ptr(),
                disk.len(),
                verdicts.as_ptr(),
                verdicts.len(),
            )
        };
        match answer {
            code::DONE => Ok(made),
            answer => Err(answer),
        }
    }

    pub(crate) fn poll(&mut self, task: &mut Task) -> u8 {
        // SAFETY: as above.
        unsafe { batcher_validator_poll(&mut self.handle, task) }
    }

    pub(crate) fn give(
        &mut self,
        number: u64,
        bytes: &mut Vec<u8>,
        count: &mut u64,
        replaces: &mut bool,
    ) -> u8 {
        write_into(bytes, count, |room, length, count| {
            // SAFETY: as above, and the room is as long as is said.
            unsafe {
                batcher_validator_give(&mut self.handle, number, room, length, count, replaces)
            }
        })
    }

    pub(crate) fn wrote(&mut self, number: u64) -> u8 {
        // SAFETY: as above.
        unsafe { batcher_validator_wrote(&mut self.handle, number) }
    }

    pub(crate) fn vote(&mut self, peer: u64, vote: &Vote, admission: &mut Admission) -> u8 {
        // SAFETY: as above.
        unsafe { batcher_validator_vote(&mut self.handle, peer, vote, admission) }
    }

    pub(crate) fn certificate(
        &mut self,
        peer: u64,
        kind: u8,
        proposal: &Proposal,
        bytes: &[u8],
        verdicts: &[bool],
    ) -> u8 {
        // SAFETY: as above.
        unsafe {
            batcher_validator_certificate(
                &mut self.handle,
                peer,
                kind,
                proposal,
                bytes.as_ptr(),
                bytes.len(),
                verdicts.as_ptr(),
                verdicts.len(),
            )
        }
    }

    pub(crate) fn listed(&self, bytes: &[u8], list: &mut [Attestation], count: &mut u64) -> u8 {
        let (room, length) = (list.as_mut_ptr(), list.len());
        // SAFETY: as above.
        unsafe {
            batcher_validator_listed(
                &self.handle,
                bytes.as_ptr(),
                bytes.len(),
                room,
                length,
                count,
            )
        }
    }

    pub(crate) fn wants(&self, peer: u64, kind: u8, proposal: &Proposal) -> u8 {
        // SAFETY: as above.
        unsafe { batcher_validator_wants(&self.handle, peer, kind, proposal) }
    }

    pub(crate) fn lend(
        &mut self,
        step: &mut Step,
        stamp: &mut u64,
        list: &mut [Attestation],
    ) -> u8 {
        let (room, length) = (list.as_mut_ptr(), list.len());
        // SAFETY: as above.
        unsafe { batcher_validator_lend(&mut self.handle, step, stamp, room, length) }
    }

    pub(crate) fn conclude(&mut self, view: u64, kind: u8, stamp: u64, verdicts: &[bool]) -> u8 {
        let (from, length) = (verdicts.as_ptr(), verdicts.len());
        // SAFETY: as above.
        unsafe { batcher_validator_conclude(&mut self.handle, view, kind, stamp, from, length) }
    }

    pub(crate) fn message(
        &self,
        kind: u8,
        proposal: &Proposal,
        bytes: &mut Vec<u8>,
        count: &mut u64,
    ) -> u8 {
        write_into(bytes, count, |room, length, count| {
            // SAFETY: as above, and the room is as long as is said.
            unsafe { batcher_validator_message(&self.handle, kind, proposal, room, length, count) }
        })
    }

    pub(crate) fn cast(&mut self, vote: &Vote, attests: bool) -> u8 {
        // SAFETY: as above.
        unsafe { batcher_validator_cast(&mut self.handle, vote, attests) }
    }

    pub(crate) fn enter(&mut self, view: u64, leader: u32) -> u8 {
        // SAFETY: as above.
        unsafe { batcher_validator_enter(&mut self.handle, view, leader) }
    }

    pub(crate) fn judge(&mut self, proposal: &Proposal, valid: bool) -> u8 {
        // SAFETY: as above.
        unsafe { batcher_validator_judge(&mut self.handle, proposal, valid) }
    }

    pub(crate) fn expire(&mut self, view: u64, progress: &mut Progress) -> u8 {
        // SAFETY: as above.
        unsafe { batcher_validator_expire(&mut self.handle, view, progress) }
    }

    pub(crate) fn progress(&self, view: u64, progress: &mut Progress) -> u8 {
        // SAFETY: as above.
        unsafe { batcher_validator_progress(&self.handle, view, progress) }
    }

    pub(crate) fn views(&self, current: &mut u64, last: &mut u64) -> u8 {
        // SAFETY: as above.
        unsafe { batcher_validator_views(&self.handle, current, last) }
    }

    pub(crate) fn hears(&self, peer: u64) -> u8 {
        // SAFETY: as above.
        unsafe { batcher_validator_hears(&self.handle, peer) }
    }

    pub(crate) fn certified(&self, kind: u8, proposal: &mut Proposal) -> u8 {
        // SAFETY: as above.
        unsafe { batcher_validator_certified(&self.handle, kind, proposal) }
    }

    pub(crate) fn kept(
        &self,
        kind: u8,
        proposal: &mut Proposal,
        bytes: &mut Vec<u8>,
        count: &mut u64,
    ) -> u8 {
        write_into(bytes, count, |room, length, count| {
            // SAFETY: as above, and the room is as long as is said.
            unsafe { batcher_validator_kept(&self.handle, kind, proposal, room, length, count) }
        })
    }

    pub(crate) fn lacking(&self, proposal: &Proposal, list: &mut [u32], count: &mut u64) -> u8 {
        let (to, length) = (list.as_mut_ptr(), list.len());
        // SAFETY: as above, and the list is as long as is said.
        unsafe { batcher_validator_lacking(&self.handle, proposal, to, length, count) }
    }
}

/// The bytes to sign for a subject in a namespace.
pub(crate) fn message(
    namespace: &[u8],
    kind: u8,
    proposal: &Proposal,
    bytes: &mut Vec<u8>,
    count: &mut u64,
) -> u8 {
    write_into(bytes, count, |room, length, count| {
        let (from, its_length) = (namespace.as_ptr(), namespace.len());
        // SAFETY: the namespace and the room are as long as is said.
        unsafe { batcher_message(from, its_length, kind, proposal, room, length, count) }
    })
}

/// Has bytes written into the room of a list, where they fit there. The room isn't set to zero
/// before.
fn write_into(
    bytes: &mut Vec<u8>,
    count: &mut u64,
    write: impl FnOnce(*mut u8, usize, &mut u64) -> u8,
) -> u8 {
    bytes.clear();
    let answer = write(bytes.as_mut_ptr(), bytes.capacity(), count);
    if answer == code::DONE {
        // SAFETY: they fit into the room, and all of them are written.
        unsafe { bytes.set_len(*count as usize) }
    }
    answer
}
