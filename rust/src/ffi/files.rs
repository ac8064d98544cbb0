//! What is declared of files. `tools/header` compares these declarations with the header too.

use super::code;
use std::ffi::c_void;
use std::ptr;

/// `struct batcher_change`
#[repr(C)]
#[derive(Clone, Copy, Default)]
pub(crate) struct Change {
    pub(crate) at: u64,
    pub(crate) change: u8,
    pub(crate) byte: u8,
    pub(crate) in_other: bool,
}

/// `struct batcher_files`
#[repr(C)]
struct FilesHandle {
    at: *mut c_void,
}

/// What is in two files, in the library's memory, of which the same holds as of a round.
pub(crate) struct Files {
    handle: FilesHandle,
}

unsafe extern "C" {
    fn batcher_files_open(
        files: *mut FilesHandle,
        first: *const u8,
        first_length: usize,
        second: *const u8,
        second_length: usize,
        turned: *mut bool,
    ) -> u8;
    fn batcher_files_create(
        files: *mut FilesHandle,
        first: *const u8,
        first_length: usize,
        second: *const u8,
        second_length: usize,
        bytes: *const u8,
        bytes_length: usize,
    ) -> u8;
    fn batcher_files_free(files: *mut FilesHandle);
    fn batcher_files_append(files: *mut FilesHandle, bytes: *const u8, bytes_length: usize) -> u8;
    fn batcher_files_replace(files: *mut FilesHandle, bytes: *const u8, bytes_length: usize) -> u8;
    fn batcher_files_change(files: *const FilesHandle, number: u64, change: *mut Change) -> u8;
    fn batcher_files_carried_out(files: *mut FilesHandle) -> u8;
    fn batcher_files_frame(
        files: *const FilesHandle,
        room: *mut u8,
        room_length: usize,
        count: *mut u64,
    ) -> u8;
    fn batcher_files_bytes(
        files: *const FilesHandle,
        room: *mut u8,
        room_length: usize,
        count: *mut u64,
    ) -> u8;
}

impl Drop for Files {
    fn drop(&mut self) {
        // SAFETY: the handle is empty, or is one that `batcher_files_open` or
        // `batcher_files_create` filled and nobody else has.
        unsafe { batcher_files_free(&mut self.handle) }
    }
}

// As of the calls of a round.
impl Files {
    fn empty() -> Self {
        super::batcher_abi_9();
        let handle = FilesHandle {
            at: ptr::null_mut(),
        };
        Files { handle }
    }

    /// What is in two files, and whether the second is the one in use, or the code that was
    /// answered.
    pub(crate) fn open(first: &[u8], second: &[u8]) -> Result<(Self, bool), u8> {
        let (mut made, mut turned) = (Files::empty(), false);
        // SAFETY: as above; an empty handle is a null pointer.
        let answer = unsafe {
            batcher_files_open(
                &mut made.handle,
                first.as_ptr(),
                first.len(),
                second.as_ptr(),
                second.len(),
                &mut turned,
            )
        };
        match answer {
            code::DONE => Ok((made, turned)),
            answer => Err(answer),
        }
    }

    /// Two files that have nothing in them, which are to have these bytes.
    pub(crate) fn create(first: &[u8], second: &[u8], bytes: &[u8]) -> Result<Self, u8> {
        let mut made = Files::empty();
        // SAFETY: as above.
        let answer = unsafe {
            batcher_files_create(
                &mut made.handle,
                first.as_ptr(),
                first.len(),
                second.as_ptr(),
                second.len(),
                bytes.as_ptr(),
                bytes.len(),
            )
        };
        match answer {
            code::DONE => Ok(made),
            answer => Err(answer),
        }
    }

    pub(crate) fn append(&mut self, bytes: &[u8]) -> u8 {
        // SAFETY: as above.
        unsafe { batcher_files_append(&mut self.handle, bytes.as_ptr(), bytes.len()) }
    }

    pub(crate) fn replace(&mut self, bytes: &[u8]) -> u8 {
        // SAFETY: as above.
        unsafe { batcher_files_replace(&mut self.handle, bytes.as_ptr(), bytes.len()) }
    }

    pub(crate) fn change(&self, number: u64, change: &mut Change) -> u8 {
        // SAFETY: as above.
        unsafe { batcher_files_change(&self.handle, number, change) }
    }

    pub(crate) fn carried_out(&mut self) -> u8 {
        // SAFETY: as above.
        unsafe { batcher_files_carried_out(&mut self.handle) }
    }

    pub(crate) fn frame(&self, room: &mut [u8], count: &mut u64) -> u8 {
        // SAFETY: as above.
        unsafe { batcher_files_frame(&self.handle, room.as_mut_ptr(), room.len(), count) }
    }

    pub(crate) fn bytes(&self, room: &mut [u8], count: &mut u64) -> u8 {
        // SAFETY: as above.
        unsafe { batcher_files_bytes(&self.handle, room.as_mut_ptr(), room.len(), count) }
    }
}
