//! A lock of the system's, by the C library.

use std::ffi::c_int;
use std::fs::File;
use std::io;
use std::ops::{Deref, DerefMut};
use std::os::fd::AsRawFd;

// Of Linux.
const LOCK_EX: c_int = 2;
const LOCK_NB: c_int = 4;
const LOCK_UN: c_int = 8;

unsafe extern "C" {
    fn flock(file: c_int, operation: c_int) -> c_int;
}

/// A file that is open and locked, until it is dropped. What the lock keeps out is others that ask
/// for it.
pub(crate) struct Locked(File);

impl Locked {
    /// `WouldBlock`: somebody else has it open and locked.
    pub(crate) fn new(file: File) -> io::Result<Locked> {
        // SAFETY: it takes two numbers, of which the first is that of a file that is open.
        match unsafe { flock(file.as_raw_fd(), LOCK_EX | LOCK_NB) } {
            0 => Ok(Locked(file)),
            _ => Err(io::Error::last_os_error()),
        }
    }
}

impl Deref for Locked {
    type Target = File;

    fn deref(&self) -> &File {
        &self.0
    }
}

impl DerefMut for Locked {
    fn deref_mut(&mut self) -> &mut File {
        &mut self.0
    }
}

impl Drop for Locked {
    /// A program that another thread is starting has each open file of this one until it runs. The
    /// lock would last as long if the file were only closed.
    fn drop(&mut self) {
        // SAFETY: as above.
        unsafe { flock(self.0.as_raw_fd(), LOCK_UN) };
    }
}
