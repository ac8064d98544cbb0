//! A heap that refuses one request of a call, on its thread.

use std::alloc::{GlobalAlloc, Layout, System};
use std::cell::Cell;

thread_local! {
    /// How many requests are granted before one is refused, where that is counted.
    static GRANTED: Cell<Option<u64>> = const { Cell::new(None) };
}

/// Whether the next request is refused. After one is, all are granted.
fn refuses() -> bool {
    let left = GRANTED.get();
    GRANTED.set(match left {
        Some(0) | None => None,
        Some(left) => Some(left - 1),
    });
    left == Some(0)
}

pub struct Refusing;

// SAFETY: it answers what the system's heap answers, or null, which says that there is no memory.
unsafe impl GlobalAlloc for Refusing {
    unsafe fn alloc(&self, layout: Layout) -> *mut u8 {
        if refuses() {
            return std::ptr::null_mut();
        }
        // SAFETY: as the caller promises.
        unsafe { System.alloc(layout) }
    }

    unsafe fn realloc(&self, at: *mut u8, layout: Layout, size: usize) -> *mut u8 {
        if refuses() {
            return std::ptr::null_mut();
        }
        // SAFETY: as the caller promises.
        unsafe { System.realloc(at, layout, size) }
    }

    unsafe fn dealloc(&self, at: *mut u8, layout: Layout) {
        // SAFETY: as the caller promises.
        unsafe { System.dealloc(at, layout) }
    }
}

/// Makes a call of which the request behind so many is refused, and says whether there was one.
pub fn refused<R>(granted: u64, call: impl FnOnce() -> R) -> (R, bool) {
    GRANTED.set(Some(granted));
    let answer = call();
    (answer, GRANTED.take().is_none())
}

/// Counts no more requests, as where such a call has panicked.
pub fn grant_all() {
    GRANTED.set(None);
}

/// Does something in such a call of which no request is counted.
pub fn uncounted<R>(what: impl FnOnce() -> R) -> R {
    let granted = GRANTED.take();
    let answer = what();
    GRANTED.set(granted);
    answer
}
