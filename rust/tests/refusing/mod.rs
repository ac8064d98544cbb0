// A heap that refuses one request, and a scheme whose calls take no memory where they are to take none.

use batcher::{Attestation, Error, Participant, Scheme, Set, Subject, Vote, quorum};
use std::alloc::{GlobalAlloc, Layout, System};
use std::cell::Cell;
use std::sync::Arc;

thread_local! {
    /// How many requests are granted before one is refused, where that is counted.
    static GRANTED: Cell<Option<u32>> = const { Cell::new(None) };
}

/// Whether the next request is refused. After one is, all are granted.
fn refuses() -> bool {
    let left = GRANTED.get();
    GRANTED.set(match left {
        Some(0) | None => None,
        Some(left) => Some(left - 1),
    });
    left == Some(0)
}

struct Refusing;

// SAFETY: it answers what the system's heap answers, or null, which says that there is no memory.
unsafe impl GlobalAlloc for Refusing {
    unsafe fn alloc(&self, layout: Layout) -> *mut u8 {
        if refuses() {
            return std::ptr::null_mut();
        }
        // SAFETY: as the caller promises.
        unsafe { System.alloc(layout) }
    }

    unsafe fn realloc(&self, at: *mut u8, layout: Layout, size: usize) -> *mut u8 {
        if refuses() {
            return std::ptr::null_mut();
        }
        // SAFETY: as the caller promises.
        unsafe { System.realloc(at, layout, size) }
    }

    unsafe fn dealloc(&self, at: *mut u8, layout: Layout) {
        // SAFETY: as the caller promises.
        unsafe { System.dealloc(at, layout) }
    }
}

#[global_allocator]
static HEAP: Refusing = Refusing;

/// A signature is whether it is good.
pub type Signature = [u8; 1];

/// The scheme's calls that a round makes take no memory, but for the bytes of a certificate.
#[allow(dead_code)]
pub struct Plain {
    participants: Set<u32>,
    aggregates: bool,
}

#[allow(dead_code)]
impl Plain {
    /// The scheme of so many participants, whose keys are their indices.
    pub fn new(participants: u32, aggregates: bool) -> Arc<Self> {
        let participants = Set::new((0..participants).collect()).unwrap();
        Arc::new(Plain {
            participants,
            aggregates,
        })
    }
}

impl Scheme for Plain {
    type PublicKey = u32;
    type Signature = Signature;
    type Certificate = usize;

    fn participants(&self) -> &Set<u32> {
        &self.participants
    }

    fn keys(&self) -> [u8; 32] {
        [self.participants.len() as u8; 32]
    }

    fn aggregates(&self) -> bool {
        self.aggregates
    }

    fn verify_attestations(
        &self,
        _: &Subject,
        attestations: &[Attestation<Signature>],
    ) -> Vec<bool> {
        attestations.iter().map(|it| it.signature == [1]).collect()
    }

    fn assemble(&self, _: &Subject, attestations: &[Attestation<Signature>]) -> usize {
        attestations.len()
    }

    fn verify_certificate(&self, _: &Subject, certificate: &usize) -> bool {
        *certificate >= quorum(self.participants.len()) as usize
    }

    fn certificate_bytes(&self, certificate: &usize) -> impl AsRef<[u8]> {
        certificate.to_be_bytes()
    }
}

/// Makes a call, and counts its requests alone.
pub fn once<R>(granted: &mut Option<u32>, call: impl FnOnce() -> R) -> R {
    GRANTED.set(*granted);
    let answer = call();
    *granted = GRANTED.take();
    answer
}

/// The same, with the call made once more where memory was refused.
#[allow(dead_code)]
pub fn again<R, E: Copy + Into<Error>>(
    granted: &mut Option<u32>,
    mut call: impl FnMut() -> Result<R, E>,
) -> Result<R, E> {
    match once(granted, &mut call) {
        Err(error) if error.into() == Error::OutOfMemory => call(),
        answer => answer,
    }
}

/// Does something in a call of which no request is counted.
#[allow(dead_code)]
pub fn uncounted<R>(what: impl FnOnce() -> R) -> R {
    let granted = GRANTED.take();
    let answer = what();
    GRANTED.set(granted);
    answer
}

/// Whether a call asks for memory.
#[allow(dead_code)]
pub fn asks<R>(call: impl FnOnce() -> R) -> (R, bool) {
    let mut granted = Some(u32::MAX);
    let answer = once(&mut granted, call);
    (answer, granted != Some(u32::MAX))
}

#[allow(dead_code)]
pub fn vote(subject: Subject, signer: u32, is_good: bool) -> Vote<Signature> {
    let signer = Participant::new(signer);
    Vote::new(subject, Attestation::new(signer, [is_good.into()]))
}

/// Plays a script with no request refused, then with the first one refused, then the second, until
/// none is left, and tells each time that the answers are the same.
pub fn each_refused_in_turn(what: &str, play: impl Fn(&mut Option<u32>) -> Vec<String>) {
    let wanted = play(&mut Some(u32::MAX));
    for granted in 0.. {
        let mut left = Some(granted);
        let answers = play(&mut left);
        assert_eq!(answers, wanted, "{what}, request {granted}");
        // A request that was refused has ended the count.
        if left.is_some() {
            // A script that asks for nothing would show nothing.
            assert!(granted > 5, "{what}: {granted} requests alone");
            return;
        }
    }
}
