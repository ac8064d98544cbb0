//! A verified vote batcher for the simplex consensus, for schemes that live in Rust.
//!
//! A batcher takes in the votes of a view. It keeps the first vote of each kind per signer, names
//! peers that equivocate, so that they can be blocked, and makes certificates out of quorums. What
//! it answers is computed by a static library that is proved, and that keeps signatures as their
//! bytes; this crate has them verified, and hands the verdicts on. `docs/RUST.md` of its repository
//! says what is proved, and what a caller owes.
//!
//! A [`Scheme`] says what signatures are worth, and a [`Round`] is one view: votes go in by
//! [`Round::add_network`] and [`Round::accept_vote`], certificates come out of
//! [`Round::try_construct`]. Who verifies elsewhere, as on other threads, takes [`Round::step`] in
//! its place. A [`Validator`] votes by the rules over many views, and says what is to be done next:
//! [`validator`] says how it is used, and [`Files`] keeps what it writes. A [`Driver`] is one that
//! also writes, signs and verifies: [`driver`] says how, and an application begins there. They
//! stay on their thread; [`thread`] has a handle that doesn't. Of two votes that are reported,
//! [`convicted`] says whether they show others too that their signer broke the rules. The examples
//! `view` and `mailbox` of this crate are whole programs, and `rust/store` and `rust/validator` are
//! some with real signatures.
//!
//! To run a copy of an example, enable the feature `test` of this crate, and begin with
//! `use batcher::test::*;`, which has its scheme and its votes.
//!
//! The number of a round has the name of what happens in it, so import it by another one:
//! `use batcher::positions::Round as Number;`
//!
//! ```
//! # include!(concat!(env!("CARGO_MANIFEST_DIR"), "/tests/toy/mod.rs"));
//! use batcher::{BlockReason, Kind, Outcome, Participant, Round};
//! # fn main() -> Result<(), batcher::Error> {
//! let mut round = Round::new(ROUND, Toy::new(4), true)?;
//! round.set_leader(Participant::new(2))?;
//! // Participants 1 and 2 notarize a proposal, and 3 signs badly.
//! for vote in [notarize(1, 7), notarize(2, 7), bad(notarize(3, 7))] {
//!     let sender = KEYS[usize::from(vote.signer())];
//!     let admission = round.add_network(&sender, &vote)?;
//!     assert!(admission.added && admission.block.is_none());
//! }
//! let batch = round.try_construct()?.expect("three votes could be a quorum");
//! assert_eq!(batch.invalid, [Participant::new(3)]);
//! assert!(batch.certificate.is_none());
//! // The node's own vote makes the quorum. It is sent only where the round says so.
//! # let mut sent = Vec::new();
//! # let mut send = |vote| sent.push(vote);
//! let vote = notarize(0, 7);
//! if let Outcome::ToSend { .. } = round.accept_vote(&vote)? {
//!     send(vote);
//! }
//! // Nothing is verified twice.
//! let batch = round.try_construct()?.expect("three votes that attest");
//! assert_eq!(batch.kind(), Some(Kind::Notarization));
//! // Who votes for something else is to be blocked.
//! let admission = round.add_network(&KEYS[1], &notarize(1, 8))?;
//! assert_eq!(admission.block, Some(BlockReason::ConflictingNotarize));
//! # assert_eq!(sent, [notarize(0, 7)]);
//! # Ok(())
//! # }
//! ```

#![deny(missing_debug_implementations)]
#![deny(missing_docs)]
#![deny(unsafe_code)]

#[cfg(not(all(target_arch = "x86_64", target_os = "linux")))]
compile_error!("the static library of this crate is built for x86-64 Linux alone");

mod answers;
mod construct;
pub mod driver;
pub mod errors;
mod evidence;
#[allow(unsafe_code)]
mod ffi;
mod files;
mod flat;
pub mod messages;
pub mod positions;
pub mod round;
mod scheme;
/// The toy scheme of the examples, whose signatures protect nothing. It is there with the feature
/// `test` alone.
#[cfg(feature = "test")]
#[allow(missing_docs)]
#[path = "../tests/toy/mod.rs"]
pub mod test;
pub mod thread;
pub mod validator;

#[cfg(feature = "test")]
extern crate self as batcher;

pub use answers::{Admission, Batch, BlockReason, Mode, Outcome, OwnFault};
pub use driver::Driver;
pub use errors::Error;
pub use evidence::convicted;
pub use files::{Files, NewFiles, Opened};
pub use messages::{
    Activity, Attestation, Certificate, Finalization, Finalize, Kind, Notarization, Notarize,
    Nullification, Nullify, Proposal, Sha256Digest, Subject, Vote,
};
pub use positions::{Epoch, Participant, Set, SetFault, View, quorum};
pub use round::{Round, Step, Wanted, WantedTogether};
pub use scheme::Scheme;
pub use validator::Validator;

/// What a round answers isn't dropped without a warning. The first programs are refused for that
/// alone: the last makes the same calls, says that it drops their answers, and compiles.
///
/// ```compile_fail
/// #![deny(unused_must_use)]
/// # include!(concat!(env!("CARGO_MANIFEST_DIR"), "/tests/toy/mod.rs"));
/// # fn main() -> Result<(), batcher::Error> {
/// let mut round = batcher::Round::new(ROUND, Toy::new(4), true)?;
/// round.accept_vote(&notarize(0, 7))?;
/// # Ok(())
/// # }
/// ```
///
/// ```compile_fail
/// #![deny(unused_must_use)]
/// # include!(concat!(env!("CARGO_MANIFEST_DIR"), "/tests/toy/mod.rs"));
/// # fn main() -> Result<(), batcher::Error> {
/// let mut round = batcher::Round::new(ROUND, Toy::new(4), true)?;
/// round.add_network(&"ada", &notarize(0, 7))?;
/// # Ok(())
/// # }
/// ```
///
/// ```compile_fail
/// #![deny(unused_must_use)]
/// # include!(concat!(env!("CARGO_MANIFEST_DIR"), "/tests/toy/mod.rs"));
/// # fn main() -> Result<(), batcher::Error> {
/// let mut round = batcher::Round::new(ROUND, Toy::new(4), true)?;
/// round.step()?;
/// # Ok(())
/// # }
/// ```
///
/// ```
/// #![deny(unused_must_use)]
/// # include!(concat!(env!("CARGO_MANIFEST_DIR"), "/tests/toy/mod.rs"));
/// # fn main() -> Result<(), batcher::Error> {
/// let mut round = batcher::Round::new(ROUND, Toy::new(4), true)?;
/// let _ = round.accept_vote(&notarize(0, 7))?;
/// let _ = round.add_network(&"ada", &notarize(0, 7))?;
/// let _ = round.step()?;
/// # Ok(())
/// # }
/// ```
#[cfg(doctest)]
struct Dropped;
