//! Rounds and validators on a thread of their own, for callers on many threads and for tasks.
//!
//! A [`Round`](crate::Round) or a [`Validator`](crate::Validator) stays on the thread on which it
//! was made, since the library counts references without atomics. A [`Host`] is a thread that holds any
//! number of them, and a [`Mailbox`] a handle to one that may be cloned and sent anywhere. Each job
//! is run on it alone, in the order in which jobs were handed in. Its answer can be waited for by
//! blocking or as a future, on any executor.
//!
//! A call that waits for its answer takes two switches of threads, some ten microseconds, where the
//! call itself takes less than one. So hand over what has piled up in one job, as in the example.
//! No vote stops those behind it there: each has its own answer, and a vote of another round is
//! refused without harm.
//!
//! ```
//! # include!(concat!(env!("CARGO_MANIFEST_DIR"), "/tests/toy/mod.rs"));
//! use batcher::thread::Host;
//! use batcher::{BlockReason, Round};
//! # fn main() -> Result<(), batcher::Error> {
//! let host = Host::new()?;
//! let scheme = Toy::new(4);
//! let mailbox = host.start(move || Round::new(ROUND, scheme, false))??;
//! // The second one is in another's name.
//! let signers = [("ada", 0), ("dot", 2), ("ben", 1), ("cyd", 2)];
//! let votes = signers.map(|(sender, signer)| (sender, nullify(signer)));
//! let answers = mailbox.call(move |round| {
//!     votes.map(|(sender, vote)| (sender, round.add_network(&sender, &vote)))
//! })?;
//! let mut blocked = Vec::new();
//! for (sender, answer) in answers {
//!     match answer {
//!         Ok(admission) => blocked.extend(admission.block.map(|reason| (sender, reason))),
//!         Err(error) => println!("a vote of {sender}: {error}"),
//!     }
//! }
//! assert_eq!(blocked, [("dot", BlockReason::NullifySignerMismatch)]);
//! let batch = mailbox.call(|round| round.try_construct())??;
//! assert!(batch.is_some_and(|batch| batch.certificate.is_some()));
//! # Ok(())
//! # }
//! ```
//!
//! **A certificate is given once.** Whoever drops the [`Reply`] to a job that constructs loses it,
//! and so does a job that constructs again and is refused then. Where that may be, as in a task
//! that can be cancelled, send on from within the job what is made.
//!
//! `try_construct` verifies on the host's thread, and what else lives there waits meanwhile. Where
//! that isn't to be, use [`Round::step`](crate::Round::step), and verify elsewhere: the example
//! `mailbox` of this crate does so.

use crate::errors::{Gone, NoThread};
use std::any::Any;
use std::collections::HashMap;
use std::fmt;
use std::future::Future;
use std::marker::PhantomData;
use std::panic::{AssertUnwindSafe, catch_unwind};
use std::pin::Pin;
use std::sync::atomic::{AtomicU64, Ordering};
use std::sync::mpsc::{Sender, channel};
use std::sync::{Arc, Condvar, Mutex, MutexGuard, PoisonError};
use std::task::{Context, Poll, Waker};

/// What lives on a host, by its number.
type Values = HashMap<u64, Box<dyn Any>>;

type Job = Box<dyn FnOnce(&mut Values) + Send>;

/// A thread on which values live that can't leave it, as rounds and validators. It ends once the host and all
/// mailboxes to it are dropped.
#[derive(Clone)]
pub struct Host {
    jobs: Sender<Job>,
    next: Arc<AtomicU64>,
}

impl Host {
    /// A thread on which nothing lives yet.
    ///
    /// # Errors
    ///
    /// The system gives no thread.
    pub fn new() -> Result<Self, NoThread> {
        let (jobs, inbox) = channel::<Job>();
        std::thread::Builder::new()
            .name("batcher".into())
            .spawn(move || {
                let mut values = Values::new();
                for job in inbox {
                    // A job catches its own panic. What is dropped or woken after it may panic too,
                    // and the other values are to live on.
                    let _ = catch_unwind(AssertUnwindSafe(|| job(&mut values)));
                }
            })
            .map_err(|_| NoThread)?;
        Ok(Host {
            jobs,
            next: Arc::new(AtomicU64::new(0)),
        })
    }

    /// Makes a value on the thread, and gives a mailbox to it. The value is dropped there once all
    /// its mailboxes are. This isn't to be called by a job of this host, which would wait for
    /// itself.
    ///
    /// # Errors
    ///
    /// `Gone` where `make` panics. Within that is what it answers.
    pub fn start<T: 'static, E: Send + 'static>(
        &self,
        make: impl FnOnce() -> Result<T, E> + Send + 'static,
    ) -> Result<Result<Mailbox<T>, E>, Gone> {
        let number = self.next.fetch_add(1, Ordering::Relaxed);
        let reply = post(&self.jobs, move |values| {
            let made = catch_unwind(AssertUnwindSafe(make)).ok()?;
            Some(made.map(|value| {
                values.insert(number, Box::new(value));
            }))
        });
        if let Err(error) = reply.wait()? {
            return Ok(Err(error));
        }
        let place = Arc::new(Place {
            jobs: self.jobs.clone(),
            number,
        });
        Ok(Ok(Mailbox {
            place,
            of: PhantomData,
        }))
    }
}

impl fmt::Debug for Host {
    fn fmt(&self, f: &mut fmt::Formatter<'_>) -> fmt::Result {
        f.debug_struct("Host").finish_non_exhaustive()
    }
}

/// Where a value lives. The last mailbox that goes drops the value.
struct Place {
    jobs: Sender<Job>,
    number: u64,
}

impl Drop for Place {
    fn drop(&mut self) {
        let number = self.number;
        // Where the thread has ended the value is gone already.
        let _ = self.jobs.send(Box::new(move |values| {
            values.remove(&number);
        }));
    }
}

/// A handle to a value that lives on a [`Host`].
///
/// Jobs wait without a bound. Who waits for each answer before the next job has one there at a
/// time.
pub struct Mailbox<T> {
    place: Arc<Place>,
    of: PhantomData<fn(T)>,
}

impl<T: 'static> Mailbox<T> {
    /// Runs a job on the value, and waits for its answer by blocking this thread. So it isn't to be
    /// called by a job of the same host, which would wait for itself.
    ///
    /// # Errors
    ///
    /// `Gone` where this job or an earlier one has panicked: the value is dropped then, and other
    /// values live on.
    pub fn call<R: Send + 'static>(
        &self,
        job: impl FnOnce(&mut T) -> R + Send + 'static,
    ) -> Result<R, Gone> {
        self.ask(job).wait()
    }

    /// Has a job run on the value. The reply is a future, or can be waited for. Whoever drops it
    /// doesn't stop the job, and loses what it answers.
    pub fn ask<R: Send + 'static>(
        &self,
        job: impl FnOnce(&mut T) -> R + Send + 'static,
    ) -> Reply<R> {
        let number = self.place.number;
        post(&self.place.jobs, move |values| {
            let value = values.get_mut(&number)?.downcast_mut::<T>()?;
            match catch_unwind(AssertUnwindSafe(|| job(value))) {
                Ok(answer) => Some(answer),
                Err(_) => {
                    // It may be in the midst of a change.
                    values.remove(&number);
                    None
                }
            }
        })
    }
}

impl<T> Clone for Mailbox<T> {
    fn clone(&self) -> Self {
        Mailbox {
            place: self.place.clone(),
            of: PhantomData,
        }
    }
}

impl<T> fmt::Debug for Mailbox<T> {
    fn fmt(&self, f: &mut fmt::Formatter<'_>) -> fmt::Result {
        f.debug_struct("Mailbox")
            .field("number", &self.place.number)
            .finish_non_exhaustive()
    }
}

// Hands a job to the thread, which answers none where the value is gone.
fn post<R: Send + 'static>(
    jobs: &Sender<Job>,
    job: impl FnOnce(&mut Values) -> Option<R> + Send + 'static,
) -> Reply<R> {
    let slot = Arc::new(Slot {
        state: Mutex::new(State::Waiting(None)),
        filled: Condvar::new(),
    });
    let answers = Answers(slot.clone());
    // Where the thread has ended the job is dropped, and the slot filled by that.
    let _ = jobs.send(Box::new(move |values| {
        let answer = job(values);
        answers.fill(answer);
    }));
    Reply { slot }
}

enum State<R> {
    Waiting(Option<Waker>),
    /// Where there is none, the value is gone.
    Filled(Option<R>),
}

struct Slot<R> {
    state: Mutex<State<R>>,
    filled: Condvar,
}

impl<R> Slot<R> {
    // Nothing that may panic runs between two changes, so it is never left half done.
    fn lock(&self) -> MutexGuard<'_, State<R>> {
        self.state.lock().unwrap_or_else(PoisonError::into_inner)
    }
}

/// The end of a slot that the job has. Dropped, it says that there will be no answer.
struct Answers<R>(Arc<Slot<R>>);

impl<R> Answers<R> {
    fn fill(&self, answer: Option<R>) {
        let mut state = self.0.lock();
        if let State::Waiting(waker) = &mut *state {
            let waker = waker.take();
            *state = State::Filled(answer);
            drop(state);
            self.0.filled.notify_all();
            if let Some(waker) = waker {
                waker.wake();
            }
        }
    }
}

impl<R> Drop for Answers<R> {
    fn drop(&mut self) {
        self.fill(None);
    }
}

/// The answer to a job, once it is there. As a future it is ready once, and `Gone` from then on. The
/// job is run whether or not the answer is waited for.
#[must_use = "what the job answers is lost with it"]
pub struct Reply<R> {
    slot: Arc<Slot<R>>,
}

impl<R> Reply<R> {
    /// Waits for the answer by blocking this thread. A job of the same host would wait for itself,
    /// and two hosts whose jobs wait for each other wait for ever.
    ///
    /// # Errors
    ///
    /// `Gone` where the job, or an earlier one of its value, has panicked.
    pub fn wait(self) -> Result<R, Gone> {
        let mut state = self.slot.lock();
        loop {
            if let State::Filled(answer) = &mut *state {
                return answer.take().ok_or(Gone);
            }
            state = self
                .slot
                .filled
                .wait(state)
                .unwrap_or_else(PoisonError::into_inner);
        }
    }
}

impl<R> Future for Reply<R> {
    type Output = Result<R, Gone>;

    fn poll(self: Pin<&mut Self>, context: &mut Context<'_>) -> Poll<Self::Output> {
        match &mut *self.slot.lock() {
            State::Filled(answer) => Poll::Ready(answer.take().ok_or(Gone)),
            State::Waiting(waker) => {
                *waker = Some(context.waker().clone());
                Poll::Pending
            }
        }
    }
}

impl<R> fmt::Debug for Reply<R> {
    fn fmt(&self, f: &mut fmt::Formatter<'_>) -> fmt::Result {
        f.debug_struct("Reply").finish_non_exhaustive()
    }
}
