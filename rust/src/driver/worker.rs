//! One that does jobs: on the thread of who gives them, or on a thread of its own.

use crate::errors::{Gone, NoThread};
use std::collections::VecDeque;
use std::sync::mpsc::{Receiver, Sender, TryRecvError, channel};
use std::thread::{Builder, JoinHandle};

/// A `T` that makes an answer of each job, in their order.
pub(super) struct Worker<T, J, A> {
    place: Place<T, J, A>,
    does: fn(&mut T, J) -> A,
    answers: VecDeque<A>,
    /// Whether a job is being done on this thread. It is also where one has panicked.
    is_at_work: bool,
}

enum Place<T, J, A> {
    Here(T),
    Apart(Thread<J, A>),
}

struct Thread<J, A> {
    /// None once this is dropped.
    jobs: Option<Sender<J>>,
    answers: Receiver<A>,
    /// Where its end is waited for.
    handle: Option<JoinHandle<()>>,
}

impl<T, J, A> Worker<T, J, A> {
    pub(super) fn new(it: T, does: fn(&mut T, J) -> A) -> Self {
        Worker {
            place: Place::Here(it),
            does,
            answers: VecDeque::new(),
            is_at_work: false,
        }
    }

    pub(super) fn is_apart(&self) -> bool {
        matches!(self.place, Place::Apart(_))
    }

    /// Hands in a job. On this thread it is done when this returns.
    pub(super) fn give(&mut self, job: J) -> Result<(), Gone> {
        match &mut self.place {
            Place::Here(_) if self.is_at_work => Err(Gone),
            Place::Here(it) => {
                self.is_at_work = true;
                let answer = (self.does)(it, job);
                self.is_at_work = false;
                self.answers.push_back(answer);
                Ok(())
            }
            Place::Apart(thread) => {
                let jobs = thread.jobs.as_ref().ok_or(Gone)?;
                jobs.send(job).map_err(|_| Gone)
            }
        }
    }

    /// The answer that came first, of those that weren't taken.
    pub(super) fn first(&mut self) -> Result<Option<&mut A>, Gone> {
        if let Place::Apart(thread) = &mut self.place {
            loop {
                match thread.answers.try_recv() {
                    Ok(answer) => self.answers.push_back(answer),
                    Err(TryRecvError::Empty) => break,
                    Err(TryRecvError::Disconnected) if self.answers.is_empty() => return Err(Gone),
                    Err(TryRecvError::Disconnected) => break,
                }
            }
        }
        if self.is_at_work {
            return Err(Gone);
        }
        Ok(self.answers.front_mut())
    }

    /// Takes that answer.
    pub(super) fn take(&mut self) -> Option<A> {
        self.answers.pop_front()
    }
}

impl<T: 'static, J: Send + 'static, A: Send + 'static> Worker<T, J, A> {
    /// What `make` makes works on a thread of its own, on which it is made. That calls `wake`
    /// behind each answer. Who drops the worker waits for the thread, where `is_awaited`.
    pub(super) fn on_thread(
        name: &str,
        is_awaited: bool,
        does: fn(&mut T, J) -> A,
        wake: impl Fn() + Send + 'static,
        make: impl FnOnce() -> Option<T> + Send + 'static,
    ) -> Result<Self, NoThread> {
        let (jobs, inbox) = channel::<J>();
        let (outbox, answers) = channel::<A>();
        let run = move || {
            // This is dropped last, so that a panic is noticed too.
            let wakes = Wakes(wake);
            let outbox = outbox;
            let Some(mut it) = make() else {
                return;
            };
            for job in inbox {
                if outbox.send(does(&mut it, job)).is_err() {
                    break;
                }
                (wakes.0)();
            }
        };
        let thread = Builder::new().name(name.into()).spawn(run);
        let handle = thread.map_err(|_| NoThread)?;
        let thread = Thread {
            jobs: Some(jobs),
            answers,
            handle: is_awaited.then_some(handle),
        };
        Ok(Worker {
            place: Place::Apart(thread),
            does,
            answers: VecDeque::new(),
            is_at_work: false,
        })
    }

    /// Goes on on a thread of its own, in the same way.
    pub(super) fn apart(
        self,
        name: &str,
        is_awaited: bool,
        wake: impl Fn() + Send + 'static,
    ) -> Result<Self, NoThread>
    where
        T: Send,
    {
        let it = match self.place {
            Place::Here(it) => it,
            place @ Place::Apart(_) => return Ok(Worker { place, ..self }),
        };
        let apart = Worker::on_thread(name, is_awaited, self.does, wake, move || Some(it))?;
        Ok(Worker {
            answers: self.answers,
            is_at_work: self.is_at_work,
            ..apart
        })
    }
}

struct Wakes<W: Fn()>(W);

impl<W: Fn()> Drop for Wakes<W> {
    fn drop(&mut self) {
        if std::thread::panicking() {
            (self.0)();
        }
    }
}

impl<J, A> Drop for Thread<J, A> {
    fn drop(&mut self) {
        self.jobs = None;
        if let Some(handle) = self.handle.take() {
            // Where it has panicked, nothing is left to wait for.
            let _ = handle.join();
        }
    }
}
