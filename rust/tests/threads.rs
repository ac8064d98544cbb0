//! Rounds on a thread of their own.

mod toy;

use batcher::errors::{Gone, LeaderError, NewError};
use batcher::thread::{Host, Mailbox, Reply};
use batcher::{Participant, Round};
use std::future::Future;
use std::pin::pin;
use std::sync::Arc;
use std::sync::mpsc::channel;
use std::task::{Context, Poll, Wake, Waker};
use std::thread::{self, Thread};
use toy::{KEYS, ROUND, Toy, nullify};

fn is_send<T: Send>(_: &T) {}

fn start(host: &Host) -> Mailbox<Round<Toy>> {
    host.start(|| Round::new(ROUND, Toy::new(4), true))
        .unwrap()
        .unwrap()
}

#[test]
fn many_threads_share_a_round() {
    let host = Host::new().unwrap();
    let mailbox = start(&host);
    is_send(&mailbox);
    drop(host);
    let peers: Vec<_> = (0..4)
        .map(|signer| {
            let mailbox = mailbox.clone();
            thread::spawn(move || {
                let vote = nullify(signer);
                let key = KEYS[signer as usize];
                mailbox
                    .call(move |round| round.add_network(&key, &vote))
                    .unwrap()
                    .unwrap()
                    .added
            })
        })
        .collect();
    assert!(peers.into_iter().all(|peer| peer.join().unwrap()));
    let batch = mailbox
        .call(|round| round.try_construct())
        .unwrap()
        .unwrap()
        .unwrap();
    assert_eq!(batch.processed, 4);
}

/// A value whose drop panics.
struct Falls;

impl Drop for Falls {
    fn drop(&mut self) {
        panic!("a drop that panics");
    }
}

// An answer that nobody waits for, and a value without a mailbox, are dropped on the host's thread.
#[test]
fn a_drop_that_panics_ends_no_other_round() {
    let host = Host::new().unwrap();
    let round = start(&host);
    let value = host.start(|| Ok::<_, NewError>(Falls)).unwrap().unwrap();
    let (sender, receiver) = channel::<()>();
    let waits = value.ask(move |_| receiver.recv().is_ok());
    drop(value.ask(|_| Falls));
    sender.send(()).unwrap();
    assert_eq!(waits.wait(), Ok(true));
    assert_eq!(value.call(|_| ()), Ok(()));
    drop(value);
    assert_eq!(round.call(|round| round.leader()), Ok(None));
}

#[test]
fn rounds_of_a_host_are_apart() {
    let host = Host::new().unwrap();
    let (first, second) = (start(&host), start(&host));
    let panics = first.call(|_| panic!("a job that panics"));
    assert_eq!(panics, Err::<(), _>(Gone));
    assert_eq!(first.call(|_| ()), Err(Gone));
    assert_eq!(second.call(|round| round.leader()), Ok(None));
    let none = host.start(|| Round::new(ROUND, Toy::new(0), true));
    assert_eq!(none.unwrap().unwrap_err(), NewError::NoParticipants);
    let gone = host.start(|| -> Result<Round<Toy>, NewError> { panic!("a maker that panics") });
    assert_eq!(gone.unwrap_err(), Gone);
}

// A value is dropped on its thread, with its last mailbox.
#[test]
fn the_last_mailbox_drops_the_value() {
    struct Noted(Arc<()>);
    let (host, note) = (Host::new().unwrap(), Arc::new(()));
    let handed = note.clone();
    let mailbox = host
        .start(move || Ok::<_, NewError>(Noted(handed)))
        .unwrap()
        .unwrap();
    let other = mailbox.clone();
    drop(mailbox);
    assert_eq!(other.call(|noted| Arc::strong_count(&noted.0)), Ok(2));
    drop(other);
    // What comes after it on the thread is made after it is gone.
    host.start(|| Ok::<_, NewError>(())).unwrap().unwrap();
    assert_eq!(Arc::strong_count(&note), 1);
}

struct Unpark(Thread);

impl Wake for Unpark {
    fn wake(self: Arc<Self>) {
        self.0.unpark();
    }
}

// The smallest executor there is.
fn block_on<R>(reply: Reply<R>) -> Result<R, Gone> {
    let waker = Waker::from(Arc::new(Unpark(thread::current())));
    let mut reply = pin!(reply);
    loop {
        match reply.as_mut().poll(&mut Context::from_waker(&waker)) {
            Poll::Ready(answer) => return answer,
            Poll::Pending => thread::park(),
        }
    }
}

#[test]
fn a_reply_is_a_future() {
    let host = Host::new().unwrap();
    let mailbox = start(&host);
    let slow = mailbox.ask(|_| thread::sleep(std::time::Duration::from_millis(20)));
    let leader = mailbox.ask(|round| {
        round.set_leader(Participant::new(1))?;
        Ok::<_, LeaderError>(round.leader())
    });
    assert_eq!(block_on(leader), Ok(Ok(Some(Participant::new(1)))));
    assert_eq!(block_on(slow), Ok(()));
    assert_eq!(
        block_on(mailbox.ask(|_| panic!("a job that panics"))),
        Err::<(), _>(Gone)
    );
}
