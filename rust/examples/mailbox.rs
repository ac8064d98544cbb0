//! A round on a thread of its own, which takes in votes while other threads verify. It prints what
//! came of them, and panics where that isn't one certificate.

#[path = "../tests/toy/mod.rs"]
mod toy;

use batcher::errors::RoundError;
use batcher::thread::{Host, Mailbox};
use batcher::{Attestation, Batch, Error, Kind, Round, Scheme, Vote};
use std::sync::mpsc::{Sender, channel};
use std::thread;
use toy::{KEYS, ROUND, Signature, Toy, bad, nullify};

type Made = Batch<Vec<Attestation<Signature>>>;
type Step = batcher::Step<Signature, Vec<Attestation<Signature>>>;

/// Steps until something is to be verified. What is made is sent on from here, within the job,
/// since it is given once, and an answer that nobody waits for is lost.
fn step(round: &mut Round<Toy>, made: &Sender<Made>) -> Result<Step, Error> {
    loop {
        match round.step()? {
            // Where nobody listens any more, the round isn't to be lost by a panic as well.
            Step::Made(batch) => drop(made.send(batch)),
            step => return Ok(step),
        }
    }
}

/// Verifies what the round wants, while the round takes in other votes, and hands in the verdicts,
/// until nothing more is wanted.
fn construct(
    mailbox: &Mailbox<Round<Toy>>,
    scheme: &Toy,
    made: &Sender<Made>,
) -> Result<(), Error> {
    let sender = made.clone();
    let mut next = mailbox.call(move |round| step(round, &sender))??;
    loop {
        let sender = made.clone();
        next = match next {
            Step::Verify(wanted) => {
                let verdicts = scheme.verify_attestations(wanted.subject(), wanted.attestations());
                mailbox.call(move |round| {
                    round.record_verdicts(&wanted, &verdicts)?;
                    step(round, &sender)
                })??
            }
            Step::VerifyTogether(wanted) => {
                let (subject, attestations) = (wanted.subject(), wanted.attestations());
                let passes = scheme.verify_together(subject, attestations, wanted.verified());
                mailbox.call(move |round| {
                    round.record_verdict_together(&wanted, passes)?;
                    step(round, &sender)
                })??
            }
            Step::Idle | Step::Made(_) => return Ok(()),
        };
    }
}

/// Takes in what a peer sent, and constructs.
fn hear(
    mailbox: &Mailbox<Round<Toy>>,
    scheme: &Toy,
    made: &Sender<Made>,
    (sender, vote): (&'static str, Vote<Signature>),
) -> Result<(), Error> {
    match mailbox.call(move |round| round.add_network(&sender, &vote))? {
        Ok(admission) => {
            if let Some(reason) = admission.block {
                println!("block {sender}: {reason}");
            }
        }
        Err(RoundError::Elsewhere) => {}
        Err(error) => return Err(error.into()),
    }
    construct(mailbox, scheme, made)
}

fn main() -> Result<(), Error> {
    for aggregates in [false, true] {
        let scheme = Toy::with(4, true, aggregates);
        let host = Host::new()?;
        let own = scheme.clone();
        let mailbox = host.start(move || Round::new(ROUND, own, false))??;
        let (made, batches) = channel();
        let votes = [nullify(0), bad(nullify(1)), nullify(2), nullify(3)];
        let threads = votes.map(|vote| {
            let (mailbox, scheme, made) = (mailbox.clone(), scheme.clone(), made.clone());
            let sender = KEYS[usize::from(vote.signer())];
            thread::spawn(move || hear(&mailbox, &scheme, &made, (sender, vote)))
        });
        drop(made);
        for thread in threads {
            thread.join().expect("no thread panics")?;
        }
        let (mut blocked, mut certificates) = (Vec::new(), Vec::new());
        for batch in batches {
            blocked.extend(batch.invalid.into_iter().map(|it| KEYS[usize::from(it)]));
            certificates.extend(batch.certificate.map(|it| it.kind()));
        }
        println!("blocked {blocked:?}, made {certificates:?}");
        // Where the others were a quorum before its vote came, ben isn't found out.
        assert!(blocked.is_empty() || blocked == ["ben"]);
        assert_eq!(certificates, [Kind::Nullification]);
    }
    Ok(())
}
