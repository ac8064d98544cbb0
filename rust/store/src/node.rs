//! One validator of the store: its driver says what is to be done, and its payloads are blocks.
//!
//! A block is on the disk before its digest is proposed or called valid: it may be final soon
//! after, and a crash of some is not to take it from all. Its leader sends it to all others, and
//! who lacks one asks for it by its digest. Each block names the one before it: from what is final
//! a validator walks back to what it has executed, asks for what is missing, and executes all
//! between.

use crate::blocks::Blocks;
use crate::faults::Fault;
use crate::kv::{Block, Command, LONGEST_BLOCK, START, Values, digest_of};
use crate::record::Record;
use crate::sodium::{KeyPair, PublicKey, Signature, sha256, verify};
use crate::transport::{Inbox, Peers};
use crate::wire::Message;
use batcher::driver::{
    Action, Check, Driver, Heard, Judge, KeptError, Message as Said, Options, Propose, Signer,
    Verifier,
};
use batcher::{Epoch, Files, Participant, Sha256Digest, Subject, View};
use std::collections::VecDeque;
use std::collections::hash_map::{Entry, HashMap};
use std::convert::Infallible;
use std::error::Error;
use std::fs::File;
use std::io::Write;
use std::path::Path;
use std::sync::mpsc::SyncSender;
use std::time::{Duration, Instant};

/// How long it waits on a view before it gives the view up.
const PATIENCE: Duration = Duration::from_millis(250);

/// How long a leader waits for commands before it proposes a block without any.
const PACE: Duration = Duration::from_millis(20);

/// After how long something is asked for again, of the next peer.
const AGAIN: Duration = Duration::from_millis(100);

/// How many blocks are sent at once to who asks for one, and so how many of each peer are kept in
/// memory that nobody has asked for yet.
const AT_ONCE: usize = 8;

/// How many certificates are sent at once to who fell behind, and how many bytes of commands wait.
const HELP: usize = 64;
const LONGEST_POOL: usize = 4 << 20;

pub type Outcome<T> = Result<T, Box<dyn Error>>;

impl Signer for KeyPair {
    type Signature = Signature;
    type Error = Infallible;

    fn sign(&mut self, _: &Subject, message: &[u8]) -> Result<Signature, Infallible> {
        Ok(KeyPair::sign(self, message))
    }
}

/// The keys of all participants.
pub struct Keys(pub Vec<PublicKey>);

impl Verifier for Keys {
    type Signature = Signature;

    fn attests(&mut self, check: &Check<Signature>) -> bool {
        let key = self.0.get(usize::from(check.signer()));
        key.is_some_and(|key| verify(key, check.message(), check.signature()))
    }
}

pub struct Node {
    pub driver: Driver<Files, KeyPair, Keys>,
    pub peers: Peers,
    pub keys: KeyPair,
    fault: Fault,
    record: Record,
    inbox: Inbox<Message>,
    blocks: Blocks,
    values: Values,
    /// The digest of each block that this life has executed, and the last of them with its view.
    log: File,
    last: Sha256Digest,
    height: View,
    /// When the time of the view is over.
    deadline: Instant,
    /// Proposals that wait for their blocks, and one that waits for commands until then.
    judging: Vec<Judge>,
    proposing: Option<(Propose, Instant)>,
    /// Of each peer blocks that nobody wanted yet.
    early: Vec<VecDeque<(Sha256Digest, Vec<u8>)>>,
    /// What is final and isn't executed, and the way back from there as far as it is known.
    goal: Option<Sha256Digest>,
    way: Vec<Sha256Digest>,
    /// Blocks that are asked for: when, and which peer.
    asked: HashMap<Sha256Digest, (Instant, u32)>,
    /// Commands that aren't executed, and where their answers go.
    pool: VecDeque<(Command, SyncSender<String>)>,
    pooled: usize,
    /// When each peer was helped last.
    helped: Vec<Instant>,
}

impl Node {
    /// The validator that goes on by what its folder has. It executes all blocks again, since the
    /// last one that is final is given first.
    pub fn new(
        me: Participant,
        keys: KeyPair,
        participants: Vec<PublicKey>,
        folder: &Path,
        (peers, inbox): (Peers, Inbox<Message>),
    ) -> Outcome<Self> {
        let count = participants.len() as u32;
        let options = Options {
            epoch: Epoch::zero(),
            me,
            participants: count,
            keys: sha256(&participants.concat()),
            namespace: b"batcher store example",
            ahead: 16,
            track_historical_votes: false,
        };
        let leader = move |view: View| Participant::new((view.get() % u64::from(count)) as u32);
        let inner = inbox.sender();
        let wake = move || inner.send((me, Message::Woken)).unwrap_or_default();
        let (key, all) = (keys.clone(), Keys(participants));
        let now = Instant::now();
        Ok(Node {
            driver: Driver::start_on_threads(folder, &options, leader, key, all, wake)?,
            peers,
            keys,
            fault: Fault::of(me),
            record: Record::open(folder)?,
            inbox,
            blocks: Blocks::open(folder)?,
            values: Values::default(),
            log: File::create(folder.join("log"))?,
            last: START,
            height: View::zero(),
            deadline: now + PATIENCE,
            judging: Vec::new(),
            proposing: None,
            early: (0..count).map(|_| VecDeque::new()).collect(),
            goal: None,
            way: Vec::new(),
            asked: HashMap::new(),
            pool: VecDeque::new(),
            pooled: 0,
            helped: vec![now; count as usize],
        })
    }

    /// Goes on until it is killed.
    pub fn run(mut self) -> Outcome<()> {
        loop {
            loop {
                match self.driver.poll()? {
                    Action::Wait => break,
                    action => self.perform(action)?,
                }
            }
            let latest = self.proposing.as_ref().map_or(self.deadline, |it| it.1);
            let left = latest
                .min(self.deadline)
                .saturating_duration_since(Instant::now());
            if let Ok((sender, message)) = self.inbox.recv_timeout(left.min(AGAIN)) {
                self.hear(sender, message)?;
            }
            let now = Instant::now();
            let is_due = |it: &mut (Propose, Instant)| self.pooled > 0 || it.1 <= now;
            if let Some((wish, _)) = self.proposing.take_if(is_due) {
                self.propose(wish)?;
            }
            if self.deadline <= now {
                let _ = self.driver.expire(self.driver.view());
                self.deadline = now + self.driver.patience(PATIENCE);
            }
            self.ask_again(now);
        }
    }

    fn perform(&mut self, action: Action<Signature, Infallible>) -> Outcome<()> {
        match action {
            Action::Wait => {}
            Action::Send(said) => {
                if let Said::Vote(vote) = &said {
                    self.record.sends(&vote.subject())?;
                }
                self.fault.send(self, said);
            }
            Action::Enter { .. } => {
                // The view of an earlier wish is over.
                self.proposing = None;
                self.deadline = Instant::now() + self.driver.patience(PATIENCE);
            }
            Action::Propose(wish) => self.proposing = Some((wish, Instant::now() + PACE)),
            Action::Judge(wish) => {
                let proposal = *wish.proposal();
                self.judging.push(wish);
                if !self.judge(&proposal.payload)? {
                    self.want(proposal.payload, self.driver.leader(proposal.round.view));
                }
            }
            Action::Forward(proposal, to) => {
                if let Some(block) = self.blocks.get(&proposal.payload)? {
                    self.peers
                        .send_to(&Message::Block(block), |it| to.contains(&it));
                }
            }
            Action::Final(proposal) => {
                self.record.is_final(&proposal)?;
                let view = proposal.round.view;
                self.judging.retain(|it| it.proposal().round.view > view);
                (self.goal, self.way) = (Some(proposal.payload), Vec::new());
                // What is of a view that is over isn't wanted any more.
                let is_judged = |digest| {
                    self.judging
                        .iter()
                        .any(|it| it.proposal().payload == digest)
                };
                self.asked.retain(|digest, _| is_judged(*digest));
                self.execute()?;
            }
            Action::Block(peer, cause) => {
                self.record.blocks(peer, cause)?;
                self.peers.block(peer);
            }
            Action::Unsigned(subject, why) => eprintln!("{subject:?}: {why}"),
        }
        Ok(())
    }

    fn hear(&mut self, sender: Participant, message: Message) -> Outcome<()> {
        match message {
            Message::Said(said) => {
                if let Heard::Behind = self.driver.hear(sender, &said)? {
                    self.help(sender)?;
                }
            }
            Message::Block(bytes) => self.take_block(sender, bytes)?,
            Message::Want(digest) => self.give(sender, digest)?,
            Message::Client(command, reply) => self.submit(command, reply),
            Message::Woken => {}
        }
        Ok(())
    }

    /// Sends what is kept to who fell behind, a few times a second at most.
    fn help(&mut self, peer: Participant) -> Outcome<()> {
        let last = &mut self.helped[usize::from(peer)];
        if last.elapsed() < 2 * AGAIN {
            return Ok(());
        }
        *last = Instant::now();
        let certificates = match self.driver.help(View::zero(), HELP) {
            // It says something again, and is helped then.
            Err(KeptError::NotWritten) => return Ok(()),
            found => found?,
        };
        for certificate in certificates {
            let message = Message::Said(Said::Certificate(certificate));
            self.peers.send_to(&message, |it| it == peer);
        }
        Ok(())
    }

    fn propose(&mut self, wish: Propose) -> Outcome<()> {
        let (mut commands, mut left) = (Vec::new(), LONGEST_BLOCK - 48);
        for (command, _) in &self.pool {
            if command.size() > left {
                break;
            }
            left -= command.size();
            commands.push(command.clone());
        }
        let block = Block {
            view: wish.view(),
            parent: wish.parent(),
            before: wish.before().unwrap_or(START),
            commands,
        };
        let bytes = block.written();
        let digest = self.blocks.put(&bytes)?;
        self.peers.send(&Message::Block(bytes));
        self.driver.propose(wish, digest);
        Ok(())
    }

    /// Judges the proposals of this digest, if its block is there.
    fn judge(&mut self, digest: &Sha256Digest) -> Outcome<bool> {
        let Some(block) = self.find(digest)? else {
            return Ok(false);
        };
        let all = std::mem::take(&mut self.judging).into_iter();
        let (wishes, others): (Vec<_>, _) = all.partition(|it| it.proposal().payload == *digest);
        self.judging = others;
        for wish in wishes {
            let proposal = wish.proposal();
            let is_valid = block.view == proposal.round.view
                && block.parent == proposal.parent
                && block.before == wish.before().unwrap_or(START);
            self.driver.judge(wish, is_valid);
        }
        Ok(true)
    }

    /// The block of this digest, which is on the disk then.
    fn find(&mut self, digest: &Sha256Digest) -> Outcome<Option<Block>> {
        let early = self.early.iter_mut().find_map(|all| {
            let place = all.iter().position(|it| it.0 == *digest)?;
            all.remove(place)
        });
        if let Some((_, bytes)) = early {
            self.blocks.put(&bytes)?;
        }
        let Some(bytes) = self.blocks.get(digest)? else {
            return Ok(None);
        };
        self.asked.remove(digest);
        Ok(Some(read(&bytes)?))
    }

    fn take_block(&mut self, sender: Participant, bytes: Vec<u8>) -> Outcome<()> {
        let digest = digest_of(&bytes);
        let is_block = bytes.len() <= LONGEST_BLOCK && Block::read(&bytes).is_some();
        if self.blocks.has(&digest) || !is_block {
            return Ok(());
        }
        let early = &mut self.early[usize::from(sender)];
        early.truncate(AT_ONCE - 1);
        early.push_front((digest, bytes));
        if self.asked.contains_key(&digest) {
            self.judge(&digest)?;
            self.execute()?;
        }
        Ok(())
    }

    /// Asks this peer for a block, unless one was asked for it.
    fn want(&mut self, digest: Sha256Digest, peer: Participant) {
        if let Entry::Vacant(it) = self.asked.entry(digest) {
            it.insert((Instant::now(), peer.get()));
            self.peers.send_to(&Message::Want(digest), |it| it == peer);
        }
    }

    /// Asks the next peer for what didn't come.
    fn ask_again(&mut self, now: Instant) {
        let peers = self.early.len() as u32;
        for (digest, (when, peer)) in &mut self.asked {
            if now.duration_since(*when) >= AGAIN {
                (*when, *peer) = (now, (*peer + 1) % peers);
                let next = Participant::new(*peer);
                self.peers.send_to(&Message::Want(*digest), |it| it == next);
            }
        }
    }

    /// Sends a block behind some of its ancestors, so that all are there once it comes.
    fn give(&mut self, peer: Participant, mut digest: Sha256Digest) -> Outcome<()> {
        let mut found = Vec::new();
        while let Some(bytes) = self.blocks.get(&digest)?.filter(|_| found.len() < AT_ONCE) {
            digest = read(&bytes)?.before;
            found.push(Message::Block(bytes));
        }
        for block in found.iter().rev() {
            self.peers.send_to(block, |it| it == peer);
        }
        Ok(())
    }

    /// Walks back from what is final to what is executed, and executes all between.
    fn execute(&mut self) -> Outcome<()> {
        let Some(goal) = self.goal else {
            return Ok(());
        };
        let mut next = goal;
        if let Some(last) = self.way.pop() {
            next = last;
        }
        while next != self.last {
            let Some(block) = self.find(&next)? else {
                self.way.push(next);
                self.want(next, self.driver.leader(self.driver.last_final()));
                return Ok(());
            };
            if block.view <= self.height {
                return Err("what is executed isn't behind what is final".into());
            }
            self.way.push(next);
            next = block.before;
        }
        while let Some(digest) = self.way.pop() {
            let block = self
                .find(&digest)?
                .ok_or("a block that was there is gone")?;
            (self.last, self.height) = (digest, block.view);
            self.values.execute(block);
            self.log.write_all(&digest.0)?;
        }
        self.goal = None;
        let values = &self.values;
        self.pool
            .retain(|(command, reply)| match values.answer(command) {
                Some(answer) => {
                    let _ = reply.try_send(answer.into());
                    false
                }
                None => true,
            });
        self.pooled = self.pool.iter().map(|it| it.0.size()).sum();
        Ok(())
    }

    /// Answers a command that was executed, and has another one wait for a block.
    fn submit(&mut self, command: Command, reply: SyncSender<String>) {
        if let Some(answer) = self.values.answer(&command) {
            let _ = reply.try_send(answer.into());
        } else if self.pooled + command.size() > LONGEST_POOL {
            let _ = reply.try_send("busy".into());
        } else {
            self.pooled += command.size();
            self.pool.push_back((command, reply));
        }
    }
}

fn read(bytes: &[u8]) -> Outcome<Block> {
    Block::read(bytes).ok_or("what is kept is no block".into())
}
