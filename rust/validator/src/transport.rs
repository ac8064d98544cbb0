//! Messages between validators, by TCP on this machine. Who connects shows by a signature who it
//! is. What can't be sent now is dropped: a validator sends again what isn't final after a while.

use crate::sodium::{KeyPair, PublicKey, verify};
use batcher::Participant;
use std::fs::File;
use std::io::{self, Read, Write};
use std::net::{TcpListener, TcpStream};
use std::sync::Arc;
use std::sync::atomic::{AtomicBool, Ordering};
use std::sync::mpsc::{Receiver, RecvTimeoutError, Sender, SyncSender, channel, sync_channel};
use std::thread;
use std::time::Duration;

/// How many bytes a message has at most.
const LONGEST: usize = 1 << 20;

/// How many messages of a peer wait to be heard: who sends more waits alone. As many frames wait to
/// be sent to one, and what is beyond them isn't sent.
const WAITING: usize = 1024;

/// What is sent, as bytes.
pub trait Wire: Sized + Send + 'static {
    fn written(&self) -> Vec<u8>;

    /// What this participant sent. None where it is no message.
    fn read(sender: Participant, bytes: &[u8]) -> Option<Self>;
}

/// What comes, with who sent it.
pub struct Inbox<M> {
    messages: Receiver<(Participant, M)>,
    to: Sender<(Participant, M)>,
    /// Of each peer one for each of its messages that wait.
    waiting: Vec<Receiver<()>>,
}

impl<M> Inbox<M> {
    pub fn recv_timeout(&self, longest: Duration) -> Result<(Participant, M), RecvTimeoutError> {
        let (sender, message) = self.messages.recv_timeout(longest)?;
        let _ = self.waiting[usize::from(sender)].try_recv();
        Ok((sender, message))
    }

    /// A way for what doesn't come from peers.
    #[allow(dead_code)]
    pub fn sender(&self) -> Sender<(Participant, M)> {
        self.to.clone()
    }
}

/// The ways to the others. There is none to itself.
pub struct Peers {
    outgoing: Vec<Option<SyncSender<Arc<Vec<u8>>>>>,
    blocked: Arc<Vec<AtomicBool>>,
}

impl Peers {
    /// Listens on its port and connects to the others. What they send comes with who sent it.
    pub fn start<M: Wire>(
        me: Participant,
        keys: &KeyPair,
        participants: &[PublicKey],
        ports: &[u16],
    ) -> io::Result<(Self, Inbox<M>)> {
        let (to, messages) = channel();
        let (room, waiting): (Vec<_>, Vec<_>) = ports.iter().map(|_| sync_channel(WAITING)).unzip();
        let sender = to.clone();
        let blocked: Arc<Vec<_>> = Arc::new(ports.iter().map(|_| AtomicBool::new(false)).collect());
        let listener = TcpListener::bind(("127.0.0.1", ports[usize::from(me)]))?;
        let (known, shut) = (participants.to_vec(), blocked.clone());
        thread::spawn(move || {
            for stream in listener.incoming().flatten() {
                let (known, shut, sender) = (known.clone(), shut.clone(), sender.clone());
                let room = room.clone();
                thread::spawn(move || receive(stream, me, &known, &shut, &room, &sender));
            }
        });
        let mut outgoing = Vec::new();
        for (peer, port) in (0..).map(Participant::new).zip(ports) {
            if peer == me {
                outgoing.push(None);
                continue;
            }
            let (sender, frames) = sync_channel(WAITING);
            let (port, keys) = (*port, keys.clone());
            thread::spawn(move || deliver(port, me, peer, &keys, &frames));
            outgoing.push(Some(sender));
        }
        let inbox = Inbox {
            messages,
            to,
            waiting,
        };
        Ok((Peers { outgoing, blocked }, inbox))
    }

    /// What this peer sends is dropped from now on.
    pub fn block(&self, peer: Participant) {
        if let Some(blocked) = self.blocked.get(usize::from(peer)) {
            blocked.store(true, Ordering::Relaxed);
        }
    }

    pub fn send(&self, message: &impl Wire) {
        self.send_to(message, |_| true);
    }

    /// Sends it to some.
    pub fn send_to(&self, message: &impl Wire, is_one: impl Fn(Participant) -> bool) {
        let bytes = message.written();
        let length = (bytes.len() as u32).to_be_bytes();
        let frame = Arc::new([&length[..], &bytes].concat());
        for (peer, sender) in (0..).map(Participant::new).zip(&self.outgoing) {
            if let Some(sender) = sender.as_ref().filter(|_| is_one(peer)) {
                let _ = sender.try_send(frame.clone());
            }
        }
    }
}

/// Sends frames to a peer, and connects again where that breaks off.
fn deliver(
    port: u16,
    me: Participant,
    peer: Participant,
    keys: &KeyPair,
    frames: &Receiver<Arc<Vec<u8>>>,
) {
    loop {
        if let Ok(mut stream) = connect(port, me, peer, keys) {
            while let Ok(frame) = frames.recv() {
                if stream.write_all(&frame).is_err() {
                    break;
                }
            }
        }
        thread::sleep(Duration::from_millis(20));
    }
}

fn connect(port: u16, me: Participant, peer: Participant, keys: &KeyPair) -> io::Result<TcpStream> {
    let mut stream = TcpStream::connect(("127.0.0.1", port))?;
    stream.set_nodelay(true)?;
    let mut nonce = [0; 32];
    stream.read_exact(&mut nonce)?;
    let signature = keys.sign(&hello(&nonce, me, peer));
    stream.write_all(&[&me.get().to_be_bytes()[..], &signature].concat())?;
    Ok(stream)
}

/// What who connects signs: a number that is used once, who it is and whom it connects to.
fn hello(nonce: &[u8; 32], from: Participant, to: Participant) -> Vec<u8> {
    let ends = [from.get().to_be_bytes(), to.get().to_be_bytes()].concat();
    [b"batcher validator hello", &nonce[..], &ends].concat()
}

/// Hands on what a peer sends, until it is blocked or sends what is no message.
fn receive<M: Wire>(
    mut stream: TcpStream,
    me: Participant,
    known: &[PublicKey],
    blocked: &[AtomicBool],
    room: &[SyncSender<()>],
    inbox: &Sender<(Participant, M)>,
) {
    let Ok(peer) = welcome(&mut stream, me, known) else {
        return;
    };
    let (blocked, room) = (&blocked[usize::from(peer)], &room[usize::from(peer)]);
    while let Ok(message) = next(&mut stream, peer) {
        let is_blocked = blocked.load(Ordering::Relaxed);
        if is_blocked || room.send(()).is_err() || inbox.send((peer, message)).is_err() {
            return;
        }
    }
}

fn welcome(
    stream: &mut TcpStream,
    me: Participant,
    known: &[PublicKey],
) -> io::Result<Participant> {
    let (mut nonce, mut index, mut signature) = ([0; 32], [0; 4], [0; 64]);
    File::open("/dev/urandom")?.read_exact(&mut nonce)?;
    stream.write_all(&nonce)?;
    stream.read_exact(&mut index)?;
    stream.read_exact(&mut signature)?;
    let peer = Participant::new(u32::from_be_bytes(index));
    match known.get(usize::from(peer)) {
        Some(key) if verify(key, &hello(&nonce, peer, me), &signature) => Ok(peer),
        _ => Err(std::io::ErrorKind::PermissionDenied.into()),
    }
}

fn next<M: Wire>(stream: &mut TcpStream, peer: Participant) -> io::Result<M> {
    let mut length = [0; 4];
    stream.read_exact(&mut length)?;
    let length = u32::from_be_bytes(length) as usize;
    if length > LONGEST {
        return Err(std::io::ErrorKind::InvalidData.into());
    }
    let mut bytes = vec![0; length];
    stream.read_exact(&mut bytes)?;
    M::read(peer, &bytes).ok_or(std::io::ErrorKind::InvalidData.into())
}
