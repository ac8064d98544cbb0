//! A replicated key-value store over the driver of the crate `batcher`. Clients send lines to any
//! of its validators, and are answered once what they want is in the log of all.
//! usage: store [KILLS [SEED]]           plays a network whose processes are killed
//!        store run INDEX FOLDER PORT..  is one of it, by the ports of all for peers, then clients
//! A client's line is 'PUT CLIENT NUMBER KEY VALUE' or 'GET CLIENT NUMBER KEY'.

mod blocks;
mod cluster;
mod faults;
mod kv;
mod node;
#[path = "../../validator/src/record.rs"]
mod record;
#[path = "../../validator/src/sodium.rs"]
mod sodium;
#[path = "../../validator/src/transport.rs"]
mod transport;
mod wire;

use batcher::Participant;
use kv::{Command, LONGEST_BLOCK};
use node::{Node, Outcome};
use sodium::KeyPair;
use std::io::{BufRead, BufReader, Read, Write};
use std::net::{TcpListener, TcpStream};
use std::path::Path;
use std::process::ExitCode;
use std::sync::mpsc::{Sender, sync_channel};
use std::thread;
use std::time::Duration;
use transport::Peers;
use wire::Message;

/// How long a client waits for an answer.
const LONGEST_WAIT: Duration = Duration::from_secs(10);

fn main() -> ExitCode {
    sodium::init();
    let words: Vec<String> = std::env::args().skip(1).collect();
    let ended = match &words[..] {
        [run, index, folder, ports @ ..] if run == "run" => {
            one(index, Path::new(folder), ports).map(|()| true)
        }
        words => cluster::play(words),
    };
    match ended {
        Ok(true) => ExitCode::SUCCESS,
        Ok(false) => ExitCode::FAILURE,
        Err(error) => {
            eprintln!("a validator of the store stopped: {error}");
            ExitCode::FAILURE
        }
    }
}

/// One of the validators.
fn one(index: &str, folder: &Path, ports: &[String]) -> Outcome<()> {
    let ports: Result<Vec<u16>, _> = ports.iter().map(|port| port.parse()).collect();
    let mut ports = ports?;
    let clients = ports.split_off(ports.len() / 2);
    let seeds = 1..=ports.len() as u8;
    let mut pairs: Vec<_> = seeds.map(|seed| KeyPair::of([seed; 32])).collect();
    // A participant's index is the place of its key.
    pairs.sort_by_key(|pair| pair.public);
    let participants: Vec<_> = pairs.iter().map(|pair| pair.public).collect();
    let me = Participant::new(index.parse()?);
    let keys = pairs.swap_remove(usize::from(me));
    let (peers, inbox) = Peers::start(me, &keys, &participants, &ports)?;
    let listener = TcpListener::bind(("127.0.0.1", clients[usize::from(me)]))?;
    let to = inbox.sender();
    thread::spawn(move || {
        for stream in listener.incoming().flatten() {
            let to = to.clone();
            thread::spawn(move || serve(stream, me, &to));
        }
    });
    Node::new(me, keys, participants, folder, (peers, inbox))?.run()
}

/// Answers the lines of a client, one after the other, until one isn't as it should be.
fn serve(stream: TcpStream, me: Participant, to: &Sender<(Participant, Message)>) -> Option<()> {
    let mut out = stream.try_clone().ok()?;
    let mut lines = BufReader::new(stream);
    loop {
        let mut line = String::new();
        let longest = LONGEST_BLOCK as u64 / 2;
        lines.by_ref().take(longest).read_line(&mut line).ok()?;
        let words: Vec<&str> = line.split_whitespace().collect();
        let (client, number, key, value) = match words[..] {
            ["PUT", client, number, key, value] => (client, number, key, Some(value.into())),
            ["GET", client, number, key] => (client, number, key, None),
            _ => return None,
        };
        let command = Command {
            client: client.parse().ok()?,
            number: number.parse().ok()?,
            key: key.into(),
            value,
        };
        let (reply, answer) = sync_channel(1);
        to.send((me, Message::Client(command, reply))).ok()?;
        let answer = answer.recv_timeout(LONGEST_WAIT).ok()?;
        writeln!(out, "{answer}").ok()?;
    }
}
