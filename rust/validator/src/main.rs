//! Seven validators with real signatures, by Ed25519 of libsodium, with disks, and connected by TCP.
//! Each is a process of its own that is killed at any moment and started again, and sometimes all
//! are at once. One notarizes two proposals, one forges certificates and one is slow. In the end
//! the honest agree on what is final, have contradicted themselves in no vote, and have blocked
//! nobody but those two.
//! usage: validator [KILLS [SEED]]

mod faults;
mod messages;
mod network;
mod record;
mod sodium;
mod transport;
mod validator;

use batcher::{Files, Participant};
use faults::Fault;
use network::{Network, VALIDATORS};
use record::Record;
use sodium::KeyPair;
use std::error::Error;
use std::path::Path;
use std::process::ExitCode;
use transport::Peers;
use validator::{Member, Station};

fn main() -> ExitCode {
    sodium::init();
    let words: Vec<String> = std::env::args().skip(1).collect();
    let ended = match &words[..] {
        [run, index, folder, ports @ ..] if run == "run" => {
            one(index, Path::new(folder), ports).map(|()| true)
        }
        words => play(words),
    };
    match ended {
        Ok(true) => ExitCode::SUCCESS,
        Ok(false) => ExitCode::FAILURE,
        Err(error) => {
            eprintln!("a validator stopped: {error}");
            ExitCode::FAILURE
        }
    }
}

fn play(words: &[String]) -> Result<bool, Box<dyn Error>> {
    let number = |at: usize, else_: u64| words.get(at).map_or(Ok(else_), |it| it.parse());
    let mut network = Network::start(number(1, 1)?)?;
    network.kill(number(0, 40)?)?;
    Ok(network.end()?)
}

/// One of the validators.
fn one(index: &str, folder: &Path, ports: &[String]) -> Result<(), Box<dyn Error>> {
    let mut pairs: Vec<_> = (1..=VALIDATORS as u8)
        .map(|seed| KeyPair::of([seed; 32]))
        .collect();
    // A participant's index is the place of its key.
    pairs.sort_by_key(|pair| pair.public);
    let participants: Vec<_> = pairs.iter().map(|pair| pair.public).collect();
    let me = Participant::new(index.parse()?);
    let keys = pairs.swap_remove(usize::from(me));
    let ports: Result<Vec<u16>, _> = ports.iter().map(|port| port.parse()).collect();
    let files = Files::open(folder)?;
    let record = Record::open(folder)?;
    let (peers, inbox) = Peers::start(me, &keys, &participants, &ports?)?;
    let station = Station {
        me,
        keys,
        participants,
        fault: Fault::of(me),
        peers,
        record,
    };
    Member::new(station, files)?.run(&inbox)
}
