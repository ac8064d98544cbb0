//! Seven validators, each a process of its own, that are killed and started again.

use crate::faults::Fault;
use crate::record::Noted;
use batcher::{Files, Participant};
use std::collections::{BTreeMap, BTreeSet};
use std::fs::{create_dir_all, remove_dir_all};
use std::io::Result;
use std::net::TcpListener;
use std::path::PathBuf;
use std::process::{Child, Command};
use std::thread::sleep;
use std::time::{Duration, Instant};

pub const VALIDATORS: u32 = 7;

/// How many views more are to be final at the end, and how long that may take.
const MORE: u64 = 10;
const LONGEST: Duration = Duration::from_secs(180);

pub struct Network {
    folder: PathBuf,
    ports: Vec<String>,
    running: Vec<Child>,
    /// Where numbers come from that are no secret.
    numbers: u64,
}

impl Network {
    pub fn start(seed: u64) -> Result<Self> {
        let folder = std::env::temp_dir().join(format!("validators-{}", std::process::id()));
        // Below those that the system gives to who connects, which could have that of one that is
        // stopped.
        let first = 10_000 + (std::process::id() % 20_000) as u16;
        let is_free = |port: &u16| TcpListener::bind(("127.0.0.1", *port)).is_ok();
        let free = (first..32_000).filter(is_free).take(VALIDATORS as usize);
        let ports: Vec<String> = free.map(|port| port.to_string()).collect();
        let mut network = Network {
            folder,
            ports,
            running: Vec::new(),
            numbers: seed,
        };
        for index in 0..VALIDATORS {
            let folder = network.folder_of(index);
            create_dir_all(&folder)?;
            drop(Files::create(&folder)?);
            let child = network.spawn(index)?;
            network.running.push(child);
        }
        Ok(network)
    }

    fn folder_of(&self, index: u32) -> PathBuf {
        self.folder.join(index.to_string())
    }

    /// Where there is a program in C that does the same, two of them are its.
    fn spawn(&self, index: u32) -> Result<Child> {
        let program = match (std::env::var_os("VALIDATOR_IN_C"), index) {
            (Some(program), 1 | 6) => PathBuf::from(program),
            _ => std::env::current_exe()?,
        };
        Command::new(program)
            .args(["run", &index.to_string()])
            .arg(self.folder_of(index))
            .args(&self.ports)
            .spawn()
    }

    fn number(&mut self, below: u64) -> u64 {
        self.numbers = self
            .numbers
            .wrapping_mul(6364136223846793005)
            .wrapping_add(1442695040888963407);
        (self.numbers >> 33) % below
    }

    /// Kills one after the other so many times, at any moment, and each tenth time all at once.
    pub fn kill(&mut self, times: u64) -> Result<()> {
        for time in 1..=times {
            sleep(Duration::from_millis(20 + self.number(200)));
            let one = self.number(u64::from(VALIDATORS)) as u32;
            let some = if time % 10 == 0 {
                0..VALIDATORS
            } else {
                one..one + 1
            };
            for index in some.clone() {
                let child = &mut self.running[index as usize];
                child.kill()?;
                child.wait()?;
            }
            for index in some {
                self.running[index as usize] = self.spawn(index)?;
            }
        }
        Ok(())
    }

    /// Waits until more views are final at each honest validator, ends all, and says whether all is
    /// as it should be.
    pub fn end(mut self) -> Result<bool> {
        let reached = self.lowest().iter().copied().max().unwrap_or(0) + MORE;
        let begin = Instant::now();
        while self.lowest().iter().any(|last| *last < reached) && begin.elapsed() < LONGEST {
            sleep(Duration::from_millis(50));
        }
        for child in &mut self.running {
            child.kill()?;
            child.wait()?;
        }
        let is_fine = self.shows(reached);
        remove_dir_all(&self.folder)?;
        Ok(is_fine)
    }

    /// Of each honest validator the last view that is final.
    fn lowest(&self) -> Vec<u64> {
        let last = |index| {
            Noted::of(&self.folder_of(index))
                .finals
                .keys()
                .next_back()
                .copied()
        };
        let honest = (0..VALIDATORS).filter(|it| Fault::of(Participant::new(*it)).is_honest());
        honest.map(|index| last(index).unwrap_or(0)).collect()
    }

    fn shows(&self, reached: u64) -> bool {
        let mut is_fine = true;
        let mut chain = BTreeMap::new();
        let mut named = BTreeSet::new();
        for index in 0..VALIDATORS {
            if !Fault::of(Participant::new(index)).is_honest() {
                continue;
            }
            let record = Noted::of(&self.folder_of(index));
            let last = record.finals.keys().next_back().copied().unwrap_or(0);
            println!(
                "validator {index}: view {last} is final, blocks {:?}",
                record.blocked
            );
            let agrees = record
                .finals
                .iter()
                .all(|(view, it)| chain.entry(*view).or_insert_with(|| it.clone()) == it);
            let blocks_honest = |it: &u32| Fault::of(Participant::new(*it)).is_honest();
            is_fine &= agrees && last >= reached && !record.contradicts;
            is_fine &= !record.blocked.iter().any(blocks_honest);
            named.extend(record.blocked);
        }
        is_fine &= named.len() == 2;
        println!(
            "{}",
            if is_fine {
                "all agree, and name both"
            } else {
                "that isn't as it should be"
            }
        );
        is_fine
    }
}
