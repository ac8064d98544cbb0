//! Four validators, each a process of its own, and clients. The processes are killed at any moment
//! and started again, one of them sometimes without its blocks, and one equivocates. In the end the
//! honest have one log, nothing that a client was answered is lost, and nobody honest is blocked.

use crate::faults::Fault;
use crate::node::Outcome;
use crate::record::Noted;
use batcher::{Files, Participant};
use std::fs::{create_dir_all, metadata, read, remove_dir_all, remove_file};
use std::io::{BufRead, BufReader, ErrorKind, Write};
use std::net::{TcpListener, TcpStream};
use std::path::PathBuf;
use std::process::{Child, Command};
use std::sync::Arc;
use std::sync::atomic::{AtomicBool, Ordering};
use std::thread::{JoinHandle, sleep, spawn};
use std::time::{Duration, Instant};

const VALIDATORS: u32 = 4;
const CLIENTS: u64 = 6;

/// Who loses its blocks, and each how many kills.
const LOSES: u32 = 1;
const LOST: u64 = 15;

/// After how many kills all have to go on, and how long that may take.
const PAUSE: u64 = 10;
const LONGEST: Duration = Duration::from_secs(120);

/// How many blocks more all have at the end.
const MORE: u64 = 10;

struct Cluster {
    folder: PathBuf,
    ports: Vec<u16>,
    running: Vec<Child>,
    /// Where numbers come from that are no secret.
    numbers: u64,
    kills: u64,
    is_fine: bool,
}

pub fn play(words: &[String]) -> Outcome<bool> {
    let number = |at: usize, else_: u64| words.get(at).map_or(Ok(else_), |it| it.parse());
    let mut cluster = Cluster::start(number(1, 1)?)?;
    let stop = Arc::new(AtomicBool::new(false));
    let clients = (1..=CLIENTS).map(|it| Client::new(it, &cluster.ports).start(&stop));
    let clients: Vec<_> = clients.collect();
    cluster.kill_many(number(0, 30)?)?;
    cluster.wait_for(MORE);
    stop.store(true, Ordering::Relaxed);
    let ended: Vec<_> = clients.into_iter().map(JoinHandle::join).collect();
    cluster.is_fine &= ended.iter().all(Result::is_ok);
    for client in ended.into_iter().flatten() {
        cluster.is_fine &= client.finds_all();
    }
    cluster.end()
}

fn honest() -> impl Iterator<Item = u32> {
    (0..VALIDATORS).filter(|it| Fault::of(Participant::new(*it)) == Fault::None)
}

impl Cluster {
    fn start(seed: u64) -> Outcome<Self> {
        let folder = std::env::temp_dir().join(format!("store-{}", std::process::id()));
        // Below those that the system gives to who connects, which could have that of one that is
        // stopped.
        let first = 10_000 + (std::process::id() % 20_000) as u16;
        let is_free = |port: &u16| TcpListener::bind(("127.0.0.1", *port)).is_ok();
        let free = (first..32_000).filter(is_free);
        let mut cluster = Cluster {
            folder,
            ports: free.take(2 * VALIDATORS as usize).collect(),
            running: Vec::new(),
            numbers: seed,
            kills: 0,
            is_fine: true,
        };
        for index in 0..VALIDATORS {
            let folder = cluster.folder_of(index);
            create_dir_all(&folder)?;
            drop(Files::create(&folder)?);
            let child = cluster.spawn(index)?;
            cluster.running.push(child);
        }
        Ok(cluster)
    }

    fn folder_of(&self, index: u32) -> PathBuf {
        self.folder.join(index.to_string())
    }

    fn spawn(&self, index: u32) -> Outcome<Child> {
        let mut command = Command::new(std::env::current_exe()?);
        let command = command.args(["run", &index.to_string()]);
        let ports = self.ports.iter().map(u16::to_string);
        Ok(command.arg(self.folder_of(index)).args(ports).spawn()?)
    }

    fn kill(&mut self, index: u32) -> Outcome<()> {
        let child = &mut self.running[index as usize];
        if let Some(status) = child.try_wait()? {
            println!("validator {index} stopped by itself: {status}");
            self.is_fine = false;
        }
        child.kill()?;
        child.wait()?;
        self.kills += 1;
        Ok(())
    }

    fn number(&mut self, below: u64) -> u64 {
        let numbers = self.numbers.wrapping_mul(6364136223846793005);
        self.numbers = numbers.wrapping_add(1442695040888963407);
        (self.numbers >> 33) % below
    }

    /// Kills one after the other so many times, at any moment, and each tenth time all at once.
    fn kill_many(&mut self, times: u64) -> Outcome<()> {
        for time in 1..=times {
            sleep(Duration::from_millis(10 + self.number(250)));
            let one = self.number(u64::from(VALIDATORS)) as u32;
            let loses = time % LOST == 5;
            let some = match time % 10 {
                0 => 0..VALIDATORS,
                _ if loses => LOSES..LOSES + 1,
                _ => one..one + 1,
            };
            for index in some.clone() {
                self.kill(index)?;
            }
            if loses {
                match remove_file(self.folder_of(LOSES).join("blocks")) {
                    // It hadn't got so far.
                    Err(error) if error.kind() == ErrorKind::NotFound => {}
                    removed => removed?,
                }
            }
            // Some are away for a while, and fall behind.
            if time % 7 == 3 {
                sleep(Duration::from_millis(600));
            }
            for index in some {
                self.running[index as usize] = self.spawn(index)?;
            }
            if time % PAUSE == 0 {
                self.wait_for(1);
            }
        }
        Ok(())
    }

    /// How many blocks each honest one has executed.
    fn heights(&self) -> Vec<u64> {
        let height = |index| {
            let log = metadata(self.folder_of(index).join("log"));
            log.map_or(0, |it| it.len() / 32)
        };
        honest().map(height).collect()
    }

    /// Waits until all honest ones have executed so many blocks more than any has now.
    fn wait_for(&mut self, more: u64) {
        let begin = Instant::now();
        let wanted = self.heights().into_iter().max().unwrap_or(0) + more;
        while self.heights().iter().any(|it| *it < wanted) {
            if begin.elapsed() > LONGEST {
                println!("not all go on to block {wanted}: {:?}", self.heights());
                self.is_fine = false;
                return;
            }
            sleep(Duration::from_millis(20));
        }
    }

    /// Ends all, and says whether all is as it should be.
    fn end(mut self) -> Outcome<bool> {
        let kills = self.kills;
        for index in 0..VALIDATORS {
            self.kill(index)?;
        }
        let mut longest = Vec::new();
        let mut logs = Vec::new();
        for index in honest() {
            let folder = self.folder_of(index);
            let log = read(folder.join("log"))?;
            let noted = Noted::of(&folder);
            let (count, blocked) = (log.len() / 32, &noted.blocked);
            println!("validator {index}: {count} blocks are executed, blocks {blocked:?}");
            let is_honest = |it: &u32| honest().any(|other| other == *it);
            self.is_fine &= !noted.contradicts && !noted.blocked.iter().any(is_honest);
            if log.len() > longest.len() {
                longest.clone_from(&log);
            }
            logs.push(log);
        }
        self.is_fine &= logs.iter().all(|it| longest.starts_with(it));
        remove_dir_all(&self.folder)?;
        let is_fine = if self.is_fine {
            "all is fine"
        } else {
            "that isn't as it should be"
        };
        println!("after {kills} kills {is_fine}");
        Ok(self.is_fine)
    }
}

/// Where the network isn't ended, its processes are.
impl Drop for Cluster {
    fn drop(&mut self) {
        for child in &mut self.running {
            let _ = child.kill();
            let _ = child.wait();
        }
    }
}

/// Sets its own value again and again, and gets it now and then. It goes to another validator where
/// one doesn't answer, and says the same there.
struct Client {
    id: u64,
    number: u64,
    /// What it was answered to be set, and so what is to be found.
    value: String,
    ports: Vec<u16>,
    at: usize,
    stream: Option<BufReader<TcpStream>>,
    is_fine: bool,
}

impl Client {
    fn new(id: u64, ports: &[u16]) -> Self {
        let clients = &ports[VALIDATORS as usize..];
        Client {
            id,
            number: 0,
            value: "-".into(),
            ports: honest().map(|it| clients[it as usize]).collect(),
            at: id as usize,
            stream: None,
            is_fine: true,
        }
    }

    fn start(mut self, stop: &Arc<AtomicBool>) -> JoinHandle<Self> {
        let stop = stop.clone();
        spawn(move || {
            while !stop.load(Ordering::Relaxed) {
                self.number += 1;
                if self.number % 4 == 0 {
                    self.gets();
                } else {
                    let value = format!("{}-{}", self.number, "x".repeat(64));
                    let line = format!("PUT {} {} key{} {value}", self.id, self.number, self.id);
                    self.is_fine &= self.ask(&line).as_deref() == Some("ok");
                    self.value = value;
                }
            }
            self
        })
    }

    fn gets(&mut self) {
        let line = format!("GET {} {} key{}", self.id, self.number, self.id);
        let answer = self.ask(&line);
        if answer.as_ref() != Some(&self.value) {
            println!(
                "client {}: {answer:?} in the place of {}",
                self.id, self.value
            );
            self.is_fine = false;
        }
    }

    /// Says this until it is answered, which it is even while all are started again.
    fn ask(&mut self, line: &str) -> Option<String> {
        let begin = Instant::now();
        while begin.elapsed() < LONGEST {
            match self.ask_once(line) {
                Some(answer) if answer != "busy" => return Some(answer),
                _ => {
                    (self.stream, self.at) = (None, self.at + 1);
                    sleep(Duration::from_millis(20));
                }
            }
        }
        None
    }

    fn ask_once(&mut self, line: &str) -> Option<String> {
        let stream = match &mut self.stream {
            Some(stream) => stream,
            none => {
                let port = self.ports[self.at % self.ports.len()];
                let stream = TcpStream::connect(("127.0.0.1", port)).ok()?;
                stream.set_read_timeout(Some(Duration::from_secs(3))).ok()?;
                stream.set_nodelay(true).ok()?;
                none.insert(BufReader::new(stream))
            }
        };
        writeln!(stream.get_mut(), "{line}").ok()?;
        let mut answer = String::new();
        stream.read_line(&mut answer).ok()?;
        let answer = answer.strip_suffix('\n')?;
        Some(answer.into())
    }

    /// Whether each honest validator has what this client was answered last.
    fn finds_all(mut self) -> bool {
        for at in 0..self.ports.len() {
            (self.at, self.stream) = (at, None);
            self.number += 1;
            self.gets();
        }
        println!("client {} was answered {} times", self.id, self.number);
        self.is_fine
    }
}
