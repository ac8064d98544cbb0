//! Files of the crate: whatever a crash leaves of them, what was written is there, and nobody begins
//! by them where something is.

mod refusing;
mod shared;
mod toy;

use batcher::validator::{Options, StartError, Task, Validator, Write, WroteError};
use batcher::{Epoch, Files, Opened, Participant, Sha256Digest, View};
use refusing::{each_refused_in_turn, once};
use shared::{Folder, verdicts};
use std::ffi::c_int;
use std::fs::{self, OpenOptions};
use std::io::{self, ErrorKind, Read as _, Write as _};
use std::os::unix::net::UnixStream;
use std::os::unix::process::CommandExt as _;
use std::path::Path;
use std::process::Command;
use toy::{Signature, sign};

const NAMES: [&str; 2] = ["journal.0", "journal.1"];

impl Folder {
    /// The bytes of both files.
    fn both(&self) -> [Vec<u8>; 2] {
        NAMES.map(|name| fs::read(self.0.join(name)).unwrap())
    }

    fn put(&self, both: &[Vec<u8>; 2]) {
        for (name, bytes) in NAMES.iter().zip(both) {
            fs::write(self.0.join(name), bytes).unwrap();
        }
    }
}

/// What is in files of these bytes: None where nothing was ever written to them.
fn found(both: &[Vec<u8>; 2]) -> io::Result<Option<Vec<u8>>> {
    let thread = std::thread::current();
    let folder = Folder::new(&format!(
        "copy-{}",
        thread.name().unwrap().replace(':', "-")
    ));
    folder.put(both);
    Ok(match Files::open(&folder.0)? {
        Opened::New(_) => None,
        Opened::Written(bytes, _) => Some(bytes),
    })
}

fn kind_of<T>(answer: io::Result<T>) -> ErrorKind {
    answer.err().expect("it is refused").kind()
}

fn options() -> Options<'static> {
    Options {
        epoch: Epoch::zero(),
        me: Participant::new(0),
        participants: 1,
        keys: [1; 32],
        namespace: b"files",
        ahead: 16,
        track_historical_votes: false,
    }
}

fn leader(_: View) -> Participant {
    Participant::new(0)
}

/// A validator that is alone. Its own vote is a quorum, so that it writes as long as it is polled.
struct Alone {
    running: Validator<Signature>,
    disk: Files,
    /// What its files are to have.
    written: Vec<u8>,
    /// What it gave, and its files refused.
    refused: Option<Write>,
}

impl Alone {
    fn of((running, disk): (Validator<Signature>, Files), written: &[u8]) -> Self {
        let written = written.to_vec();
        Alone {
            running,
            disk,
            written,
            refused: None,
        }
    }

    fn create(folder: &Path) -> Self {
        let files = Files::create(folder).unwrap();
        Alone::of(files.begin(&options(), leader).unwrap(), &[])
    }

    /// It goes on by files that have this.
    fn open(folder: &Path, written: &[u8]) -> Self {
        let opened = Files::open(folder).unwrap();
        Alone::of(opened.start(&options(), leader, verdicts).unwrap(), written)
    }

    /// It goes on by what its files have, or begins where they have nothing.
    fn start_again(folder: &Path) -> Self {
        match Files::open(folder).unwrap() {
            Opened::Written(bytes, files) => {
                let running = Validator::start(&options(), leader, &bytes, verdicts).unwrap();
                Alone::of((running, files), &bytes)
            }
            Opened::New(new) => Alone::of(new.begin(&options(), leader).unwrap(), &[]),
        }
    }

    /// What it gives to be written next.
    fn next(&mut self) -> Write {
        loop {
            let task = self.running.poll().unwrap();
            match task.expect("it is alone, and goes on") {
                Task::Write(write) => return write,
                Task::Propose { view, parent } => {
                    let payload = Sha256Digest([view.get() as u8; 32]);
                    self.running.propose(view, parent, payload);
                }
                Task::Sign(subject) => {
                    let signature = sign(&subject, 0);
                    let signed = self.running.signed(subject, &signature, verdicts);
                    let _ = signed.unwrap();
                }
                Task::Verify(wanted) => {
                    self.running.conclude(&wanted, &verdicts(&wanted)).unwrap();
                }
                _ => {}
            }
        }
    }

    /// Writes what is given next, and whether that replaced what was there.
    fn write(&mut self) -> io::Result<bool> {
        let write = match self.refused.take() {
            Some(write) => write,
            None => self.next(),
        };
        if let Err(fault) = self.disk.write(&write) {
            self.refused = Some(write);
            return Err(fault);
        }
        let replaces = write.replaces();
        if replaces {
            self.written.clear();
        }
        self.written.extend_from_slice(write.bytes());
        self.running.wrote(write).unwrap();
        Ok(replaces)
    }
}

#[test]
fn what_is_written_is_there() {
    let folder = Folder::new("written");
    let mut alone = Alone::create(&folder.0);
    assert_eq!(found(&folder.both()).unwrap(), None);
    let mut replaced = 0;
    for round in 0..300 {
        replaced += u64::from(alone.write().unwrap());
        assert_eq!(
            found(&folder.both()).unwrap().as_ref(),
            Some(&alone.written)
        );
        // Each third time it goes on by the files alone.
        if round % 3 == 0 {
            let written = alone.written.clone();
            drop(alone);
            alone = Alone::open(&folder.0, &written);
        }
    }
    assert!(replaced > 5, "{replaced} writes replaced the others");
}

#[test]
fn there_is_one_of_them() {
    let folder = Folder::new("one");
    assert_eq!(kind_of(Files::open(&folder.0)), ErrorKind::NotFound);
    drop(Files::create(&folder.0).unwrap());
    assert_eq!(kind_of(Files::create(&folder.0)), ErrorKind::AlreadyExists);
    let mut alone = Alone::open(&folder.0, &[]);
    // Whichever of them is in use.
    for _ in 0..8 {
        alone.write().unwrap();
        let both = folder.both();
        for name in NAMES {
            let other = Folder::new("one-lost");
            other.put(&both);
            fs::remove_file(other.0.join(name)).unwrap();
            assert_eq!(kind_of(Files::open(&other.0)), ErrorKind::NotFound);
            assert_eq!(kind_of(Files::create(&other.0)), ErrorKind::AlreadyExists);
            // Nor is it made, so that the other isn't begun by.
            assert!(!other.0.join(name).exists());
        }
    }
}

/// What was begun is theirs alone, and they are given up by who drops them, or is killed.
#[test]
fn they_are_locked() {
    let folder = Folder::new("locked");
    let is_locked = || {
        let here = kind_of(Files::open(&folder.0)) == ErrorKind::ResourceBusy;
        here && kind_of(Files::create(&folder.0)) == ErrorKind::ResourceBusy && !elsewhere(&folder)
    };
    let new = Files::create(&folder.0).unwrap();
    assert!(is_locked());
    let mut alone = Alone::of(new.begin(&options(), leader).unwrap(), &[]);
    assert!(is_locked());
    alone.write().unwrap();
    assert!(is_locked());
    // The other file is in use by then.
    while !alone.write().unwrap() {}
    assert!(is_locked());
    drop(alone);
    assert!(elsewhere(&folder));
    let opened = Files::open(&folder.0).unwrap();
    assert!(is_locked());
    drop(opened);
    assert!(elsewhere(&folder));
}

/// A program that this one starts has its files until it runs, and keeps nobody from opening them.
#[test]
fn they_are_not_locked_by_a_child() {
    let folder = Folder::new("child");
    let new = Files::create(&folder.0).unwrap();
    let (mut here, there) = UnixStream::pair().unwrap();
    let mut program = Command::new("true");
    let waits = move || {
        (&there).write_all(&[0])?;
        (&there).read_exact(&mut [0])
    };
    // SAFETY: it writes and reads a byte.
    unsafe { program.pre_exec(waits) };
    let ended = std::thread::spawn(move || program.status());
    here.read_exact(&mut [0]).unwrap();
    drop(new);
    let opened = Files::open(&folder.0);
    here.write_all(&[0]).unwrap();
    assert!(ended.join().unwrap().unwrap().success());
    assert!(opened.is_ok());
}

/// The variable that names its folder to another program, which is this one with one of its tests.
const OF_ANOTHER: &str = "BATCHER_FILES_OF_ANOTHER";

/// Whether another program does what the test of this name does.
fn another(test: &str, folder: &Folder) -> bool {
    let mut program = Command::new(std::env::current_exe().unwrap());
    program.args(["--exact", test, "--nocapture"]);
    let ended = program.env(OF_ANOTHER, &folder.0).output().unwrap();
    let said = String::from_utf8_lossy(&ended.stdout).into_owned();
    assert!(
        said.contains("1 passed") || said.contains("1 failed"),
        "{said}"
    );
    ended.status.success()
}

/// Whether another program opens them.
fn elsewhere(folder: &Folder) -> bool {
    another("open_elsewhere", folder)
}

/// By itself it checks nothing.
#[test]
fn open_elsewhere() {
    if let Some(folder) = std::env::var_os(OF_ANOTHER) {
        assert!(Files::open(Path::new(&folder)).is_ok());
    }
}

/// A validator begins by files that were created, whatever a crash left of that, and never again.
#[test]
fn they_are_begun_once() {
    let folder = Folder::new("begun");
    // A crash while they are created.
    fs::write(folder.0.join(NAMES[0]), b"").unwrap();
    assert_eq!(kind_of(Files::open(&folder.0)), ErrorKind::NotFound);
    drop(Files::create(&folder.0).unwrap());
    // One behind that, and one of a validator that wrote nothing.
    let is_new = || matches!(Files::open(&folder.0).unwrap(), Opened::New(_));
    assert!(is_new());
    drop(Alone::open(&folder.0, &[]));
    assert!(is_new());
    // What doesn't begin leaves them as they are.
    let nobody = Options {
        me: Participant::new(1),
        ..options()
    };
    let opened = Files::open(&folder.0).unwrap();
    let refused = opened.start(&nobody, leader, verdicts).err();
    assert_eq!(refused, Some(StartError::UnknownParticipant));
    assert!(is_new());
    // One while the first bytes are written: up to their gate nothing is there.
    let mut alone = Alone::open(&folder.0, &[]);
    alone.write().unwrap();
    let [whole, other] = folder.both();
    for end in 0..=whole.len() {
        let mut torn = whole[..end].to_vec();
        if let Some(gate) = torn.first_mut() {
            *gate = 0x0f;
        }
        assert_eq!(
            found(&[torn, other.clone()]).unwrap(),
            None,
            "of {end} bytes"
        );
    }
    for _ in 0..20 {
        assert!(found(&folder.both()).unwrap().is_some());
        alone.write().unwrap();
    }
}

/// Files take the writes of the validator that was made of them, and no other's: neither of one that
/// begins beside what is written, nor of one that is made anew while they are open.
#[test]
fn they_are_of_one_validator() {
    let folder = Folder::new("else");
    let begun = || Validator::begin(&options(), leader).unwrap();
    let started = |bytes: &[u8]| Validator::start(&options(), leader, bytes, verdicts).unwrap();
    let refuses = |alone: &mut Alone, running: Validator<Signature>| {
        let (before, own) = (
            folder.both(),
            std::mem::replace(&mut alone.running, running),
        );
        let refused = kind_of(alone.write()) == ErrorKind::InvalidInput;
        (alone.running, alone.refused) = (own, None);
        refused && folder.both() == before
    };
    let mut alone = Alone::create(&folder.0);
    assert!(refuses(&mut alone, begun()));
    alone.write().unwrap();
    let written = alone.written.clone();
    assert!(refuses(&mut alone, begun()) && refuses(&mut alone, started(&written)));
    alone.write().unwrap();
    drop(alone);
    let Opened::Written(bytes, files) = Files::open(&folder.0).unwrap() else {
        panic!("it is written");
    };
    // It is made of the bytes that came with the files.
    let mut alone = Alone::of((started(&bytes), files), &bytes);
    assert!(refuses(&mut alone, begun()));
    alone.write().unwrap();
    let written = alone.written.clone();
    assert!(refuses(&mut alone, started(&bytes)) && refuses(&mut alone, started(&written)));
    alone.write().unwrap();
    drop(alone);
    let mut alone = Alone::open(&folder.0, &[]);
    assert!(refuses(&mut alone, begun()) && refuses(&mut alone, started(&bytes)));
    alone.write().unwrap();
}

/// Files take each write once, and none where one before it was passed over.
#[test]
fn each_is_written_once_and_in_order() {
    let folder = Folder::new("order");
    let mut alone = Alone::create(&folder.0);
    let refuses = |disk: &mut Files, write: &Write| {
        let before = folder.both();
        kind_of(disk.write(write)) == ErrorKind::InvalidInput && folder.both() == before
    };
    for _ in 0..20 {
        let write = alone.next();
        alone.disk.write(&write).unwrap();
        assert!(refuses(&mut alone.disk, &write), "it is there already");
        alone.running.wrote(write).unwrap();
    }
    drop(alone);
    let Opened::Written(bytes, files) = Files::open(&folder.0).unwrap() else {
        panic!("it is written");
    };
    // This one doesn't know that it has files, so it takes for written what its caller says.
    let running = Validator::start(&options(), leader, &bytes, verdicts).unwrap();
    let mut alone = Alone::of((running, files), &bytes);
    alone.write().unwrap();
    let passed_over = alone.next();
    alone.running.wrote(passed_over).unwrap();
    for _ in 0..20 {
        let write = alone.next();
        assert!(refuses(&mut alone.disk, &write), "another comes before it");
        alone.running.wrote(write).unwrap();
    }
    drop(alone.disk);
    let opened = Files::open(&folder.0).unwrap();
    assert!(matches!(opened, Opened::Written(found, _) if found == alone.written));
}

// The next frame is cut at each of its bytes, as by a crash.
#[test]
fn a_torn_write_is_not_there() {
    let folder = Folder::new("torn");
    let mut alone = Alone::create(&folder.0);
    alone.write().unwrap();
    let (first, [before, other]) = (alone.written.clone(), folder.both());
    assert!(!alone.write().unwrap(), "it is to be behind the first");
    let [after, _] = folder.both();
    let gate = before.len() - 1;
    for end in before.len()..after.len() {
        // The gate before it is opened by a write of its own, once the frame lasts.
        let mut torn = after[..end].to_vec();
        torn[gate] = before[gate];
        assert_eq!(found(&[torn, other.clone()]).unwrap(), Some(first.clone()));
    }
    assert_eq!(found(&[after, other]).unwrap(), Some(alone.written));
}

#[test]
fn damage_is_found() {
    let folder = Folder::new("damage");
    let mut alone = Alone::create(&folder.0);
    alone.write().unwrap();
    let both = folder.both();
    for at in 1..both[0].len() {
        let mut changed = both.clone();
        changed[0][at] ^= 1;
        assert_eq!(kind_of(found(&changed)), ErrorKind::InvalidData, "at {at}");
    }
    // Nor are files opened that somebody else has written to.
    let [first, mut second] = both;
    second.extend_from_slice(b"something else");
    assert!(found(&[first, second]).is_err());
}

/// Somebody who doesn't ask for the lock writes to files before their validator does.
#[test]
fn what_others_wrote_is_not_written_over() {
    let (folder, other) = (Folder::new("mine"), Folder::new("theirs"));
    let mut theirs = Alone::create(&other.0);
    theirs.write().unwrap();
    let mut alone = Alone::create(&folder.0);
    let both = other.both();
    folder.put(&both);
    for _ in 0..3 {
        assert!(alone.write().is_err());
    }
    assert_eq!(folder.both(), both);
}

#[repr(C)]
struct Limit {
    now: u64,
    most: u64,
}

const FILE_SIZE: c_int = 1;
const FILE_SIZE_SIGNAL: c_int = 25;
const IGNORED: usize = 1;

unsafe extern "C" {
    fn setrlimit(what: c_int, limit: *const Limit) -> c_int;
    fn signal(number: c_int, handler: usize) -> usize;
}

/// No file of this program has more bytes from now on.
fn limit_files(bytes: u64) {
    let limit = Limit {
        now: bytes,
        most: u64::MAX,
    };
    // SAFETY: the limit is the C library's struct of two numbers, and the signal is ignored.
    let failed = unsafe {
        signal(FILE_SIZE_SIGNAL, IGNORED);
        setrlimit(FILE_SIZE, &limit)
    };
    assert_eq!(failed, 0);
}

/// By itself it checks nothing, since its limits are those of a whole program.
#[test]
fn on_a_full_disk() {
    let Some(folder) = std::env::var_os(OF_ANOTHER) else {
        return;
    };
    let folder = Path::new(&folder);
    let mut failed_later = 0;
    for most in (0..2_500).step_by(23) {
        let folder = folder.join(most.to_string());
        fs::create_dir(&folder).unwrap();
        let mut alone = Alone::create(&folder);
        limit_files(most);
        let mut writes = 0;
        let fault = loop {
            match alone.write() {
                Ok(_) if writes > 200 => break None,
                Ok(_) => writes += 1,
                Err(fault) => break Some(fault),
            }
        };
        let Some(fault) = fault else {
            // All that it ever writes is shorter.
            limit_files(u64::MAX);
            continue;
        };
        assert_eq!(fault.kind(), ErrorKind::FileTooLarge);
        failed_later += u64::from(writes > 0);
        // Whatever it is asked to write then is refused by an error, also where there is room again.
        assert_eq!(kind_of(alone.write()), ErrorKind::Other);
        limit_files(u64::MAX);
        assert_eq!(kind_of(alone.write()), ErrorKind::Other);
        // Nor does its validator take it for written.
        let refused = alone.refused.take().expect("it was refused");
        let wrote = alone.running.wrote(refused);
        assert_eq!(wrote, Err(WroteError::NotWritten));
        let written = alone.written.clone();
        // They are closed, so they can be opened again before it is dropped.
        let mut again = Alone::start_again(&folder);
        assert_eq!(again.written, written);
        for _ in 0..20 {
            again.write().unwrap();
        }
    }
    assert!(failed_later > 10, "{failed_later}");
}

#[test]
fn a_full_disk_is_an_error() {
    let folder = Folder::new("full");
    assert!(another("on_a_full_disk", &folder));
}

/// Nor does a write that lacks memory leave anybody with files of which nobody knows what they have.
#[test]
fn a_write_without_memory_is_an_error() {
    each_refused_in_turn("files", |granted| {
        let folder = Folder::new("memory");
        let mut alone = Alone::create(&folder.0);
        for _ in 0..12 {
            let write = alone.next();
            if let Err(fault) = once(granted, || alone.disk.write(&write)) {
                assert_eq!(fault.kind(), ErrorKind::OutOfMemory);
                assert_eq!(kind_of(alone.disk.write(&write)), ErrorKind::Other);
                let wrote = alone.running.wrote(write);
                assert_eq!(wrote, Err(WroteError::NotWritten));
                alone = Alone::start_again(&folder.0);
            } else {
                alone.running.wrote(write).unwrap();
            }
        }
        Vec::new()
    });
}

#[test]
fn a_failure_is_an_error() {
    let folder = Folder::new("failure");
    assert_eq!(
        kind_of(Files::create(&folder.0.join("none"))),
        ErrorKind::NotFound
    );
    let mut alone = Alone::create(&folder.0);
    alone.write().unwrap();
    let (written, both) = (alone.written.clone(), folder.both());
    drop(alone);
    let mut options = OpenOptions::new();
    let mut file = options.append(true).open(folder.0.join(NAMES[0])).unwrap();
    file.write_all(&b"something else".repeat(100)).unwrap();
    // What is behind the last gate was never finished, so it is cut off.
    let mut alone = Alone::open(&folder.0, &written);
    assert_eq!(folder.both(), both);
    alone.write().unwrap();
    assert_eq!(found(&folder.both()).unwrap(), Some(alone.written));
}
