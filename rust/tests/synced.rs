//! What of the crate's files lasts where the power goes: what was synced, and of what was written
//! since, any part. A crash of a program leaves more, and `files` has those.

mod shared;
mod toy;

use batcher::validator::{Options, Task, Validator, Write};
use batcher::{Epoch, Files, Opened, Participant, Sha256Digest};
use shared::{Folder, put, verdicts};
use std::cell::RefCell;
use std::collections::BTreeSet;
use std::ffi::{OsString, c_int};
use std::fs;
use std::io::ErrorKind;
use std::path::{Path, PathBuf};
use toy::{Signature, sign};

const NAMES: [&str; 2] = ["journal.0", "journal.1"];

type Both = [Vec<u8>; 2];

/// What is noted of the files of a folder, as they are synced.
#[derive(Default)]
struct Synced {
    folder: PathBuf,
    /// What each had then.
    last: Both,
    /// What the power may leave of both right before a sync.
    torn: Vec<Both>,
    /// Which names were there at each sync of the folder.
    names: Vec<BTreeSet<OsString>>,
}

thread_local! {
    static SYNCED: RefCell<Option<Synced>> = const { RefCell::new(None) };
}

unsafe extern "C" {
    fn fdatasync(file: c_int) -> c_int;
}

/// It is called in the place of the C library's.
#[unsafe(no_mangle)]
extern "C" fn fsync(file: c_int) -> c_int {
    if let Some(synced) = SYNCED.take() {
        SYNCED.set(Some(synced.with(file)));
    }
    // SAFETY: it takes a number.
    unsafe { fdatasync(file) }
}

impl Synced {
    fn with(mut self, file: c_int) -> Self {
        let path = fs::read_link(format!("/proc/self/fd/{file}")).unwrap();
        if path == self.folder {
            let names = fs::read_dir(&path).unwrap();
            self.names
                .push(names.map(|it| it.unwrap().file_name()).collect());
            return self;
        }
        let now = both(&self.folder);
        let Some(at) = NAMES.iter().position(|it| path == self.folder.join(it)) else {
            return self;
        };
        self.torn.extend(torn(&self.last, &now));
        self.last[at].clone_from(&now[at]);
        self
    }
}

fn both(folder: &Path) -> Both {
    NAMES.map(|name| fs::read(folder.join(name)).unwrap_or_default())
}

/// Some of what may last of a change: one of its first and last bytes alone, or all but that one.
fn torn(last: &Both, now: &Both) -> Vec<Both> {
    let changed = (0..2).flat_map(|of| (0..now[of].len()).map(move |at| (of, at)));
    let changed: Vec<_> = changed
        .filter(|(of, at)| last[*of].get(*at) != Some(&now[*of][*at]))
        .collect();
    let ends = [changed.first(), changed.last()].into_iter().flatten();
    let states = ends.flat_map(|(of, at)| {
        let (mut alone, mut without) = (last.clone(), now.clone());
        for (alone, now) in alone.iter_mut().zip(now) {
            alone.resize(alone.len().max(now.len()), 0);
        }
        alone[*of][*at] = now[*of][*at];
        without[*of][*at] = last[*of].get(*at).copied().unwrap_or_default();
        [alone, without]
    });
    states.chain([last.clone(), now.clone()]).collect()
}

/// What is noted while something is done.
fn synced<R>(folder: &Path, last: Both, what: impl FnOnce() -> R) -> (R, Synced) {
    let folder = folder.to_path_buf();
    SYNCED.set(Some(Synced {
        folder,
        last,
        ..Synced::default()
    }));
    let answer = what();
    (answer, SYNCED.take().unwrap())
}

/// What is in files of these bytes: None where nothing was ever written to them.
fn found(both: &Both) -> Option<Vec<u8>> {
    let copy = Folder::new(&format!("synced-copy-{:?}", std::thread::current().id()));
    for (name, bytes) in NAMES.iter().zip(both) {
        fs::write(copy.0.join(name), bytes).unwrap();
    }
    match Files::open(&copy.0).unwrap() {
        Opened::New(_) => None,
        Opened::Written(bytes, _) => Some(bytes),
    }
}

/// A validator that is alone gives this to be written next.
fn next_write(running: &mut Validator<Signature>) -> Write {
    loop {
        match running.poll().unwrap().expect("it is alone, and goes on") {
            Task::Write(write) => return write,
            Task::Propose { view, parent } => {
                running.propose(view, parent, Sha256Digest([1; 32]));
            }
            Task::Sign(subject) => {
                let signature = sign(&subject, 0);
                let _ = running.signed(subject, &signature, verdicts).unwrap();
            }
            Task::Verify(wanted) => {
                running.conclude(&wanted, &verdicts(&wanted)).unwrap();
            }
            _ => {}
        }
    }
}

fn begun(folder: &Folder) -> (Validator<Signature>, Files) {
    let options = Options {
        epoch: Epoch::zero(),
        me: Participant::new(0),
        participants: 1,
        keys: [1; 32],
        namespace: b"synced",
        ahead: 16,
        track_historical_votes: false,
    };
    let files = Files::create(&folder.0).unwrap();
    files.begin(&options, |_| Participant::new(0)).unwrap()
}

/// Once a write is done all of it lasts, and until then it or what was there before.
#[test]
fn a_write_lasts_or_is_not_there() {
    let folder = Folder::new("synced");
    let (mut running, mut disk) = begun(&folder);
    let (mut before, mut replaced) = (None, 0);
    for _ in 0..60 {
        let write = next_write(&mut running);
        let last = both(&folder.0);
        let (done, noted) = synced(&folder.0, last, || disk.write(&write));
        done.unwrap();
        assert_eq!(noted.last, both(&folder.0), "all is synced");
        let mut after = before.clone().unwrap_or_default();
        put(&mut after, &write);
        let after = Some(after);
        for torn in &noted.torn {
            let found = found(torn);
            assert!(found == before || found == after, "{torn:?}");
        }
        assert_eq!(found(&noted.last), after);
        replaced += u32::from(write.replaces());
        before = after;
        running.wrote(write).unwrap();
    }
    assert!(replaced > 5, "{replaced} writes replaced the others");
}

/// What is gone on by lasts, also where a crash left it before it was synced.
#[test]
fn what_is_opened_lasts() {
    let folder = Folder::new("synced-opened");
    let (mut running, mut disk) = begun(&folder);
    disk.write(&next_write(&mut running)).unwrap();
    drop(disk);
    let (opened, noted) = synced(&folder.0, Both::default(), || Files::open(&folder.0));
    assert!(matches!(opened, Ok(Opened::Written(..))));
    assert_eq!(noted.last, both(&folder.0));
}

/// The name of the second lasts only where that of the first does, and both do once they are made.
#[test]
fn the_names_last() {
    let folder = Folder::new("synced-names");
    let (created, noted) = synced(&folder.0, Both::default(), || Files::create(&folder.0));
    assert!(created.is_ok());
    let [first, second] = NAMES.map(OsString::from);
    let wanted = [vec![first.clone()], vec![first, second]];
    assert_eq!(noted.names, wanted.map(|it| it.into_iter().collect()));
    drop(created);
    let again = Files::create(&folder.0).err().unwrap();
    assert_eq!(again.kind(), ErrorKind::AlreadyExists);
}
