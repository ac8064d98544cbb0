//! What tests of validators share.

use crate::toy::{Signature, attests};
use batcher::validator::{Options, Wanted, Write};
use batcher::{Epoch, Participant};
use std::fs;
use std::path::{Path, PathBuf};

/// One of four.
#[allow(dead_code)]
pub fn options(me: u32) -> Options<'static> {
    Options {
        epoch: Epoch::zero(),
        me: Participant::new(me),
        participants: 4,
        keys: [4; 32],
        namespace: b"tests",
        ahead: 8,
        track_historical_votes: false,
    }
}

/// Which of them attest.
#[allow(dead_code)]
pub fn verdicts(wanted: &Wanted<Signature>) -> Vec<bool> {
    let attests = |it: &_| attests(wanted.subject(), it);
    wanted.attestations().iter().map(attests).collect()
}

/// A write is on the disk.
#[allow(dead_code)]
pub fn put(disk: &mut Vec<u8>, write: &Write) {
    if write.replaces() {
        disk.clear();
    }
    disk.extend_from_slice(write.bytes());
}

/// A folder of its own, which is removed with it.
#[allow(dead_code)]
pub struct Folder(pub PathBuf);

#[allow(dead_code)]
impl Folder {
    pub fn new(name: &str) -> Self {
        // Where it is there, a disk that is memory: a sync takes no time.
        let memory = Path::new("/dev/shm");
        let room = if memory.is_dir() {
            memory.to_path_buf()
        } else {
            std::env::temp_dir()
        };
        let path = room.join(format!("batcher-{name}-{}", std::process::id()));
        let _ = fs::remove_dir_all(&path);
        fs::create_dir_all(&path).unwrap();
        Folder(path)
    }
}

impl Drop for Folder {
    fn drop(&mut self) {
        let _ = fs::remove_dir_all(&self.0);
    }
}
