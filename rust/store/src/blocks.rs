//! Blocks on the disk.

use crate::kv::digest_of;
use batcher::Sha256Digest;
use std::collections::HashMap;
use std::fs::{File, OpenOptions};
use std::io::{Read, Result};
use std::os::unix::fs::FileExt;
use std::path::Path;

/// Blocks by their digests, each behind its length in a file that only grows. Where each is, and
/// how long, is in memory.
pub struct Blocks {
    file: File,
    places: HashMap<Sha256Digest, (u64, usize)>,
    end: u64,
}

impl Blocks {
    /// Opens them, or makes them. What a crash left unfinished is cut off, or is a block that
    /// nobody asks for.
    pub fn open(folder: &Path) -> Result<Self> {
        let mut options = OpenOptions::new();
        let options = options.read(true).write(true).create(true).truncate(false);
        let (mut file, mut bytes) = (options.open(folder.join("blocks"))?, Vec::new());
        file.read_to_end(&mut bytes)?;
        let (mut places, mut end) = (HashMap::new(), 0);
        let mut rest = &bytes[..];
        while let Some((length, behind)) = rest.split_first_chunk() {
            let length = u32::from_be_bytes(*length) as usize;
            let Some((block, behind)) = behind.split_at_checked(length) else {
                break;
            };
            places.insert(digest_of(block), (end + 4, length));
            (rest, end) = (behind, end + 4 + length as u64);
        }
        file.set_len(end)?;
        // The file's name lasts too.
        file.sync_all()?;
        File::open(folder)?.sync_all()?;
        Ok(Blocks { file, places, end })
    }

    pub fn has(&self, digest: &Sha256Digest) -> bool {
        self.places.contains_key(digest)
    }

    pub fn get(&self, digest: &Sha256Digest) -> Result<Option<Vec<u8>>> {
        let Some((place, length)) = self.places.get(digest) else {
            return Ok(None);
        };
        let mut bytes = vec![0; *length];
        self.file.read_exact_at(&mut bytes, *place)?;
        Ok(Some(bytes))
    }

    /// Keeps a block, which lasts when this is done.
    pub fn put(&mut self, block: &[u8]) -> Result<Sha256Digest> {
        let digest = digest_of(block);
        if !self.has(&digest) {
            let frame = [&(block.len() as u32).to_be_bytes(), block].concat();
            self.file.write_all_at(&frame, self.end)?;
            self.file.sync_data()?;
            self.places.insert(digest, (self.end + 4, block.len()));
            self.end += frame.len() as u64;
        }
        Ok(digest)
    }
}
