//! What a validator has written: bytes in two files that take turns, so that a crash at any moment
//! leaves all that was written, or that and what was being written.
//!
//! What is done to the files is the proved library's; here it is done.

use crate::ffi::lock::Locked;
use crate::ffi::{code, files};
use crate::positions::{Participant, View};
use crate::validator::{Life, Options, StartError, Validator, Wanted, Write, reserve_bytes};
use std::fmt;
use std::fs::{File, OpenOptions};
use std::io::{self, ErrorKind, Read, Seek, SeekFrom, Write as _};
use std::path::Path;
use std::sync::atomic::Ordering;

/// How the files are named in their folder.
const NAMES: [&str; 2] = ["journal.0", "journal.1"];

/// Two files of a folder, to which a validator writes. They are locked as long as they are open:
/// nobody else opens them meanwhile, in this program or another one. They take what one validator
/// writes, which is made of what they had when they were opened.
pub struct Files {
    /// None once a write has failed.
    pair: Option<Pair>,
    /// Whose they are. None until that is known.
    life: Option<Life>,
    /// How many of its writes they have.
    writes: u64,
}

/// Two files to which nothing was ever written, with the same lock. A validator begins by them,
/// once.
pub struct NewFiles {
    pair: Pair,
}

impl fmt::Debug for Files {
    fn fmt(&self, f: &mut fmt::Formatter<'_>) -> fmt::Result {
        f.debug_struct("Files")
            .field("is_open", &self.pair.is_some())
            .field("writes", &self.writes)
            .finish_non_exhaustive()
    }
}

impl fmt::Debug for NewFiles {
    fn fmt(&self, f: &mut fmt::Formatter<'_>) -> fmt::Result {
        f.debug_struct("NewFiles").finish_non_exhaustive()
    }
}

/// What was found in the files of a folder.
#[derive(Debug)]
pub enum Opened {
    /// Nothing was ever written to them.
    New(NewFiles),
    /// What was written to them, in all, and the files for what comes.
    Written(Vec<u8>, Files),
}

impl Opened {
    /// The validator of these files, which begins or goes on, and the files that it writes to. What
    /// they have is verified first, by `verify` as of [`Validator::start`].
    ///
    /// # Errors
    ///
    /// As of [`Validator::begin`] and [`Validator::start`]. The files are closed then.
    pub fn start<G>(
        self,
        options: &Options,
        leader: impl Fn(View) -> Participant + 'static,
        verify: impl FnMut(&Wanted<G>) -> Vec<bool>,
    ) -> Result<(Validator<G>, Files), StartError>
    where
        G: Clone + AsRef<[u8]> + for<'b> TryFrom<&'b [u8]>,
    {
        match self {
            Opened::New(files) => files.begin(options, leader),
            Opened::Written(bytes, mut files) => {
                let mut running = Validator::start(options, leader, &bytes, verify)?;
                running.has_files = true;
                files.life = Some(running.life);
                Ok((running, files))
            }
        }
    }
}

impl NewFiles {
    /// The files, to which this one writes alone.
    pub(crate) fn owned_by(self, life: Life) -> Files {
        let (pair, life, writes) = (Some(self.pair), Some(life), 0);
        Files { pair, life, writes }
    }

    /// A validator that begins, and the files that it writes to.
    ///
    /// # Errors
    ///
    /// As of [`Validator::begin`]. The files are closed then, and have nothing still.
    pub fn begin<G>(
        self,
        options: &Options,
        leader: impl Fn(View) -> Participant + 'static,
    ) -> Result<(Validator<G>, Files), StartError>
    where
        G: Clone + AsRef<[u8]> + for<'b> TryFrom<&'b [u8]>,
    {
        let mut running = Validator::begin(options, leader)?;
        running.has_files = true;
        let (pair, life) = (Some(self.pair), Some(running.life));
        let writes = 0;
        Ok((running, Files { pair, life, writes }))
    }
}

impl Files {
    /// This one writes to them alone.
    pub(crate) fn owned_by(self, life: Life) -> Files {
        let life = Some(life);
        Files { life, ..self }
    }

    /// Makes the files of a folder that has none, by whoever sets a validator up. Where a crash kept
    /// it from making both, it can be called again.
    ///
    /// # Errors
    ///
    /// Where the folder has one of them (`AlreadyExists`), somebody else is making them
    /// (`ResourceBusy`), or the disk fails.
    pub fn create(folder: &Path) -> io::Result<NewFiles> {
        let [first, second] = NAMES.map(|name| folder.join(name));
        let mut options = OpenOptions::new();
        options.read(true).write(true);
        let first = match options.open(&first) {
            // The second one may have what was written.
            Err(fault) if fault.kind() == ErrorKind::NotFound && !second.try_exists()? => {
                options.clone().create_new(true).open(&first)?
            }
            Err(fault) if fault.kind() == ErrorKind::NotFound => {
                return Err(ErrorKind::AlreadyExists.into());
            }
            first => first?,
        };
        let first = locked(first)?;
        // Alone and empty it is what such a crash leaves: whatever is written goes to it first, and
        // it isn't empty from then on.
        if first.metadata()?.len() > 0 {
            return Err(ErrorKind::AlreadyExists.into());
        }
        // A crash leaves the name of the second only beside that of the first.
        let folder = File::open(folder)?;
        folder.sync_all()?;
        let second = locked(options.create_new(true).open(&second)?)?;
        folder.sync_all()?;
        let pair = Pair {
            library: None,
            current: first,
            other: second,
        };
        Ok(NewFiles { pair })
    }

    /// Opens the files of a folder. What a crash left unfinished isn't there.
    ///
    /// # Errors
    ///
    /// Where one is missing (`NotFound`), they are open elsewhere (`ResourceBusy`), what is in them
    /// wasn't written so (`InvalidData`), or the disk fails.
    pub fn open(folder: &Path) -> io::Result<Opened> {
        let mut options = OpenOptions::new();
        options.read(true).write(true);
        let [first, second] = NAMES.map(|name| options.open(folder.join(name)));
        let (first, second) = (first?, second?);
        let (mut first, mut second) = (locked(first)?, locked(second)?);
        let (one, other) = (read(&mut first)?, read(&mut second)?);
        let (library, turned) = match files::Files::open(&one, &other) {
            Ok((library, turned)) => (Some(library), turned),
            Err(code::NOT_BEGUN) => (None, false),
            Err(answer) => return Err(fault_of(answer)),
        };
        let (current, other) = if turned {
            (second, first)
        } else {
            (first, second)
        };
        let mut pair = Pair {
            library,
            current,
            other,
        };
        let Some(bytes) = pair.settled()? else {
            return Ok(Opened::New(NewFiles { pair }));
        };
        let (pair, life, writes) = (Some(pair), None, 0);
        Ok(Opened::Written(bytes, Files { pair, life, writes }))
    }

    /// Writes what a validator gave to be written. It lasts once that is done: say so by
    /// [`Validator::wrote`], which refuses what these files don't have.
    ///
    /// # Errors
    ///
    /// `InvalidInput`, where another validator gave it, as one that began anew, or it isn't the next
    /// one that is given. Nothing is done then.
    ///
    /// Where the disk fails, or memory is refused. Nobody knows then what is written, so the files
    /// are closed, and each other write is refused: open them again, and start the validator by
    /// them.
    pub fn write(&mut self, write: &Write) -> io::Result<()> {
        let Some(pair) = &mut self.pair else {
            return Err(closed());
        };
        // What was made of the bytes that were given didn't begin.
        if self
            .life
            .map_or(write.life.begins, |life| life != write.life)
        {
            return Err(of_another());
        }
        if write.number != self.writes {
            return Err(not_next());
        }
        self.life = Some(write.life);
        let done = pair.write(write.replaces(), write.bytes());
        match done {
            Ok(()) => {
                self.writes += 1;
                write.is_written.store(true, Ordering::Relaxed);
            }
            Err(_) => self.pair = None,
        }
        done
    }
}

/// Two files that are open.
struct Pair {
    /// None where nothing was written yet.
    library: Option<files::Files>,
    current: Locked,
    other: Locked,
}

impl Pair {
    /// What was written, in all, once what a crash left unfinished is cut off.
    fn settled(&mut self) -> io::Result<Option<Vec<u8>>> {
        self.carry_out()?;
        let Some(library) = &self.library else {
            return Ok(None);
        };
        Ok(Some(whole(|room, count| library.bytes(room, count))?))
    }

    fn write(&mut self, replaces: bool, bytes: &[u8]) -> io::Result<()> {
        let Some(library) = &mut self.library else {
            let (first, second) = (read(&mut self.current)?, read(&mut self.other)?);
            let library = files::Files::create(&first, &second, bytes).map_err(fault_of)?;
            self.library = Some(library);
            return self.carry_out();
        };
        let answer = if replaces {
            library.replace(bytes)
        } else {
            library.append(bytes)
        };
        if answer != code::DONE {
            return Err(fault_of(answer));
        }
        self.carry_out()?;
        if replaces {
            std::mem::swap(&mut self.current, &mut self.other);
        }
        Ok(())
    }

    /// Does what is to be done to the files, each thing after the one before lasts.
    fn carry_out(&mut self) -> io::Result<()> {
        let Some(library) = &mut self.library else {
            return Ok(());
        };
        let frame = whole(|room, count| library.frame(room, count))?;
        let mut change = files::Change::default();
        for number in 0.. {
            match library.change(number, &mut change) {
                code::DONE => {}
                code::IDLE => break,
                answer => return Err(fault_of(answer)),
            }
            let file = if change.in_other {
                &mut self.other
            } else {
                &mut self.current
            };
            match change.change {
                code::CHANGE_FRAME => write_at(file, change.at, &frame)?,
                code::CHANGE_BYTE => write_at(file, change.at, &[change.byte])?,
                code::CHANGE_LENGTH => file.set_len(change.at)?,
                other => return Err(fault_of(other)),
            }
            file.sync_all()?;
        }
        match library.carried_out() {
            code::DONE => Ok(()),
            answer => Err(fault_of(answer)),
        }
    }
}

/// Locks a file as long as it is open.
fn locked(file: File) -> io::Result<Locked> {
    Locked::new(file).map_err(|fault| match fault.kind() {
        ErrorKind::WouldBlock => {
            let busy = "the files are in use, by this program or another one";
            io::Error::new(ErrorKind::ResourceBusy, busy)
        }
        _ => fault,
    })
}

fn read(file: &mut File) -> io::Result<Vec<u8>> {
    let mut bytes = Vec::new();
    // What is read is to last, so that another crash leaves it.
    file.sync_all()?;
    file.seek(SeekFrom::Start(0))?;
    file.read_to_end(&mut bytes)?;
    Ok(bytes)
}

fn write_at(file: &mut File, at: u64, bytes: &[u8]) -> io::Result<()> {
    file.seek(SeekFrom::Start(at))?;
    file.write_all(bytes)
}

/// Bytes of the library, into a room that is made as large as they are.
fn whole(write: impl Fn(&mut [u8], &mut u64) -> u8) -> io::Result<Vec<u8>> {
    let (mut room, mut count) = (Vec::new(), 0);
    loop {
        match write(&mut room, &mut count) {
            code::DONE => return Ok(room),
            code::SHORT => {
                reserve_bytes(&mut room, count).map_err(|_| ErrorKind::OutOfMemory)?;
                room.resize(count as usize, 0);
            }
            answer => return Err(fault_of(answer)),
        }
    }
}

fn of_another() -> io::Error {
    let why = "another validator gave it than the one of these files: open them again";
    io::Error::new(ErrorKind::InvalidInput, why)
}

fn not_next() -> io::Error {
    let why = "this is written already, or another write comes before it";
    io::Error::new(ErrorKind::InvalidInput, why)
}

fn closed() -> io::Error {
    io::Error::other("a write failed before: open the files again")
}

fn fault_of(answer: u8) -> io::Error {
    match answer {
        code::OUT_OF_MEMORY => ErrorKind::OutOfMemory.into(),
        code::FULL => ErrorKind::StorageFull.into(),
        code::DAMAGED => io::Error::new(ErrorKind::InvalidData, "the files are damaged"),
        // Such as BEGUN, where somebody wrote to them who doesn't ask for their lock.
        other => io::Error::other(format!(
            "the files aren't as they were, by code {other}: open them again"
        )),
    }
}
