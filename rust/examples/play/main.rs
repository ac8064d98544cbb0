//! Plays scripts of calls (`docs/FORMATS.md`) through the crate, and prints what the proved program
//! prints.
//!
//! Without an argument it plays one script from standard input and ends with its status: 0, or 2 at
//! a malformed line, 3 where the library is refused memory, 4 at a fault of input or output. With
//! `--many` it reads frames: a line with a number of bytes, and then a script of so many. For each
//! it writes a line with the script's status and a number of bytes, and then so many bytes of
//! output. It ends with 0 at the end of the frames, and with 2 where one is cut short.

mod scheme;
mod script;
mod sha256;

use batcher::errors::{LeaderError, OwnError};
use batcher::{
    Activity, Admission, Attestation, Batch, Certificate, Error, Outcome, Participant, Proposal,
    Round, Scheme, Sha256Digest, Subject, View, Vote, quorum,
};
use scheme::{Content, Signature, TestScheme};
use script::{Ballot, Command, Line, Opening};
use std::collections::BTreeSet;
use std::fmt::{self, Display};
use std::io::{self, BufRead, BufReader, Read, Write};
use std::process::ExitCode;
use std::sync::Arc;

const MALFORMED: u8 = 2;
const OUT_OF_MEMORY: u8 = 3;
const INPUT_OR_OUTPUT: u8 = 4;

fn main() -> ExitCode {
    let is_many = std::env::args_os()
        .nth(1)
        .is_some_and(|word| word == "--many");
    let status = if is_many { play_many() } else { play_one() };
    ExitCode::from(status.unwrap_or(INPUT_OR_OUTPUT))
}

fn play_one() -> io::Result<u8> {
    let mut script = Vec::new();
    io::stdin().lock().read_to_end(&mut script)?;
    let mut printed = Vec::new();
    let status = play(&script, &mut printed);
    if !printed.is_empty() {
        write_all(&printed)?;
    }
    Ok(status)
}

fn write_all(bytes: &[u8]) -> io::Result<()> {
    let mut output = io::stdout().lock();
    output.write_all(bytes)?;
    output.flush()
}

fn play_many() -> io::Result<u8> {
    let mut input = BufReader::with_capacity(1 << 16, io::stdin().lock());
    let (mut frame, mut script, mut printed, mut output) =
        (Vec::new(), Vec::new(), Vec::new(), Vec::new());
    loop {
        frame.clear();
        if input.read_until(b'\n', &mut frame)? == 0 {
            write_all(&output)?;
            return Ok(0);
        }
        let length = frame
            .strip_suffix(b"\n")
            .and_then(|digits| std::str::from_utf8(digits).ok()?.parse().ok());
        let Some(length) = length else {
            write_all(&output)?;
            return Ok(MALFORMED);
        };
        script.clear();
        if (&mut input).take(length).read_to_end(&mut script)? as u64 != length {
            write_all(&output)?;
            return Ok(MALFORMED);
        }
        printed.clear();
        let status = play(&script, &mut printed);
        writeln!(output, "{status} {}", printed.len())?;
        output.extend_from_slice(&printed);
        // Who waits for an answer gets it, and who sends many at once gets many at once.
        if input.buffer().is_empty() || output.len() > 1 << 16 {
            write_all(&output)?;
            output.clear();
        }
    }
}

/// Plays a script, and gives its status.
fn play(script: &[u8], printed: &mut Vec<u8>) -> u8 {
    let mut player: Option<Player> = None;
    for (index, line) in script.split_inclusive(|byte| *byte == b'\n').enumerate() {
        let opening = player.as_ref().map(|it| &it.opening);
        let answered = match Line::read(line, opening) {
            Line::Skipped => Ok(()),
            Line::Round(opening) => Player::new(opening, printed).map(|it| player = Some(it)),
            Line::Command(command) => match &mut player {
                Some(player) => player.answer(command, printed),
                None => Ok(()),
            },
            Line::Malformed => {
                print(printed, format_args!("line {}: malformed", index + 1));
                return MALFORMED;
            }
        };
        match answered {
            Ok(()) => {}
            Err(Error::OutOfMemory) => return OUT_OF_MEMORY,
            Err(error) => panic!("line {}: {error}", index + 1),
        }
    }
    0
}

fn print(printed: &mut Vec<u8>, line: impl Display) {
    writeln!(printed, "{line}").expect("a list of bytes takes all");
}

/// A round, and what its script stands for.
struct Player {
    opening: Opening,
    scheme: Arc<TestScheme>,
    round: Round<TestScheme>,
    blocked: BTreeSet<u64>,
}

impl Player {
    fn new(opening: Opening, printed: &mut Vec<u8>) -> Result<Self, Error> {
        let Opening {
            round: number,
            participants,
            mode,
            sort,
        } = opening;
        let scheme = Arc::new(TestScheme::new(sort, participants));
        let round = Round::in_mode(number, scheme.clone(), mode)?;
        let quorum = quorum(participants);
        print(
            printed,
            format_args!("round {number} participants {participants} quorum {quorum}"),
        );
        Ok(Player {
            opening,
            scheme,
            round,
            blocked: BTreeSet::new(),
        })
    }

    fn answer(&mut self, command: Command, printed: &mut Vec<u8>) -> Result<(), Error> {
        match command {
            Command::Network {
                sender,
                signer,
                ballot,
                is_good,
            } => {
                let vote = self.vote(signer, ballot, is_good);
                let Admission {
                    added,
                    block,
                    report,
                } = self.round.add_network(&sender, &vote)?;
                let outcome = if added { "added" } else { "refused" };
                let reason = OrNone(block);
                if block.is_some() {
                    self.blocked.insert(sender);
                }
                let report = Report(report);
                print(
                    printed,
                    format_args!("net: {outcome}, block {reason}, report {report}"),
                );
            }
            Command::Own { signer, ballot } => {
                let vote = self.vote(signer, ballot, true);
                match self.round.accept_vote(&vote) {
                    Ok(outcome) => {
                        let (outcome, report) = own_outcome(outcome);
                        print(printed, format_args!("own: {outcome}, report {report}"));
                    }
                    Err(OwnError::Own(fault)) => {
                        print(printed, format_args!("own: refused {fault}"))
                    }
                    Err(error) => return Err(error.into()),
                }
            }
            Command::Certificate(ballot) => {
                let certificate = self.scheme.certificate(self.subject(ballot));
                let changed = self.round.record_certificate(&certificate)?;
                print(printed, format_args!("cert: {changed}"));
            }
            Command::Leader(index) => match self.round.set_any_leader(Participant::new(index)) {
                Ok(()) => print(printed, "leader: ok"),
                Err(fault @ LeaderError::LeaderChanged) => {
                    print(printed, format_args!("leader: refused {fault}"));
                }
                Err(error) => return Err(error.into()),
            },
            Command::Construct => match self.round.try_construct()? {
                None => print(printed, "construct: none"),
                Some(batch) => self.print_batch(&batch, printed),
            },
            Command::Forward(index) => {
                let proposal = self.round.try_forward_proposal(Participant::new(index));
                let payload = OrNone(proposal.map(|proposal| payload(&proposal)));
                print(printed, format_args!("forward: {payload}"));
            }
            Command::Missing(byte) => {
                let missing = self.round.missing_voters(&self.proposal(byte))?;
                print(printed, format_args!("missing: {}", List(&missing)));
            }
            Command::Blocked => print(printed, format_args!("blocked: {}", List(&self.blocked))),
        }
        Ok(())
    }

    fn print_batch(&self, batch: &Batch<Content>, printed: &mut Vec<u8>) {
        let Batch {
            processed,
            invalid,
            certificate,
            fallback,
        } = batch;
        // What the crate hands over has to be right as well as what it prints.
        assert!(
            certificate
                .as_ref()
                .is_none_or(|it| self.scheme.verify_certificate(&it.subject(), it.content()))
        );
        let (invalid, certificate) = (List(invalid), OrNone(certificate.as_ref().map(Made)));
        let fallback = if *fallback { "yes" } else { "no" };
        print(
            printed,
            format_args!(
                "construct: processed {processed}, invalid {invalid}, certificate {certificate}, \
                 fallback {fallback}"
            ),
        );
    }

    fn proposal(&self, byte: u8) -> Proposal {
        Proposal::new(self.opening.round, View::zero(), Sha256Digest([byte; 32]))
    }

    fn subject(&self, ballot: Ballot) -> Subject {
        match ballot {
            Ballot::Notarize(byte) => Subject::Notarize {
                proposal: self.proposal(byte),
            },
            Ballot::Nullify => Subject::Nullify {
                round: self.opening.round,
            },
            Ballot::Finalize(byte) => Subject::Finalize {
                proposal: self.proposal(byte),
            },
        }
    }

    fn vote(&self, signer: u32, ballot: Ballot, is_good: bool) -> Vote<Signature> {
        let subject = self.subject(ballot);
        let mut attestation: Attestation<_> = self.scheme.sign(Participant::new(signer), &subject);
        if !is_good {
            attestation.signature[0] ^= 1;
        }
        Vote::new(subject, attestation)
    }
}

fn payload(proposal: &Proposal) -> u8 {
    proposal.payload.0[0]
}

fn own_outcome(outcome: Outcome<Signature>) -> (String, Report) {
    let (what, report, retained) = match outcome {
        Outcome::ToSend { report, retained } => ("added", Some(report), retained),
        Outcome::Duplicate { retained } => ("duplicate", None, retained),
    };
    let kept = if retained { "retained" } else { "compact" };
    (format!("{what} {kept}"), Report(report))
}

struct OrNone<T>(Option<T>);

impl<T: Display> Display for OrNone<T> {
    fn fmt(&self, f: &mut fmt::Formatter<'_>) -> fmt::Result {
        match &self.0 {
            None => f.write_str("none"),
            Some(it) => it.fmt(f),
        }
    }
}

struct List<'a, L: ?Sized>(&'a L);

impl<L: ?Sized> Display for List<'_, L>
where
    for<'b> &'b L: IntoIterator<Item: Display>,
{
    fn fmt(&self, f: &mut fmt::Formatter<'_>) -> fmt::Result {
        f.write_str("[")?;
        for (place, item) in self.0.into_iter().enumerate() {
            if place > 0 {
                f.write_str(", ")?;
            }
            item.fmt(f)?;
        }
        f.write_str("]")
    }
}

struct Made<'a>(&'a Certificate<Content>);

impl Display for Made<'_> {
    fn fmt(&self, f: &mut fmt::Formatter<'_>) -> fmt::Result {
        let kind = self.0.kind();
        match self.0.proposal() {
            None => write!(f, "{kind}"),
            Some(proposal) => write!(f, "{kind}({})", payload(&proposal)),
        }
    }
}

struct Report(Option<Activity<Signature>>);

impl Display for Report {
    fn fmt(&self, f: &mut fmt::Formatter<'_>) -> fmt::Result {
        let Some(activity) = &self.0 else {
            return f.write_str("none");
        };
        let signer = activity.signer();
        match activity {
            Activity::Notarize(vote) => {
                write!(f, "notarize({signer}, {})", payload(&vote.proposal))
            }
            Activity::Nullify(_) => write!(f, "nullify({signer})"),
            Activity::Finalize(vote) => {
                write!(f, "finalize({signer}, {})", payload(&vote.proposal))
            }
            Activity::ConflictingNotarize(first, second) => {
                let (first, second) = (payload(&first.proposal), payload(&second.proposal));
                write!(f, "conflicting-notarize({signer}, {first}, {second})")
            }
            Activity::ConflictingFinalize(first, second) => {
                let (first, second) = (payload(&first.proposal), payload(&second.proposal));
                write!(f, "conflicting-finalize({signer}, {first}, {second})")
            }
            Activity::NullifyFinalize(_, vote) => {
                write!(f, "nullify-finalize({signer}, {})", payload(&vote.proposal))
            }
        }
    }
}
