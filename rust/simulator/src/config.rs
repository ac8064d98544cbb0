//! What a run is made of, and the presets.

use crate::numbers::{Numbers, mixed};
use crate::reached::Mark;
use std::fmt;

/// The longest that a message takes once the network is quiet.
pub const DELTA: u64 = 100;
/// How long a validator waits on a view.
pub const TIMEOUT: u64 = 10 * DELTA;

/// Who leads each view.
#[derive(Clone, Copy, Debug, PartialEq, Eq)]
pub enum Lead {
    InTurn,
    /// By a number of the seed and the view.
    Drawn,
    /// An honest one leads all.
    One(u32),
    /// Each leads so many in a row.
    Runs(u64),
    /// One, who may be faulty, leads each third view. In the other views all take turns.
    Third(u32),
}

impl Lead {
    /// Who leads a view. That takes no memory.
    pub fn leader(self, seed: u64, participants: u32, view: u64) -> u32 {
        let count = u64::from(participants);
        match self {
            Lead::InTurn => (view % count) as u32,
            Lead::Drawn => (mixed(seed, view) % count) as u32,
            Lead::One(it) => it,
            Lead::Runs(times) => ((view / times) % count) as u32,
            Lead::Third(it) if view % 3 == 2 => it % participants,
            Lead::Third(_) => ((view / 3 * 2 + view % 3) % count) as u32,
        }
    }
}

/// When timers end while the network isn't quiet.
#[derive(Clone, Copy, Debug, PartialEq, Eq)]
pub enum Timers {
    InTime,
    /// Far too early, and again and again.
    Early,
    Never,
    /// Of views that were left, or are far ahead.
    Wrong,
}

/// What a faulty one sends as a view's leader.
#[derive(Clone, Copy, Debug, PartialEq, Eq)]
pub enum Proposes {
    Nothing,
    /// One proposal to all.
    Plainly,
    /// Two proposals, each to some.
    Two,
    /// To some.
    ToSome,
    /// On a parent that may have no ground.
    OnAnything,
    Late,
    /// On an older parent that has ground.
    OnAnOlder,
    /// To just as many as make a quorum with the faulty.
    ToEnough,
}

/// How the faulty behave. Chances are of a thousand.
#[derive(Clone, Debug)]
pub struct Faults {
    /// Of each kind, whether they vote for what is voted for: notarizes, nullifies and finalizes.
    pub follows: [u64; 3],
    /// Whether what they send goes to some only.
    pub to_some: u64,
    pub late: u64,
    /// Whether they vote against it, too.
    pub contrary: u64,
    /// Whether a certificate of what they have seen goes to one or some only.
    pub hoards: u64,
    pub proposes: Vec<Proposes>,
    /// Forged certificates, bad signatures, far views, other epochs, votes of others.
    pub junk: u64,
    /// They fall silent once the network is quiet, so that all honest ones are needed.
    pub quits: bool,
}

impl Faults {
    fn silent() -> Self {
        Faults {
            follows: [0; 3],
            to_some: 0,
            late: 0,
            contrary: 0,
            hoards: 0,
            proposes: vec![Proposes::Nothing],
            junk: 0,
            quits: true,
        }
    }
}

/// Has `Debug` list what isn't as in a plain run alone.
macro_rules! config {
    ($(#[$doc:meta])* $name:ident { $($(#[$what:meta])* $field:ident: $type:ty = $plain:expr,)+ }) => {
        $(#[$doc])*
        #[derive(Clone)]
        pub struct $name {
            pub seed: u64,
            /// How many validators there are.
            pub count: u32,
            $($(#[$what])* pub $field: $type,)+
        }

        impl $name {
            /// Nothing goes wrong.
            pub fn plain(seed: u64, count: u32) -> Self {
                $name { seed, count, $($field: $plain,)+ }
            }
        }

        impl fmt::Debug for $name {
            fn fmt(&self, f: &mut fmt::Formatter<'_>) -> fmt::Result {
                write!(f, "seed {}, count {}", self.seed, self.count)?;
                $(
                    let (plain, it): ($type, _) = ($plain, format!("{:?}", self.$field));
                    if format!("{plain:?}") != it {
                        write!(f, ", {} {it}", stringify!($field))?;
                    }
                )+
                Ok(())
            }
        }
    };
}

config! {
    /// A run. Times are in hundredths of the longest delay of a quiet network, and chances of a
    /// thousand.
    Config {
        faulty: Vec<u32> = vec![],
        faults: Faults = Faults::silent(),
        /// From when on the network is quiet: nothing is lost or late, and nobody crashes.
        quiet: u64 = 0,
        /// Whether a timeout doubles with each view that isn't final.
        doubles: bool = false,
        lost: u64 = 0,
        twice: u64 = 0,
        delay: u64 = DELTA,
        /// How long a partition lasts at the mean; 0 is none.
        partition: u64 = 0,
        /// Whether a partition cuts off one, and not halves.
        isolates: bool = false,
        /// From when on nothing comes of anybody, until the network is quiet; 0 is never.
        silence: u64 = 0,
        /// How long a life is at the mean; 0 is for ever.
        life: u64 = 0,
        /// How long all live at the mean before all crash at once; 0 is for ever.
        life_of_all: u64 = 0,
        /// Whether one crashes before a task.
        task_crashes: u64 = 0,
        /// How long one is down at the mean.
        down: u64 = DELTA,
        /// How long a write, verdicts, a signature and a judgement take at most.
        disk: u64 = 0,
        verifier: u64 = 0,
        signer: u64 = 0,
        judge: u64 = 0,
        /// Whether a judgement comes only once the network is quiet.
        never_judged: u64 = 0,
        /// Whether an honest one finds a faulty leader's proposal invalid.
        disputes: u64 = 0,
        /// Whether what was asked in an earlier life is answered in the next one.
        stale: bool = false,
        /// Whether each honest signer errs once.
        signer_errs: bool = false,
        /// Whether a signature is held back while a write is under way.
        signs_after_writes: bool = false,
        /// How long it is between two questions for what is kept, at the mean; 0 is for ever.
        asks: u64 = 0,
        /// Whether a call has a request for memory refused.
        refuses: u64 = 0,
        /// Whether one crashes behind such a call.
        refused_crashes: u64 = 0,
        timers: Timers = Timers::InTime,
        lead: Lead = Lead::InTurn,
        ahead: u64 = 16,
        keeps_votes: bool = false,
        /// Whether all payloads are the same bytes.
        same_payload: bool = false,
        /// Which view ends an epoch, once it or a later one is final; 0 is none.
        epoch_ends: u64 = 0,
        /// Whether a disk says that it has a write which it hasn't, and whether it loses all in a
        /// crash. Who has such a disk doesn't do what he owes.
        forgets: u64 = 0,
        wipes: u64 = 0,
        /// Whether honest ones are to agree and to go on, as they are with few enough faulty.
        agrees: bool = true,
        /// After so many events a run is said to take too long.
        most_events: u64 = 1_000_000,
    }
}

impl Config {
    /// Whatever comes of a seed.
    fn drawn(seed: u64) -> Self {
        let mut drawn = Numbers::of(seed);
        let count = drawn.pick(&[4, 4, 4, 4, 4, 7, 7, 10]);
        let mut it = Config::plain(seed, count);
        let most = u64::from(most_faulty(count));
        let all = drawn.shuffled((0..count).collect());
        let faulty = if drawn.chance(250) {
            0
        } else {
            drawn.range(1, most) as usize
        };
        let (faulty, honest) = all.split_at(faulty);
        it.faulty = faulty.to_vec();
        it.faults = Config::drawn_faults(&mut drawn);
        it.doubles = drawn.chance(200);
        let spans: &[u64] = if count == 4 {
            &[5, 10, 20, 40]
        } else {
            &[3, 6, 12, 20]
        };
        it.quiet = drawn.pick(spans) * TIMEOUT;
        it.lost = drawn.pick(&[0, 50, 200, 500, 800]);
        it.twice = drawn.pick(&[0, 0, 100, 500]);
        it.delay = drawn.pick(&[DELTA, 3 * DELTA, 10 * DELTA, 60 * DELTA]);
        it.partition = drawn.pick(&[0, 0, 3, 10, 30]) * TIMEOUT;
        it.isolates = drawn.chance(500);
        it.life = drawn.pick(&[0, 0, 2, 8, 30]) * TIMEOUT;
        it.life_of_all = drawn.pick(&[0, 0, 4, 15]) * TIMEOUT;
        it.task_crashes = drawn.pick(&[0, 0, 2, 20]);
        it.down = drawn.pick(&[1, 1, 10, 50]) * DELTA;
        it.disk = drawn.pick(&[0, 0, 1, 25, 300]);
        it.verifier = drawn.pick(&[0, 0, 1, 25, 400]);
        it.signer = drawn.pick(&[0, 0, 1, 25, 200]);
        it.judge = drawn.pick(&[0, 0, 1, 25, 600]);
        it.never_judged = drawn.pick(&[0, 0, 100, 1000]);
        it.disputes = drawn.pick(&[0, 0, 300]);
        it.stale = drawn.chance(500);
        it.asks = drawn.pick(&[0, 2, 10]) * TIMEOUT;
        it.timers = drawn.pick(&[
            Timers::InTime,
            Timers::InTime,
            Timers::InTime,
            Timers::Early,
            Timers::Never,
            Timers::Wrong,
        ]);
        it.lead = match drawn.below(8) {
            0..=3 => Lead::InTurn,
            4 => Lead::Drawn,
            5 => Lead::One(drawn.pick(honest)),
            6 => Lead::Runs(3),
            _ => Lead::Third(drawn.below(u64::from(count)) as u32),
        };
        it.ahead = drawn.pick(&[1, 2, 4, 8, 16, 16, 16]);
        it.keeps_votes = drawn.chance(300);
        it.same_payload = drawn.chance(300);
        it
    }

    fn drawn_faults(drawn: &mut Numbers) -> Faults {
        let chances = [0, 0, 100, 500, 1000];
        match drawn.below(5) {
            0 => Faults::silent(),
            // Views go on and none is final, and then they quit.
            1 => Faults {
                follows: [drawn.pick(&chances), 1000, 0],
                to_some: drawn.pick(&[0, 0, 500]),
                late: drawn.pick(&[0, 300]),
                hoards: drawn.pick(&chances),
                proposes: vec![Proposes::Nothing, Proposes::ToSome, Proposes::ToEnough],
                ..Faults::silent()
            },
            _ => Faults {
                follows: [0; 3].map(|_: u64| drawn.pick(&chances)),
                to_some: drawn.pick(&[0, 300, 1000]),
                late: drawn.pick(&[0, 300, 1000]),
                contrary: drawn.pick(&[0, 0, 100, 1000]),
                hoards: drawn.pick(&chances),
                proposes: match drawn.below(5) {
                    0 => vec![Proposes::Nothing],
                    1 => vec![Proposes::Two, Proposes::ToEnough],
                    2 => vec![Proposes::ToSome, Proposes::ToEnough, Proposes::OnAnOlder],
                    3 => vec![Proposes::Plainly, Proposes::Late, Proposes::OnAnything],
                    _ => vec![
                        Proposes::Nothing,
                        Proposes::Plainly,
                        Proposes::Two,
                        Proposes::ToSome,
                        Proposes::OnAnything,
                        Proposes::Late,
                        Proposes::OnAnOlder,
                        Proposes::ToEnough,
                    ],
                },
                junk: drawn.pick(&[0, 0, 20, 300]),
                quits: drawn.chance(500),
            },
        }
    }

    /// Runs of so long by which the pace is measured: with nobody faulty, with one who is stopped, and
    /// with one whom all block for what it sends.
    pub fn paces(seed: u64, span: u64) -> [(&'static str, Self); 3] {
        // The measure ends where the network becomes quiet.
        let all = Config {
            quiet: span,
            ..Config::plain(seed, 4)
        };
        let stopped = Config {
            faulty: vec![3],
            ..all.clone()
        };
        let blocked = Config {
            faults: Faults {
                follows: [1000; 3],
                contrary: 1000,
                proposes: vec![Proposes::Plainly],
                quits: false,
                ..Faults::silent()
            },
            ..stopped.clone()
        };
        [
            ("all four", all),
            ("one stopped", stopped),
            ("one blocked", blocked),
        ]
    }

    pub fn leader(&self, view: u64) -> u32 {
        self.lead.leader(self.seed, self.count, view)
    }

    pub fn is_faulty(&self, it: u32) -> bool {
        self.faulty.contains(&it)
    }

    pub fn honest(&self) -> Vec<u32> {
        (0..self.count).filter(|it| !self.is_faulty(*it)).collect()
    }
}

/// How many faulty there may be.
pub fn most_faulty(count: u32) -> u32 {
    (count - 1) / 3
}

/// A sort of runs, and what its runs are to have reached in all.
pub struct Preset {
    pub name: &'static str,
    change: fn(&mut Config, &mut Numbers),
    pub reaches: &'static [Mark],
    /// How some of them are to fail, where a caller doesn't do what he owes: so it is seen.
    pub fails: Option<&'static str>,
}

impl Preset {
    pub fn run_of(&self, seed: u64) -> Config {
        let mut it = Config::drawn(seed);
        (self.change)(&mut it, &mut Numbers::of(!seed));
        it
    }
}

/// One of four is faulty.
fn of_four(it: &mut Config) {
    let plain = Config::plain(it.seed, 4);
    *it = Config {
        faulty: vec![(it.seed % 4) as u32],
        quiet: it.quiet,
        ..plain
    };
}

pub const PRESETS: &[Preset] = &[
    Preset {
        name: "any",
        change: |_, _| {},
        reaches: &[
            Mark::CrashInWrite,
            Mark::CrashOfAll,
            Mark::FromAhead,
            Mark::LateVerdicts,
            Mark::Partition,
            Mark::BlockedFaulty,
        ],
        fails: None,
    },
    Preset {
        name: "crashes",
        change: |it, drawn| {
            it.life = 2 * TIMEOUT;
            it.life_of_all = 4 * TIMEOUT;
            it.task_crashes = 20;
            it.disk = drawn.pick(&[25, 100, 300]);
            it.stale = true;
        },
        reaches: &[
            Mark::CrashInWrite,
            Mark::CrashOfAll,
            Mark::BegunAgain,
            Mark::ReplacedBehindAppend,
            Mark::StaleAnswer,
        ],
        fails: None,
    },
    Preset {
        name: "threads",
        change: |it, drawn| {
            it.disk = drawn.pick(&[25, 100, 300]);
            it.signer = drawn.pick(&[25, 100, 200]);
            it.verifier = drawn.pick(&[25, 400]);
            it.judge = drawn.pick(&[25, 600]);
            it.asks = TIMEOUT / 2;
            it.stale = true;
        },
        reaches: &[
            Mark::SignedInWrite,
            Mark::AskedAndWaited,
            Mark::ReplacedBehindAppend,
            Mark::LateVerdicts,
        ],
        fails: None,
    },
    // The disk and the signer alone are slow, and nobody is faulty, so that votes that were lost
    // are voted against.
    Preset {
        name: "racing",
        change: |it, drawn| {
            let plain = Config::plain(it.seed, it.count);
            *it = Config {
                quiet: it.quiet,
                lead: it.lead,
                disk: drawn.pick(&[25, 100]),
                signer: drawn.pick(&[25, 100]),
                verifier: drawn.pick(&[0, 25, 100]),
                life_of_all: drawn.pick(&[2, 4]) * TIMEOUT,
                asks: TIMEOUT / 4,
                ..plain
            };
            if let Lead::One(_) = it.lead {
                it.lead = Lead::InTurn;
            }
        },
        reaches: &[
            Mark::SignedInWrite,
            Mark::AskedAndWaited,
            Mark::CrashInWrite,
            Mark::CrashOfAll,
        ],
        fails: None,
    },
    Preset {
        name: "equivocating",
        change: |it, drawn| {
            let faulty = u64::from(most_faulty(it.count));
            it.faulty = drawn.shuffled((0..it.count).collect())[..faulty as usize].to_vec();
            it.faults.proposes = vec![
                Proposes::Two,
                Proposes::ToSome,
                Proposes::OnAnOlder,
                Proposes::ToEnough,
            ];
            it.faults.contrary = 300;
            it.faults.hoards = 700;
            it.life = drawn.pick(&[0, 4]) * TIMEOUT;
            if let Lead::One(_) = it.lead {
                it.lead = Lead::InTurn;
            }
        },
        reaches: &[Mark::TwoProposals, Mark::Hoarded, Mark::BlockedFaulty],
        fails: None,
    },
    Preset {
        name: "junk",
        change: |it, _| {
            it.faulty = vec![(it.seed % u64::from(it.count)) as u32];
            it.faults.junk = 300;
            it.faults.quits = false;
            if let Lead::One(_) = it.lead {
                it.lead = Lead::InTurn;
            }
        },
        reaches: &[Mark::Junk, Mark::Forged, Mark::BlockedFaulty],
        fails: None,
    },
    Preset {
        name: "partitions",
        change: |it, drawn| {
            it.partition = 10 * TIMEOUT;
            it.lost = drawn.pick(&[0, 200]);
            it.isolates = drawn.chance(700);
        },
        reaches: &[Mark::Partition, Mark::FromAhead],
        fails: None,
    },
    // All are cut off from all, for a thousand timeouts.
    Preset {
        name: "silence",
        change: |it, drawn| {
            let plain = Config::plain(it.seed, it.count);
            *it = Config {
                faulty: it.faulty.clone(),
                lead: it.lead,
                silence: drawn.pick(&[1, 3, 10, 30]) * TIMEOUT,
                quiet: 1_030 * TIMEOUT,
                lost: drawn.pick(&[0, 200]),
                life: drawn.pick(&[0, 0, 200]) * TIMEOUT,
                life_of_all: drawn.pick(&[0, 300]) * TIMEOUT,
                ..plain
            };
        },
        reaches: &[Mark::Expired, Mark::CrashOfAll],
        fails: None,
    },
    // One is down or cut off for so long that the others take it for absent, and comes back; now and
    // then all are started again at once. Two of three others may come to hear nothing of each other.
    Preset {
        name: "absences",
        change: |it, drawn| {
            let plain = Config::plain(it.seed, it.count);
            *it = Config {
                faulty: it.faulty.clone(),
                lead: it.lead,
                quiet: drawn.pick(&[60, 100]) * TIMEOUT,
                lost: drawn.pick(&[0, 0, 300, 800]),
                partition: drawn.pick(&[0, 20, 40]) * TIMEOUT,
                isolates: drawn.chance(700),
                life: drawn.pick(&[20, 40]) * TIMEOUT,
                life_of_all: drawn.pick(&[0, 30]) * TIMEOUT,
                down: drawn.pick(&[10, 100, 300]) * DELTA,
                doubles: drawn.chance(300),
                ..plain
            };
        },
        reaches: &[Mark::GaveUp, Mark::CrashOfAll, Mark::Partition],
        fails: None,
    },
    // One is cut off while the others go on by the help of a faulty one that nullifies. Then that one
    // falls silent, so that the one that was cut off is needed.
    Preset {
        name: "behind",
        change: |it, drawn| {
            of_four(it);
            it.faults.follows = [0, 1000, 0];
            it.quiet = drawn.pick(&[20, 40, 60]) * TIMEOUT;
            it.partition = drawn.pick(&[8, 16, 25]) * TIMEOUT;
            it.isolates = true;
            it.ahead = drawn.pick(&[1, 2, 4, 8, 16]);
            it.life = drawn.pick(&[0, 0, 8]) * TIMEOUT;
        },
        reaches: &[Mark::FromAhead, Mark::Partition],
        fails: None,
    },
    Preset {
        name: "memory",
        change: |it, drawn| {
            it.refuses = drawn.pick(&[20, 100, 300]);
            it.refused_crashes = drawn.pick(&[0, 100, 500]);
            it.asks = TIMEOUT;
            it.life = drawn.pick(&[0, 8]) * TIMEOUT;
        },
        reaches: &[
            Mark::RefusedBegin,
            Mark::RefusedStart,
            Mark::RefusedPoll,
            Mark::RefusedVote,
            Mark::RefusedCertificate,
            Mark::RefusedConclude,
            Mark::RefusedSigned,
            Mark::RefusedKept,
            Mark::RefusedAttestations,
            Mark::RefusedMessage,
            Mark::CrashAfterRefusal,
        ],
        fails: None,
    },
    // A faulty one shows what it certifies to one alone, which is refused memory, crashes, and is
    // needed later on.
    Preset {
        name: "keeping",
        change: |it, drawn| {
            of_four(it);
            it.faults.follows = [1000, 0, 0];
            it.faults.to_some = 1000;
            it.faults.hoards = 1000;
            it.faults.proposes = vec![Proposes::ToSome, Proposes::ToEnough];
            it.quiet = drawn.pick(&[2, 3, 4, 6]) * TIMEOUT;
            it.life = drawn.pick(&[1, 2]) * TIMEOUT;
            it.lost = drawn.pick(&[500, 800]);
            it.refuses = drawn.pick(&[500, 700]);
        },
        reaches: &[Mark::RefusedCertificate, Mark::Hoarded, Mark::Crash],
        fails: None,
    },
    // One faulty of four, or none, and each honest signer makes one signature that doesn't attest.
    Preset {
        name: "signer",
        change: |it, drawn| {
            it.signer_errs = true;
            it.signer = drawn.pick(&[0, 25, 200]);
            it.disk = drawn.pick(&[0, 25]);
        },
        reaches: &[Mark::SignerErred],
        fails: None,
    },
    Preset {
        name: "epochs",
        change: |it, drawn| {
            it.epoch_ends = drawn.pick(&[2, 3, 5]);
            it.quiet = it.quiet.max(20 * TIMEOUT);
            it.delay = drawn.pick(&[DELTA, 3 * DELTA]);
            it.lost = drawn.pick(&[0, 50, 200]);
            it.disk = drawn.pick(&[0, 25]);
            it.faults.quits = true;
        },
        reaches: &[
            Mark::NextEpoch,
            Mark::BegunAgain,
            Mark::OtherEpoch,
            Mark::EpochEnded,
        ],
        fails: None,
    },
    // More are faulty than may be. Then honest ones may disagree and needn't go on, but each keeps
    // its own promises.
    Preset {
        name: "outnumbered",
        change: |it, drawn| {
            let first = u64::from(most_faulty(it.count)) + 1;
            let faulty = drawn.range(first, u64::from(it.count) - 2) as usize;
            it.faulty = drawn.shuffled((0..it.count).collect())[..faulty].to_vec();
            it.faults = Faults {
                follows: [1000; 3],
                to_some: drawn.pick(&[0, 700]),
                late: drawn.pick(&[0, 100]),
                contrary: drawn.pick(&[0, 0, 500]),
                hoards: 1000,
                proposes: vec![Proposes::Two, Proposes::ToSome, Proposes::OnAnOlder],
                junk: 20,
                quits: false,
            };
            it.life = drawn.pick(&[2, 8]) * TIMEOUT;
            it.life_of_all = drawn.pick(&[0, 8]) * TIMEOUT;
            it.lost = drawn.pick(&[0, 200]);
            it.partition = drawn.pick(&[0, 8]) * TIMEOUT;
            it.quiet = it.quiet.min(12 * TIMEOUT);
            it.agrees = false;
            if let Lead::One(_) = it.lead {
                it.lead = Lead::InTurn;
            }
        },
        reaches: &[
            Mark::TwoProposals,
            Mark::Hoarded,
            Mark::Fork,
            Mark::CrashOfAll,
        ],
        fails: None,
    },
    // Votes are shown that aren't on the disk.
    Preset {
        name: "forgetful",
        change: |it, _| it.forgets = 50,
        reaches: &[],
        fails: Some("UNWRITTEN"),
    },
    // Votes are shown that contradict those of an earlier life.
    Preset {
        name: "wiped",
        change: |it, _| {
            it.life = 2 * TIMEOUT;
            it.wipes = 1000;
        },
        reaches: &[],
        fails: Some("CONTRADICTED"),
    },
];

/// What makes a run smaller. Each is tried on one that fails.
pub const SMALLER: &[fn(&mut Config)] = &[
    |it| it.faulty.clear(),
    |it| it.faults = Faults::silent(),
    |it| it.faults.junk = 0,
    |it| it.faults.hoards = 0,
    |it| it.faults.contrary = 0,
    |it| it.faults.late = 0,
    |it| it.faults.to_some = 0,
    |it| it.faults.follows = [0; 3],
    |it| it.faults.proposes = vec![Proposes::Nothing],
    |it| it.faults.proposes = vec![Proposes::Plainly],
    |it| it.lost = 0,
    |it| it.twice = 0,
    |it| it.delay = DELTA,
    |it| it.partition = 0,
    |it| it.isolates = false,
    |it| it.silence = 0,
    |it| it.life = 0,
    |it| it.life_of_all = 0,
    |it| it.task_crashes = 0,
    |it| it.down = DELTA,
    |it| it.disk = 0,
    |it| it.verifier = 0,
    |it| it.signer = 0,
    |it| it.judge = 0,
    |it| it.never_judged = 0,
    |it| it.disputes = 0,
    |it| it.stale = false,
    |it| it.signer_errs = false,
    |it| it.signs_after_writes = true,
    |it| it.asks = 0,
    |it| it.refuses = 0,
    |it| it.refused_crashes = 0,
    |it| it.timers = Timers::InTime,
    |it| it.lead = Lead::InTurn,
    |it| it.ahead = 16,
    |it| it.keeps_votes = false,
    |it| it.same_payload = false,
    |it| it.doubles = false,
    |it| it.epoch_ends = 0,
    |it| it.quiet /= 2,
];
