//! Networks of validators over the crate batcher, in virtual time: a seed is a run. Some validators
//! are faulty, messages are lost and late, validators crash at any point, their disks, signers, judges
//! and verifiers take their time, and memory is refused. Behind each event it is looked at whether all
//! honest ones keep what is promised of them, and whether they go on once the network is quiet. Where
//! no preset is named, it is also measured how many proposals are final with one of four stopped, or
//! blocked by all, beside those of all four.
//! usage: simulator FIRST COUNT [PRESET..]
//!        simulator list

mod config;
mod driver;
mod memory;
mod messages;
mod node;
mod numbers;
mod reached;
mod world;

use config::{Config, PRESETS, Preset, SMALLER, TIMEOUT};
use memory::Refusing;
use reached::{Mark, Reached};
use std::panic::{AssertUnwindSafe, catch_unwind, set_hook};
use std::process::ExitCode;
use std::sync::Mutex;
use std::sync::atomic::{AtomicU64, Ordering};
use std::thread::{available_parallelism, scope};
use std::time::{Duration, Instant};
use world::World;

#[global_allocator]
static HEAP: Refusing = Refusing;

/// So long a run that fails is made smaller.
const LONGEST: Duration = Duration::from_secs(20);

/// So many runs of a preset needn't come to anything.
const FEW: u64 = 100;

/// So long is a run by which the pace is measured, and of so many seeds.
const SPAN: u64 = 100 * TIMEOUT;
const PACES: u64 = 8;

/// What came of a run.
struct Outcome {
    failed: Option<String>,
    reached: Reached,
}

/// What comes of something, or with what it panicked.
fn caught<T>(act: impl FnOnce() -> T) -> Result<T, String> {
    catch_unwind(AssertUnwindSafe(act)).map_err(|panic| {
        memory::grant_all();
        let text = panic.downcast_ref::<String>().map(String::as_str);
        let text = text.or(panic.downcast_ref::<&str>().copied());
        format!("PANIC: {}", text.unwrap_or_default())
    })
}

fn play(run: &Config) -> Outcome {
    let played = caught(|| {
        let mut world = World::new(run.clone());
        let failed = world.play();
        Outcome {
            failed,
            reached: world.reached,
        }
    });
    played.unwrap_or_else(|why| Outcome {
        failed: Some(why),
        reached: Reached::none(),
    })
}

/// What sort of failure it is: its first word.
fn sort_of(failed: &str) -> &str {
    failed.split(':').next().unwrap_or(failed)
}

/// The smallest run that fails in the same way, of those that are found by taking away, for a while.
fn smallest(run: &Config, failed: &str) -> Config {
    let begin = Instant::now();
    let mut smallest = run.clone();
    loop {
        let before = format!("{smallest:?}");
        for change in SMALLER {
            let mut smaller = smallest.clone();
            change(&mut smaller);
            if format!("{smaller:?}") == format!("{smallest:?}") {
                continue;
            }
            if begin.elapsed() > LONGEST {
                return smallest;
            }
            let still = play(&smaller).failed;
            if still.is_some_and(|it| sort_of(&it) == sort_of(failed)) {
                smallest = smaller;
            }
        }
        if format!("{smallest:?}") == before {
            return smallest;
        }
    }
}

/// What came of a preset's runs.
struct Played {
    reached: Reached,
    failed: Vec<(u64, String)>,
    slowest: (f64, u64),
}

fn play_all(preset: &Preset, first: u64, count: u64) -> Played {
    let next = AtomicU64::new(0);
    let played = Mutex::new(Played {
        reached: Reached::none(),
        failed: Vec::new(),
        slowest: (0.0, 0),
    });
    let work = || {
        loop {
            let seed = next.fetch_add(1, Ordering::Relaxed);
            if seed >= count {
                return;
            }
            let seed = first.wrapping_add(seed);
            let begin = Instant::now();
            let outcome = play(&preset.run_of(seed));
            let taken = begin.elapsed().as_secs_f64();
            let mut all = played.lock().expect("no thread panics");
            all.reached.add(&outcome.reached);
            all.failed.extend(outcome.failed.map(|why| (seed, why)));
            if taken > all.slowest.0 {
                all.slowest = (taken, seed);
            }
        }
    };
    scope(|threads| {
        for _ in 0..available_parallelism().map_or(1, |it| it.get()) {
            threads.spawn(work);
        }
    });
    let mut played = played.into_inner().expect("no thread panics");
    played.failed.sort();
    played
}

/// Plays so many seeds of a preset, says what came of them, and counts what passed and failed.
fn look_at(preset: &Preset, first: u64, count: u64) -> (u64, u64) {
    let begin = Instant::now();
    let played = play_all(preset, first, count);
    let taken = begin.elapsed().as_secs_f64();
    let times = |mark| played.reached.times(mark);
    println!(
        "{}: {count} runs in {taken:.1} s, {} events, {} final views, {} crashes, {} timers; the \
         slowest, seed {}, took {:.1} s",
        preset.name,
        times(Mark::Event),
        times(Mark::Final),
        times(Mark::Crash),
        times(Mark::Expired),
        played.slowest.1,
        played.slowest.0,
    );
    if let Some(sort) = preset.fails {
        let seen = played
            .failed
            .iter()
            .filter(|it| sort_of(&it.1) == sort)
            .count() as u64;
        println!("  {seen} runs fail as they are to: {sort}");
        return (u64::from(seen > 0), u64::from(seen == 0));
    }
    let mut failed = played.failed.len() as u64;
    let mut passed = count - failed;
    if count > FEW {
        for mark in preset.reaches {
            let times = times(*mark);
            println!("  {times} times {}", mark.what());
            passed += u64::from(times > 0);
            failed += u64::from(times == 0);
            if times == 0 {
                println!(
                    "simulate: no run of {} comes to {}",
                    preset.name,
                    mark.what()
                );
            }
        }
    }
    let mut sorts: Vec<(&str, u64)> = Vec::new();
    for (seed, why) in &played.failed {
        let sort = sort_of(why);
        match sorts.iter_mut().find(|it| it.0 == sort) {
            Some(known) => known.1 += 1,
            None => {
                sorts.push((sort, 1));
                let run = preset.run_of(*seed);
                println!(
                    "simulate: make simulate SEED={seed} PRESET={}: {run:?}",
                    preset.name
                );
                println!("  {why}");
                let smallest = smallest(&run, why);
                println!("  the smallest: {smallest:?}");
                println!("  {}", play(&smallest).failed.unwrap_or_default());
            }
        }
    }
    for (sort, times) in sorts {
        println!("  {times} of {count} runs fail: {sort}");
    }
    (passed, failed)
}

/// How many proposals are final in the end of a run, whether somebody faulty is blocked by all
/// others, and how often a view is given up for its leader.
fn pace(run: Config) -> Result<(u64, bool, u64), String> {
    caught(|| {
        let honest = run.honest().len() as u64;
        let mut world = World::new(run);
        let chain = world.pace()?;
        let blocked = world.reached.times(Mark::BlockedFaulty);
        Ok((chain, blocked == honest, world.reached.times(Mark::GaveUp)))
    })?
}

/// Says how many proposals are final in the same time with nobody faulty, with one who is stopped, and
/// with one whom all block, and counts whether these are half as many at least.
fn look_at_paces(first: u64) -> (u64, u64) {
    let (mut finals, mut failed) = ([0; 3], Vec::new());
    for seed in (0..PACES).map(|it| first.wrapping_add(it)) {
        let runs = Config::paces(seed, SPAN).into_iter().enumerate();
        for (place, (name, run)) in runs {
            match pace(run) {
                Ok((chain, is_blocked, gave_up)) => {
                    finals[place] += chain;
                    if is_blocked != (place == 2) || (gave_up > 0) != (place > 0) {
                        failed.push(format!(
                            "pace of {name}, seed {seed}: the run isn't what it says"
                        ));
                    }
                }
                Err(why) => failed.push(format!("pace of {name}, seed {seed}: {why}")),
            }
        }
    }
    let [all, stopped, blocked] = finals;
    let ratio = |it: u64| it as f64 / all.max(1) as f64;
    println!(
        "pace: {all} proposals are final of all four; with one stopped {stopped}, {:.2} times as \
         many; with one blocked {blocked}, {:.2} times",
        ratio(stopped),
        ratio(blocked),
    );
    failed.iter().for_each(|why| println!("simulate: {why}"));
    // With all four a view takes much less than a timeout.
    let is_slow = all < PACES * SPAN / TIMEOUT;
    let wrong =
        [stopped, blocked].map(|it| u64::from(!failed.is_empty() || is_slow || 2 * it < all));
    (2 - wrong[0] - wrong[1], wrong[0] + wrong[1])
}

fn main() -> ExitCode {
    let words: Vec<String> = std::env::args().skip(1).collect();
    let (first, count, names) = match &words[..] {
        [list] if list == "list" => {
            PRESETS.iter().for_each(|it| println!("{}", it.name));
            return ExitCode::SUCCESS;
        }
        [first, count, names @ ..] => (first.parse(), count.parse(), names),
        _ => return usage(),
    };
    let (Ok(first), Ok(count)) = (first, count) else {
        return usage();
    };
    let is_known = |name: &String| PRESETS.iter().any(|it| it.name == name);
    if !names.iter().all(is_known) {
        return usage();
    }
    // What a panic says is said with its run.
    set_hook(Box::new(|_| {}));
    let (mut passed, mut failed) = (0, 0);
    for preset in PRESETS {
        let is_left_out = preset.fails.is_some() && count <= FEW;
        if names.is_empty() && !is_left_out || names.iter().any(|it| it == preset.name) {
            let counted = look_at(preset, first, count);
            passed += counted.0;
            failed += counted.1;
        }
    }
    if names.is_empty() {
        let counted = look_at_paces(first);
        passed += counted.0;
        failed += counted.1;
    }
    println!("{passed} passed, {failed} failed");
    if failed == 0 {
        ExitCode::SUCCESS
    } else {
        ExitCode::FAILURE
    }
}

fn usage() -> ExitCode {
    eprintln!("usage: simulator FIRST COUNT [PRESET..], or simulator list");
    ExitCode::from(2)
}
