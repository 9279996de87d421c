//! The comparison: the card's archive against the second interpreter.

use std::env;
use std::process::exit;
use std::sync::atomic::{AtomicU64, Ordering};
use std::thread;
use std::time::{Duration, Instant, SystemTime};

use harness::card::Archive;
use harness::case::Case;
use harness::check::{check, fails};
use harness::engine::Engine;
use harness::generate;
use harness::random::Random;
use harness::shrink::shrink;
use harness::tally::Tally;
use harness::tuned::Tuned;

const USAGE: &str = "\
compare [--seed N] [--calls N | --minutes N] [--tuned] [--show]
  --seed N     repeats the run that printed this seed
  --calls N    ends after at least N calls (2000000 if nothing is said)
  --minutes N  ends after N minutes
  --tuned      tests the hand-tuned engine and not the archive
  --show       prints each case before it is made, to find one that crashes";

/// A single case takes far less; a longer one is taken as a call without end.
const PATIENCE: Duration = Duration::from_secs(60);
/// How long a failing case may be cut.
const CUTTING: Duration = Duration::from_secs(20);

struct Wishes {
    seed: u64,
    calls: u64,
    until: Option<Instant>,
    tuned: bool,
    show: bool,
}

fn main() {
    let wishes = wishes();
    println!("seed {}", wishes.seed);
    let engine: &dyn Engine<u64> = if wishes.tuned { &Tuned } else { &Archive };
    watch_for_a_call_without_end(wishes.seed);

    let random = Random::new(wishes.seed);
    let start = Instant::now();
    let mut cases = 0;
    let mut tally = Tally::default();
    while !done(&wishes, tally.calls()) {
        CASE.store(cases, Ordering::Relaxed);
        let case = generate::case(&random);
        if wishes.show {
            println!("case {cases}\n{case}");
        }
        if let Err(mismatch) = check(engine, &case, &mut tally) {
            println!("case {cases} differs {mismatch}");
            println!("cutting it short");
            report(engine, case);
            println!("repeat it with --seed {}", wishes.seed);
            exit(1);
        }
        cases += 1;
    }
    println!("{tally}");
    println!(
        "{} equals the second interpreter in {} calls of {cases} cases ({} s)",
        engine.name(),
        tally.calls(),
        start.elapsed().as_secs()
    );
}

/// Prints a failing case, cut short, and where it fails.
fn report(engine: &dyn Engine<u64>, case: Case) {
    let case = shrink(case, CUTTING, &|case| fails(engine, case));
    let mismatch = check(engine, &case, &mut Tally::default());
    let mismatch = mismatch.expect_err("a cut case still fails");
    println!("\n{case}\n{mismatch}\n");
    println!("{} differs from the second interpreter", engine.name());
}

fn done(wishes: &Wishes, calls: u64) -> bool {
    match wishes.until {
        Some(until) => Instant::now() >= until,
        None => calls >= wishes.calls,
    }
}

/// The number of the case being made.
static CASE: AtomicU64 = AtomicU64::new(0);

fn watch_for_a_call_without_end(seed: u64) {
    thread::spawn(move || {
        let mut seen = (CASE.load(Ordering::Relaxed), Instant::now());
        loop {
            thread::sleep(Duration::from_secs(1));
            let case = CASE.load(Ordering::Relaxed);
            if case != seen.0 {
                seen = (case, Instant::now());
            } else if seen.1.elapsed() > PATIENCE {
                println!("case {case} does not end; look at it with --seed {seed} --show");
                exit(1);
            }
        }
    });
}

fn wishes() -> Wishes {
    let mut wishes = Wishes {
        seed: new_seed(),
        calls: 2_000_000,
        until: None,
        tuned: false,
        show: false,
    };
    let mut words = env::args().skip(1);
    while let Some(word) = words.next() {
        match word.as_str() {
            "--seed" => wishes.seed = number(words.next()),
            "--calls" => wishes.calls = number(words.next()),
            "--minutes" => {
                let time = Duration::from_secs(60 * number(words.next()));
                wishes.until = Some(Instant::now() + time);
            }
            "--tuned" => wishes.tuned = true,
            "--show" => wishes.show = true,
            _ => give_up(),
        }
    }
    wishes
}

fn number(word: Option<String>) -> u64 {
    match word.and_then(|word| word.parse().ok()) {
        Some(number) => number,
        None => give_up(),
    }
}

fn give_up() -> ! {
    eprintln!("{USAGE}");
    exit(2);
}

/// The clock gives a seed that changes from run to run.
fn new_seed() -> u64 {
    let now = SystemTime::now().duration_since(SystemTime::UNIX_EPOCH);
    now.map_or(0, |time| time.as_nanos() as u64)
}
