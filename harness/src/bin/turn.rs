//! Makes runs of a program of the measurements with one engine, as the measurements
//! do: what `harness/model` takes down instruction by instruction.
//!
//!     turn card|tuned PROGRAM RUNS
//!     turn programs                   prints their names, a line each

use std::env;
use std::process::exit;

use harness::card::Archive;
use harness::desk::{Desk, PROGRAMS};
use harness::engine::Engine;
use harness::second::HISTORY_MOST;
use harness::tuned::Tuned;

fn main() {
    let words: Vec<String> = env::args().skip(1).collect();
    let number = |at: usize| words.get(at).and_then(|word| word.parse::<usize>().ok());
    let program = number(1).and_then(|number| PROGRAMS.get(number));
    match (words.first().map(String::as_str), program, number(2)) {
        (Some("programs"), None, None) => PROGRAMS
            .iter()
            .for_each(|program| println!("{}", program.name)),
        (Some("card"), Some(program), Some(runs)) => {
            make(Desk::new(program, HISTORY_MOST, &Archive), runs)
        }
        (Some("tuned"), Some(program), Some(runs)) => {
            make(Desk::new(program, HISTORY_MOST, &Tuned), runs)
        }
        _ => {
            eprintln!("usage: turn card|tuned PROGRAM RUNS, or turn programs");
            exit(2);
        }
    }
}

fn make<E: Engine<u64>>(mut desk: Desk<'_, E>, runs: usize) {
    for _ in 0..runs {
        desk.run();
    }
}
