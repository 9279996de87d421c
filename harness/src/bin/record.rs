//! Writes cases of the comparison and what must come of them to standard output,
//! for an engine that cannot be linked here. src/recording.rs has the form.

use std::env;
use std::io::{self, BufWriter, Write};
use std::process::exit;

use harness::generate;
use harness::random::Random;
use harness::recording::Recording;

fn main() {
    let words = env::args().skip(1);
    let numbers: Vec<u64> = words.filter_map(|word| word.parse().ok()).collect();
    let [seed, calls] = numbers[..] else {
        eprintln!("record SEED CALLS");
        exit(2);
    };
    if let Err(error) = write(seed, calls) {
        eprintln!("the cases cannot be written: {error}");
        exit(1);
    }
}

fn write(seed: u64, calls: u64) -> io::Result<()> {
    let random = Random::new(seed);
    let mut recording = Recording::new(BufWriter::new(io::stdout().lock()), seed);
    while recording.calls < calls {
        recording.write(&generate::case(&random))?;
    }
    recording.out.flush()
}
