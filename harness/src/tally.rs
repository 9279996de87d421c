//! Counts how often each call gave each refusal number, to show what a
//! comparison has covered.

use std::fmt;

use crate::case::Call;

const CALLS: [&str; 11] = [
    "load", "step", "tick", "back", "forward", "run", "play", "salvage", "rows", "bytes", PLAIN,
];
/// The plain engine's run, which is made beside each run.
const PLAIN: &str = "plain";
/// 0 for done, then the refusals 1 to 12.
const REFUSALS: usize = 13;

#[derive(Default)]
pub struct Tally {
    counts: [[u64; REFUSALS]; CALLS.len()],
    /// How often a 10 was said of a change of the number of lit spots.
    late: [u64; CALLS.len()],
}

impl Tally {
    pub fn count(&mut self, call: &Call, refusal: u32) {
        self.counts[row(call)][refusal as usize] += 1;
    }

    /// Counts a run of the plain engine.
    pub fn count_plain(&mut self, refusal: u32) {
        let row = named(PLAIN).expect("it is named above");
        self.counts[row][refusal as usize] += 1;
    }

    /// Counts a 10 once more, as one that came after the other numbers.
    pub fn count_late(&mut self, call: &Call) {
        self.late[row(call)] += 1;
    }

    /// Whether a call of this name gave this number.
    pub fn has(&self, call: &str, refusal: usize) -> bool {
        named(call).is_some_and(|row| self.counts[row][refusal] > 0)
    }

    /// Whether a call of this name gave a late 10.
    pub fn has_late(&self, call: &str) -> bool {
        named(call).is_some_and(|row| self.late[row] > 0)
    }

    pub fn calls(&self) -> u64 {
        self.counts.iter().flatten().sum()
    }
}

fn row(call: &Call) -> usize {
    match call {
        Call::Load { .. } => 0,
        Call::Step { .. } => 1,
        Call::Tick => 2,
        Call::Back => 3,
        Call::Forward => 4,
        Call::Run { .. } => 5,
        Call::Play { .. } => 6,
        Call::Salvage { .. } => 7,
        Call::Rows { .. } => 8,
        Call::Bytes { .. } => 9,
        Call::Write { .. } | Call::Wear { .. } => unreachable!("no call"),
    }
}

fn named(call: &str) -> Option<usize> {
    CALLS.iter().position(|name| *name == call)
}

impl fmt::Display for Tally {
    fn fmt(&self, f: &mut fmt::Formatter) -> fmt::Result {
        write!(f, "{:>8}", "refusal")?;
        for call in CALLS {
            write!(f, "{call:>10}")?;
        }
        for refusal in 0..REFUSALS {
            let counts = self.counts.map(|row| row[refusal]);
            line(f, &refusal.to_string(), counts)?;
        }
        line(f, "late 10", self.late)
    }
}

fn line(f: &mut fmt::Formatter, name: &str, counts: [u64; CALLS.len()]) -> fmt::Result {
    write!(f, "\n{name:>8}")?;
    for count in counts {
        match count {
            0 => write!(f, "{:>10}", "-")?,
            _ => write!(f, "{count:>10}")?,
        }
    }
    Ok(())
}
