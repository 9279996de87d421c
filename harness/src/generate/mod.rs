//! Makes cases: short and long, valid and damaged, wild and directed.

mod calls;
mod hosts;
mod instructions;
mod kinds;
mod programs;
mod records;

use crate::case::Case;
use crate::random::Random;

type Kind = fn(&Random) -> Case;

/// Each kind of case beside how often it is taken.
const KINDS: &[(usize, Kind)] = &[
    (40, kinds::one_instruction_at_a_time),
    (30, kinds::back_onto_a_record),
    (25, kinds::forward_onto_a_record),
    (10, kinds::unsound),
    (12, kinds::wrong_lengths),
    (6, kinds::loads),
    (6, kinds::turnings),
    (6, kinds::key_waits),
    (4, kinds::deep_calls),
    (8, kinds::walk_of_a_program),
    (4, kinds::walk_of_wild_bytes),
    (6, kinds::false_numbers),
    (12, kinds::worn_history),
    (8, kinds::planted_history),
    (4, kinds::short_lists),
    (1, kinds::long_lists),
];

pub fn case(random: &Random) -> Case {
    let all: usize = KINDS.iter().map(|(often, _)| often).sum();
    let mut lot = random.within(0..=all - 1);
    for (often, kind) in KINDS {
        if lot < *often {
            return kind(random);
        }
        lot -= often;
    }
    unreachable!("the lot is below the sum")
}
