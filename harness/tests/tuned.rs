//! The hand-tuned engine is held to the same rules as the card.

use harness::check::check;
use harness::generate;
use harness::random::Random;
use harness::tally::Tally;
use harness::tuned::Tuned;

/// Every number that each call can give.
const NUMBERS: [(&str, &[usize]); 10] = [
    ("load", &[0, 8, 9, 10]),
    ("step", &[0, 1, 2, 3, 4, 5, 6, 9, 10]),
    ("tick", &[0, 9, 10]),
    ("back", &[0, 7, 9, 10, 11]),
    ("forward", &[0, 1, 2, 3, 4, 5, 6, 9, 10, 11, 12]),
    ("run", &[0, 1, 2, 3, 4, 5, 6, 9, 10]),
    ("play", &[0, 1, 2, 3, 4, 5, 6, 7, 9, 10, 11, 12]),
    ("salvage", &[0, 9, 10]),
    ("rows", &[0, 9]),
    ("bytes", &[0, 9]),
];

/// The calls that a change of the number of lit spots can refuse by 10.
const LATE: [&str; 5] = ["step", "back", "forward", "run", "play"];

#[test]
fn the_tuned_engine_equals_the_second_interpreter() {
    let random = Random::new(1978);
    let mut tally = Tally::default();
    while tally.calls() < 200_000 {
        let case = generate::case(&random);
        if let Err(mismatch) = check(&Tuned, &case, &mut tally) {
            panic!("{case}\n{mismatch}");
        }
    }
    for (call, numbers) in NUMBERS {
        for number in numbers {
            assert!(tally.has(call, *number), "no {call} gave {number}");
        }
    }
    for call in LATE {
        assert!(tally.has_late(call), "no {call} gave a late 10");
    }
}
