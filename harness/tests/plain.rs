//! The plain engine beside the second interpreter: its lengths, its spots, and the
//! numbers of a history that it leaves. The comparison makes it beside every run.

use harness::buffers::Lists;
use harness::check::check_plain;
use harness::engine::{ACCEPTED, ANSWER};
use harness::plain::{picture_of, spots_of, SPOTS};
use harness::random::Random;
use harness::second::{Machine, FULL_END, MEMORY, PICTURE, SECOND_EDITION, START};

/// A machine before DXY5 and a jump back to it, and a list of so many steps.
struct Run {
    image: Vec<u8>,
    memory: Vec<u8>,
    spots: Vec<u8>,
    entries: usize,
}

impl Run {
    fn new() -> Run {
        let mut memory = vec![0; MEMORY];
        let at = usize::from(START);
        memory[at..at + 4].copy_from_slice(&[0xD0, 0x15, 0x12, 0x00]);
        Run {
            image: Machine::fresh(SECOND_EDITION, FULL_END).to_image().to_vec(),
            memory,
            spots: vec![0; SPOTS],
            entries: 7,
        }
    }

    fn make(&self, answer_length: usize) -> harness::check::Plain {
        let lists = Lists {
            first: &vec![1; self.entries],
            keys: &vec![0; self.entries],
            randoms: &vec![0; self.entries],
        };
        check_plain(
            [&self.image, &self.memory, &self.spots],
            lists,
            answer_length,
        )
        .unwrap_or_else(|what| panic!("{what}"))
    }

    fn refusal(&self) -> u32 {
        self.make(ANSWER).refusal
    }
}

#[test]
fn spots_are_turned_both_ways() {
    let random = Random::new(11);
    for _ in 0..200 {
        let picture = random.bytes(PICTURE);
        let spots = spots_of(&picture);
        assert_eq!(spots.len(), SPOTS);
        assert_eq!(picture_of(&spots), picture);
    }
    let mut picture = vec![0; PICTURE];
    picture[8] = 0x40;
    assert_eq!(spots_of(&picture)[64..67], [0, 1, 0]);
}

#[test]
fn a_run_draws_and_is_counted() {
    let left = Run::new().make(ANSWER);
    assert_eq!(left.refusal, 0);
    assert_eq!(left.answer, [7, 0, 0, 0]);
    assert_eq!(left.answer[ACCEPTED], 7);
    assert_eq!(left.spots[..5], [0, 0, 0, 0, 0], "drawn four times");
}

#[test]
fn lengths_come_before_spots() {
    let change: [fn(&mut Run); 4] = [
        |run| run.image.truncate(63),
        |run| run.memory.push(0),
        |run| run.spots.truncate(SPOTS - 1),
        |run| run.spots.push(0),
    ];
    for change in change {
        let mut run = Run::new();
        run.spots[5] = 2;
        change(&mut run);
        assert_eq!(run.refusal(), 9);
        run.spots[5] = 0;
        assert_eq!(run.refusal(), 9);
    }
    for answer_length in [0, 3, 5] {
        assert_eq!(Run::new().make(answer_length).refusal, 9);
    }
}

/// Each spot by itself, and each value that is no spot.
#[test]
fn a_spot_is_0_or_1() {
    for at in 0..SPOTS {
        let mut run = Run::new();
        run.spots[at] = 2 + (at % 254) as u8;
        assert_eq!(run.refusal(), 10);
        run.spots[at] = 1;
        assert_eq!(run.refusal(), 0);
    }
}

/// The numbers of a history are neither tested nor changed.
#[test]
fn no_history_is_asked_for() {
    for numbers in [[0xFF; 4], [0x12, 0x34, 0x56, 0x78]] {
        let mut run = Run::new();
        run.image[48..52].copy_from_slice(&numbers);
        run.image[54..56].copy_from_slice(&numbers[..2]);
        let left = run.make(ANSWER);
        assert_eq!(left.refusal, 0);
        assert_eq!(left.image[48..52], numbers);
        assert_eq!(left.image[54..56], numbers[..2]);
    }
}
