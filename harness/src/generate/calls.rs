//! Single calls with inputs of every kind.

use super::{hosts, instructions};
use crate::buffers::Part;
use crate::case::Call;
use crate::engine::ANSWER;
use crate::random::Random;
use crate::second::{
    Machine, LIST_MOST, MOVE_BACK, MOVE_FORWARD, MOVE_STEP, MOVE_TICK, PLACE, ROWS,
};

pub fn step(random: &Random) -> Call {
    Call::Step {
        keys: instructions::keys(random),
        random: random.byte(),
        answer_length: answer_length(random),
    }
}

fn answer_length(random: &Random) -> usize {
    match random.once_in(200) {
        true => random.pick(&[0, 3, 5, 8]),
        false => ANSWER,
    }
}

pub fn run(entries: usize, random: &Random) -> Call {
    let often = random.within(1..=8);
    let most = random.pick(&[0, 0, 1, 3, 9]);
    Call::Run {
        ticks: (0..entries)
            .map(|_| match random.once_in(often) {
                true => random.within(0..=most) as u8,
                false => 0,
            })
            .collect(),
        keys: keys(entries, random),
        randoms: random.bytes(entries),
        answer_length: answer_length(random),
    }
}

pub fn play(entries: usize, random: &Random) -> Call {
    let times = random.pick(&[[3, 1, 1, 1], [1, 1, 3, 1], [1, 0, 2, 3], [2, 1, 2, 1]]);
    let lots: Vec<u8> = [MOVE_STEP, MOVE_TICK, MOVE_BACK, MOVE_FORWARD]
        .into_iter()
        .zip(times)
        .flat_map(|(lot, times)| std::iter::repeat_n(lot, times))
        .collect();
    Call::Play {
        moves: (0..entries).map(|_| random.pick(&lots)).collect(),
        keys: keys(entries, random),
        randoms: random.bytes(entries),
    }
}

fn keys(entries: usize, random: &Random) -> Vec<u16> {
    (0..entries).map(|_| instructions::keys(random)).collect()
}

pub fn load(random: &Random) -> Call {
    let length = match random.within(0..=5) {
        0 => random.pick(&[0, 1, 2, 3, 3583, 3584, 3585, 3586, 4096, 5000]),
        1 => random.pick(&[1183, 1184, 1185, 1186, 1696, 2048]),
        _ => random.within(1..=60),
    };
    Call::Load {
        program: random.bytes(length),
        edition: match random.once_in(5) {
            true => hosts::no_edition(random),
            false => hosts::edition(random),
        },
        end: match random.once_in(5) {
            true => hosts::no_end(random),
            false => hosts::end(random),
        },
    }
}

/// A salvage of a history of so many places, with a list of any contents. Now and
/// then the list is longer than it need be, or too short.
pub fn salvage(places: usize, random: &Random) -> Call {
    let needed = 2 * places;
    let length = match random.within(0..=7) {
        0 => needed + random.within(1..=9),
        1 if random.once_in(4) => needed.saturating_sub(random.pick(&[1, 1, 2, places])),
        _ => needed,
    };
    Call::Salvage {
        list: (0..length).map(|_| random.word()).collect(),
        answer_length: answer_length(random),
    }
}

/// A bit of the history wears out: of one of so many places.
pub fn wear(places: usize, random: &Random) -> Call {
    Call::Wear {
        at: PLACE * random.within(0..=places - 1) + offset(random),
        bit: random.within(0..=7) as u8,
    }
}

/// A byte of a record, more often one that a test looks at.
fn offset(random: &Random) -> usize {
    match random.once_in(2) {
        true => random.pick(&[0, 1, 22, 23, 24, 27, 28, 29, 30, 31, 291]),
        false => random.within(0..=PLACE - 1),
    }
}

/// A turning between bytes and rows. Either length may be wrong, or both.
pub fn turning(random: &Random) -> Call {
    let mut picture = hosts::picture(random);
    let mut rows: Vec<u64> = (0..ROWS).map(|_| row(random)).collect();
    if random.once_in(3) {
        let length = random.pick(&[0, 1, 8, 32, 128, 255, 257, 264, 512, 2048]);
        picture.resize(length, random.byte());
    }
    if random.once_in(3) {
        rows.resize(random.pick(&hosts::WRONG_ROWS), random.number());
    }
    match random.once_in(2) {
        true => Call::Rows { picture, rows },
        false => Call::Bytes { rows, picture },
    }
}

/// A row of any spots, of none, of all, or of a single one.
fn row(random: &Random) -> u64 {
    random.pick(&[
        0,
        u64::MAX,
        1 << random.within(0..=63),
        random.number(),
        random.number(),
    ])
}

/// A few backs and forwards in any order.
pub fn to_and_fro(most: usize, random: &Random) -> Vec<Call> {
    (0..random.within(0..=most))
        .map(|_| match random.once_in(3) {
            true => Call::Forward,
            false => Call::Back,
        })
        .collect()
}

/// Any call at all.
pub fn any(random: &Random) -> Call {
    match random.within(0..=9) {
        0 => load(random),
        1 | 2 => step(random),
        3 => Call::Tick,
        4 => Call::Back,
        5 => Call::Forward,
        6 => run(random.within(0..=5), random),
        7 => play(random.within(0..=5), random),
        8 => salvage(random.within(0..=4), random),
        _ => {
            let mut call = match random.once_in(2) {
                true => run(random.within(0..=3), random),
                false => play(random.within(0..=3), random),
            };
            spoil_lists(&mut call, random);
            call
        }
    }
}

/// Makes lists unequal or too long, or puts in a move that there is not.
pub fn spoil_lists(call: &mut Call, random: &Random) {
    let (first, keys, randoms) = match call {
        Call::Run {
            ticks,
            keys,
            randoms,
            ..
        } => (ticks, keys, randoms),
        Call::Play {
            moves,
            keys,
            randoms,
        } => {
            if random.once_in(2) && !moves.is_empty() {
                let at = random.pick(&[0, moves.len() - 1, random.within(0..=moves.len() - 1)]);
                moves[at] = random.pick(&[4, 5, 128, 255]);
                return;
            }
            (moves, keys, randoms)
        }
        _ => return,
    };
    let other = |length: usize, random: &Random| match random.within(0..=2) {
        0 => length + 1,
        1 => length.saturating_sub(1),
        _ => random.pick(&[0, LIST_MOST, LIST_MOST + 1]),
    };
    match random.within(0..=3) {
        0 => first.resize(other(first.len(), random), 0),
        1 => keys.resize(other(keys.len(), random), 0),
        2 => randoms.resize(other(randoms.len(), random), 0),
        _ => {
            let length = random.pick(&[LIST_MOST + 1, LIST_MOST + 2, 2 * LIST_MOST]);
            first.resize(length, 0);
            keys.resize(length, 0);
            randoms.resize(length, 0);
        }
    }
}

/// The host writes a whole image.
pub fn write_image(machine: &Machine) -> Call {
    Call::Write {
        part: Part::Image,
        at: 0,
        bytes: machine.to_image().to_vec(),
    }
}

pub fn write_picture(picture: Vec<u8>) -> Call {
    Call::Write {
        part: Part::Picture,
        at: 0,
        bytes: picture,
    }
}

/// The host writes only the number of lit spots.
pub fn write_lit(number: u16) -> Call {
    Call::Write {
        part: Part::Image,
        at: 56,
        bytes: number.to_be_bytes().to_vec(),
    }
}

pub fn write_memory(at: u16, word: u16) -> Call {
    Call::Write {
        part: Part::Memory,
        at: usize::from(at),
        bytes: word.to_be_bytes().to_vec(),
    }
}
