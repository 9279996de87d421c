//! What a host holds at the start of a case.

use super::instructions;
use crate::buffers::Host;
use crate::random::Random;
use crate::second::{
    lit_spots, Machine, BYTES_A_ROW, FIRST_EDITION, FULL_END, HISTORY_MOST, LATER, MEMORY, PICTURE,
    PLACE, SECOND_EDITION, SMALL_END, SPOTS, STACK,
};

const PLACES_MOST: usize = HISTORY_MOST / PLACE;

/// Mostly few places, so that they are soon used up and compared quickly; the
/// bytes after the last place are any number.
pub fn history_length(random: &Random) -> usize {
    let places = match random.within(0..=19) {
        0 => random.within(4..=40),
        1 if random.once_in(4) => random.within(1..=PLACES_MOST),
        2 if random.once_in(4) => return HISTORY_MOST,
        3..=9 => 1,
        10..=14 => 2,
        _ => 3,
    };
    let rest = random.pick(&[0, 0, 0, 1, 31, PLACE - 1]);
    (PLACE * places + rest).min(HISTORY_MOST)
}

/// A walk goes far, so it has use for more places.
pub fn walk_history_length(random: &Random) -> usize {
    match random.within(0..=3) {
        0 => PLACE * random.within(4..=40) + random.within(0..=PLACE - 1),
        1 if random.once_in(4) => PLACE * random.within(41..=PLACES_MOST),
        _ => history_length(random),
    }
}

/// An edition that there is.
pub fn edition(random: &Random) -> u8 {
    random.pick(&[FIRST_EDITION, SECOND_EDITION])
}

/// A number that is no edition.
pub fn no_edition(random: &Random) -> u8 {
    random.pick(&[2, 3, 128, 255])
}

/// An end of memory that is in use.
pub fn end(random: &Random) -> u16 {
    random.pick(&[SMALL_END, FULL_END])
}

/// A number that is no such end.
pub fn no_end(random: &Random) -> u16 {
    random.pick(&[0, 1, 512, 1695, 1697, 2048, 4095, 4097, 0xA006, 0xFFFF])
}

/// A sound machine of any kind, with an empty history, for this picture.
pub fn machine(places: usize, picture: &[u8], random: &Random) -> Machine {
    let mut machine = Machine::fresh(edition(random), end(random));
    for register in 0..16 {
        machine.v[register] = instructions::value(random);
    }
    machine.i = instructions::i_for(0, machine.end, random);
    machine.pc = instructions::pc(machine.end, random);
    set_depth(&mut machine, random);
    machine.delay = random.pick(&[0, 1, 2, 255, random.byte()]);
    machine.tone = random.pick(&[0, 1, 2, 255, random.byte()]);
    machine.wait = random.pick(&[None, None, Some(random.byte() & 15)]);
    machine.next = random.pick(&[0, places - 1, random.within(0..=places - 1)]) as u16;
    machine.lit = lit(picture, random);
    machine
}

/// A number of lit spots: mostly that of the picture, often a false one.
fn lit(picture: &[u8], random: &Random) -> u16 {
    let true_number = lit_spots(picture);
    match random.within(0..=5) {
        0 => near(true_number, random),
        1 => lit_near_a_limit(random.within(1..=15), random),
        _ => true_number,
    }
}

/// A number of lit spots near either end, or as far from it as a change of so many
/// bytes, or of the most that a drawing has, can take it.
pub fn lit_near_a_limit(bytes: usize, random: &Random) -> u16 {
    let most = 8 * bytes as u16;
    let from_the_end = random.pick(&[0, 0, 0, most, most, 120]);
    near(random.pick(&[from_the_end, SPOTS - from_the_end]), random)
}

/// A number at most a few below or above another, and not above all spots.
fn near(number: u16, random: &Random) -> u16 {
    let few = random.pick(&[0, 1, 3, 10]);
    let above = random.within(0..=2 * few) as u16;
    (number + above).saturating_sub(few as u16).min(SPOTS)
}

pub fn set_depth(machine: &mut Machine, random: &Random) {
    let depth = random.pick(&[0, 1, 11, 12, random.within(0..=STACK)]);
    machine.depth = depth as u8;
    machine.stack = [0; STACK];
    for entry in 0..depth {
        machine.stack[entry] = instructions::pc(machine.end, random);
    }
}

/// A sound host: random memory, a picture, and a history of random bytes. In a
/// memory of FF a drawing turns as many spots as it can.
pub fn sound(random: &Random) -> Host {
    let length = history_length(random);
    let picture = picture(random);
    let machine = machine(length / PLACE, &picture, random);
    Host {
        image: machine.to_image().to_vec(),
        memory: match random.once_in(8) {
            true => vec![0xFF; MEMORY],
            false => random.bytes(MEMORY),
        },
        picture,
        history: history_bytes(length, random),
    }
}

/// Dark, lit, one of the two but for some spots, or any.
pub fn picture(random: &Random) -> Vec<u8> {
    let mut picture = vec![random.pick(&[0, 0xFF]); PICTURE];
    match random.within(0..=3) {
        0 => {}
        1 => {
            for _ in 0..random.pick(&[1, 5, 20, 150]) {
                picture[random.within(0..=PICTURE - 1)] ^= 1 << random.within(0..=7);
            }
        }
        _ => picture = random.bytes(PICTURE),
    }
    picture
}

/// Bytes that are not 0 show what a record fails to clear.
fn history_bytes(length: usize, random: &Random) -> Vec<u8> {
    match random.within(0..=1) {
        0 if length < 4000 => random.bytes(length),
        _ => vec![random.byte(); length],
    }
}

/// Sets kept, often to 0 or all, and ahead, often to 0 or all that kept leaves.
/// No record need stand behind either.
pub fn set_reach(machine: &mut Machine, places: usize, random: &Random) {
    let kept = random.pick(&[0, 1, places, random.within(0..=places)]);
    let left = places - kept;
    let ahead = random.pick(&[0, 0, left.min(1), left, random.within(0..=left)]);
    (machine.kept, machine.ahead) = (kept as u16, ahead as u16);
}

/// Makes an image unsound, or puts its numbers out of range, in one way.
pub fn spoil_image(image: &mut [u8], places: usize, random: &Random) {
    let number = |value: usize| (value as u16).to_be_bytes();
    match random.within(0..=9) {
        0 => image[20] = random.pick(&[13, 14, 16, 128, 255]),
        1 => {
            let depth = random.within(0..=STACK - 1);
            image[20] = depth as u8;
            let entry = random.within(depth..=STACK - 1);
            image[24 + 2 * entry + random.within(0..=1)] = random.pick(&[1, 2, 128, 255]);
        }
        2 => image[23] = random.within(16..=254) as u8,
        3 => image[random.pick(&LATER)] = random.pick(&[1, 128, 255]),
        4 => image[52] = no_edition(random),
        5 => {
            let next = random.pick(&[places, places + 1, 256, 0x8000, 0xFFFF]);
            image[48..50].copy_from_slice(&number(next));
        }
        6 => {
            let above = usize::from(SPOTS) + 1;
            let lit = random.pick(&[above, above + 1, 0x1000, 0x8000, 0xFFFF]);
            image[56..58].copy_from_slice(&number(lit));
        }
        7 => image[58..60].copy_from_slice(&no_end(random).to_be_bytes()),
        8 => {
            let kept = random.pick(&[places + 1, places + 2, 256, 0x8000, 0xFFFF]);
            image[50..52].copy_from_slice(&number(kept));
        }
        _ => {
            let kept = random.pick(&[0, 1, places, random.within(0..=places)]);
            let past = places + 1 - kept;
            // A sum of 65,536 would be 0 in 16 bits.
            let ahead = random.pick(&[past, past + 1, 0x8000, 0x10000 - kept.max(1)]);
            image[50..52].copy_from_slice(&number(kept));
            image[54..56].copy_from_slice(&number(ahead));
        }
    }
}

/// Numbers of rows that no call takes.
pub const WRONG_ROWS: [usize; 8] = [0, 1, 16, 31, 33, 64, 128, 256];

/// Gives one buffer another length, often one next to a limit.
pub fn spoil_lengths(host: &mut Host, random: &Random) {
    match random.within(0..=3) {
        0 => resize(&mut host.image, &[0, 1, 52, 63, 65, 128], random),
        1 => resize(&mut host.memory, &[0, 256, 3584, 4095, 4097, 8192], random),
        2 => {
            let rows = random.pick(&WRONG_ROWS);
            host.picture.resize(BYTES_A_ROW * rows, random.byte());
        }
        _ => resize(
            &mut host.history,
            &[
                0, 1, 288, 291, 292, 293, 583, 584, 585, 65_408, 65_535, 65_536, 65_537, 65_828,
                131_072,
            ],
            random,
        ),
    }
}

fn resize(buffer: &mut Vec<u8>, lengths: &[usize], random: &Random) {
    buffer.resize(random.pick(lengths), random.byte());
}
