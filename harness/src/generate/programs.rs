//! Programs that run for long: pieces that are seldom refused, in a ring.

use super::instructions;
use crate::random::Random;
use crate::second::SMALL_END;

const CODE: u16 = 0x0200;
/// Stores go from here on, so that most programs do not destroy themselves: 2 KB
/// below the end of the full memory, and 256 bytes below that of the small one,
/// behind the longest program.
fn data(end: u16) -> u16 {
    match end {
        SMALL_END => 0x05A0,
        _ => 0x0800,
    }
}

/// A jump over thirteen subroutines, each calling the next, and then a ring of
/// pieces.
pub fn ring(edition: u8, end: u16, random: &Random) -> Vec<u8> {
    let routines = CODE + 6;
    let mut words = vec![0x1000 | (routines + 13 * 8), 0x0000, 0x0000];
    for level in 0..13u16 {
        let deeper = match level {
            12 => 0x7001,
            _ => 0x2000 | (routines + 8 * (level + 1)),
        };
        // Some of them turn round without going deeper.
        let skip = random.pick(&[0x3E00, 0x4E00, 0x7E01, 0x7D01]);
        words.extend([skip, deeper, 0x7E05, 0x00EE]);
    }
    for _ in 0..random.within(1..=40) {
        words.extend(piece(routines, edition, end, random));
    }
    words.push(0x1000 | CODE);
    words.iter().flat_map(|word| word.to_be_bytes()).collect()
}

fn piece(routines: u16, edition: u8, end: u16, random: &Random) -> Vec<u16> {
    let x = u16::from(random.byte() & 15) << 8;
    let far = data(end) + random.word() % (end - data(end));
    match random.within(0..=15) {
        0 => vec![0x2000 | (routines + 8 * random.within(0..=12) as u16)],
        1..=3 => vec![0xA000 | far, instructions::using_memory(random)],
        4 => vec![0xA000 | far, 0xF033 | x, 0xF265],
        5 => vec![0xF029 | x, 0xD005 | random.word() & 0x0FF0],
        6 => vec![0x00E0],
        7 => vec![0xF00A | x],
        8 => vec![0xF015 | x, 0xF018 | x, 0xF007 | x],
        9 => vec![0xA000 | far, 0xF01E | x, 0xF055 | x, 0xF065 | x],
        10 => vec![0xE09E | x, 0xE0A1 | x, 0x6000 | x],
        11 if random.once_in(8) => vec![instructions::any(edition, random)],
        12 => {
            let flag = u16::from(random.byte());
            vec![0x6F00 | flag, instructions::using_the_flag(edition, random)]
        }
        _ => calm(edition, random),
    }
}

/// Instructions that touch nothing but registers.
fn calm(edition: u8, random: &Random) -> Vec<u16> {
    (0..random.within(1..=6))
        .map(|_| match random.within(0..=11) {
            0..=4 => instructions::of_two_registers(edition, random),
            5 | 6 => random.pick(&[0x5000, 0x9000]) | random.word() & 0x0FF0,
            _ => random.pick(&[0x3000, 0x4000, 0x6000, 0x7000, 0xC000]) | random.word() & 0x0FFF,
        })
        .collect()
}

/// Any instructions in any order.
pub fn wild(edition: u8, random: &Random) -> Vec<u8> {
    (0..random.within(1..=200))
        .flat_map(|_| instructions::any(edition, random).to_be_bytes())
        .collect()
}
