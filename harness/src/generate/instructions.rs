//! Instruction words, kind by kind, and operands at the edges.

use crate::random::Random;
use crate::second::SECOND_EDITION;

/// Every instruction that both editions list, with its free digits 0, and which
/// of them are free.
pub const LISTED: &[(u16, u16)] = &[
    (0x00E0, 0x0000),
    (0x00EE, 0x0000),
    (0x1000, 0x0FFF),
    (0x2000, 0x0FFF),
    (0x3000, 0x0FFF),
    (0x4000, 0x0FFF),
    (0x5000, 0x0FF0),
    (0x6000, 0x0FFF),
    (0x7000, 0x0FFF),
    (0x8000, 0x0FF0),
    (0x8001, 0x0FF0),
    (0x8002, 0x0FF0),
    (0x8004, 0x0FF0),
    (0x8005, 0x0FF0),
    (0x9000, 0x0FF0),
    (0xA000, 0x0FFF),
    (0xB000, 0x0FFF),
    (0xC000, 0x0FFF),
    (0xD000, 0x0FFF),
    (0xE09E, 0x0F00),
    (0xE0A1, 0x0F00),
    (0xF007, 0x0F00),
    (0xF00A, 0x0F00),
    (0xF015, 0x0F00),
    (0xF018, 0x0F00),
    (0xF01E, 0x0F00),
    (0xF029, 0x0F00),
    (0xF033, 0x0F00),
    (0xF055, 0x0F00),
    (0xF065, 0x0F00),
];

/// What an edition lists beside them.
pub fn added(edition: u8) -> &'static [(u16, u16)] {
    match edition {
        SECOND_EDITION => &[
            (0x8003, 0x0FF0),
            (0x8006, 0x0FF0),
            (0x8007, 0x0FF0),
            (0x800E, 0x0FF0),
        ],
        _ => &[],
    }
}

/// An instruction that the edition lists. Its digits are often 0 or F, and often
/// equal.
pub fn listed(edition: u8, random: &Random) -> u16 {
    let (word, free) = random.pick(&[LISTED, added(edition)].concat());
    let digits = match random.within(0..=5) {
        0 => 0x0FFF,
        1 => 0x0F00 | random.word(),
        2 => 0x00FF & random.word(),
        3 => 0x0111 * (random.word() & 0xF),
        _ => random.word(),
    };
    word | digits & free
}

/// Mostly listed; otherwise any word at all, or a listed one with a bit wrong.
pub fn any(edition: u8, random: &Random) -> u16 {
    match random.within(0..=15) {
        0 => random.word(),
        1 => listed(edition, random) ^ 1 << random.within(0..=15),
        2 => random.pick(&[
            0x0000, 0x00E1, 0x00EF, 0x01E0, 0x0FEE, 0x5121, 0x8123, 0x8126, 0x8127, 0x812E, 0x8128,
            0x812F, 0x9121, 0xE19F, 0xE1A0, 0xF100, 0xF130, 0xF175, 0xF185, 0xFFFF,
        ]),
        _ => listed(edition, random),
    }
}

/// Draws, stores and the other ones that use memory from I.
pub fn using_memory(random: &Random) -> u16 {
    let n = match random.once_in(2) {
        true => random.pick(&[0, 1, 2, 14, 15]),
        false => random.word() & 15,
    };
    let x = u16::from(random.byte() & 15);
    let y = u16::from(random.byte() & 15);
    match random.within(0..=5) {
        0 => 0xF033 | x << 8,
        1 => 0xF055 | x << 8,
        2 => 0xF065 | x << 8,
        _ => 0xD000 | x << 8 | y << 4 | n,
    }
}

/// An operation on two registers, 8XY0 or another.
pub fn of_two_registers(edition: u8, random: &Random) -> u16 {
    let kinds = [0x8000, 0x8001, 0x8002, 0x8004, 0x8005];
    let added = added(edition);
    let kind = match !added.is_empty() && random.once_in(2) {
        true => random.pick(added).0,
        false => random.pick(&kinds),
    };
    kind | random.word() & 0x0FF0
}

/// The same with VF among the operands, which most of them also write.
pub fn using_the_flag(edition: u8, random: &Random) -> u16 {
    of_two_registers(edition, random) | random.pick(&[0x0F00, 0x00F0])
}

/// How many bytes from I a word needs, to find the edge for it.
pub fn bytes_needed(word: u16) -> u16 {
    match (word >> 12, word & 0xFF) {
        (0xD, _) => word & 15,
        (0xF, 0x33) => 3,
        (0xF, 0x55 | 0x65) => (word >> 8 & 15) + 1,
        _ => 0,
    }
}

/// A value of I, often at the edge for this word in a memory of that end.
pub fn i_for(word: u16, end: u16, random: &Random) -> u16 {
    let edge = end - bytes_needed(word);
    match random.within(0..=7) {
        0 => edge,
        1 => edge + 1,
        2 => edge - 1,
        3 => random.pick(&[0, 1, 0x0FFD, 0x0FFE, 0x0FFF, 0x1000, 0x1001, 0xFFFE, 0xFFFF]),
        4 => random.word(),
        _ => random.word() & 0x0FFF,
    }
}

/// Sometimes VX gets the value that this word compares it with, or one next to
/// it.
pub fn bring_near(word: u16, v: &mut [u8; 16], random: &Random) {
    let x = usize::from(word >> 8 & 15);
    let y = usize::from(word >> 4 & 15);
    match random.within(0..=5) {
        0 => v[x] = word as u8,
        1 => v[x] = v[y],
        2 => v[x] = v[y].wrapping_add(random.pick(&[1, 255])),
        3 => v[x] = v[y].wrapping_neg().wrapping_sub(random.pick(&[0, 1])),
        _ => {}
    }
}

/// A register's value, often at an edge of some rule.
pub fn value(random: &Random) -> u8 {
    match random.within(0..=2) {
        0 => random.pick(&[
            0x00, 0x01, 0x0F, 0x10, 0x1E, 0x1F, 0x20, 0x38, 0x39, 0x3F, 0x40, 0x63, 0x64, 0x7F,
            0x80, 0xC7, 0xC8, 0xFE, 0xFF,
        ]),
        _ => random.byte(),
    }
}

/// A value of PC, often near the end of memory.
pub fn pc(end: u16, random: &Random) -> u16 {
    match random.within(0..=8) {
        0 => random.pick(&[
            0, 1, 4092, 4093, 4094, 4095, 4096, 4097, 4098, 0x10FE, 0xFFFE, 0xFFFF,
        ]),
        1 => random.word() & 0x0FFF | 1,
        2 => random.word(),
        3 => end - 2,
        4 => end - 4 + random.within(0..=6) as u16,
        _ => random.word() % end & 0x0FFE,
    }
}

/// No key, one key or several.
pub fn keys(random: &Random) -> u16 {
    match random.within(0..=5) {
        0 | 1 => 0,
        2 | 3 => 1 << random.within(0..=15),
        4 => 0xFFFF,
        _ => random.word(),
    }
}
