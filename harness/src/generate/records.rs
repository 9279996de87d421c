//! History records: whole, barely whole, and damaged in each way the rules list.

use super::{hosts, instructions};
use crate::random::Random;
use crate::second::PLACE;

/// A record that a back onto it accepts, if nothing is spoilt afterwards.
pub fn whole(end: u16, present_depth: u8, random: &Random) -> Vec<u8> {
    let mut record = random.bytes(PLACE);
    let nearest = [
        present_depth.saturating_sub(1),
        present_depth,
        (present_depth + 1).min(12),
    ];
    let depth = random.pick(&nearest);
    record[22] = depth;
    if depth == 0 {
        record[23..25].fill(0);
    }
    record[27] = random.pick(&[0xFF, 0, 15, random.byte() & 15]);
    inputs(&mut record, random);
    match random.within(0..=2) {
        0 => range(&mut record, b"NO", 0, 0),
        1 => {
            let count = random.pick(&[1, 2, 3, 15, 16, random.within(1..=16)]);
            let last = usize::from(end) - count;
            let start = random.pick(&[0, last, random.within(0..=last)]);
            range(&mut record, b"ME", start, count);
        }
        _ => {
            let count = random.pick(&[1, 8, 255, 256, random.within(1..=256)]);
            let start = random.pick(&[0, 256 - count, random.within(0..=256 - count)]);
            range(&mut record, b"DI", start, count);
            record[32..288].copy_from_slice(&hosts::picture(random));
        }
    }
    record
}

/// How many old bytes a record has.
pub fn count(record: &[u8]) -> usize {
    usize::from(u16::from_be_bytes([record[30], record[31]]))
}

/// A tick's record of another hand may have any keys and random byte too.
fn inputs(record: &mut [u8], random: &Random) {
    record[288..290].copy_from_slice(&instructions::keys(random).to_be_bytes());
    record[291] = random.pick(&[0, 1, 1, 1]);
}

fn range(record: &mut [u8], mark: &[u8; 2], start: usize, count: usize) {
    record[0..2].copy_from_slice(mark);
    record[28..30].copy_from_slice(&(start as u16).to_be_bytes());
    record[30..32].copy_from_slice(&(count as u16).to_be_bytes());
}

/// Changes one field to a value near an edge. The record may stay whole.
pub fn spoil(record: &mut [u8], end: u16, present_depth: u8, random: &Random) {
    match random.within(0..=7) {
        0 => {
            let marks: [&[u8]; 14] = [
                b"NO",
                b"ME",
                b"DI",
                b"NE",
                b"MO",
                b"DO",
                b"NI",
                b"MI",
                b"DE",
                b"no",
                b"ON",
                b"\0\0",
                b"N\0",
                b"\xFF\xFF",
            ];
            record[0..2].copy_from_slice(random.pick(&marks));
        }
        1 => record[random.within(0..=1)] ^= 1 << random.within(0..=7),
        2 => {
            let depths = [
                0,
                1,
                11,
                12,
                13,
                14,
                255,
                present_depth.wrapping_sub(2),
                present_depth.wrapping_sub(1),
                present_depth.wrapping_add(1),
                present_depth.wrapping_add(2),
            ];
            record[22] = random.pick(&depths);
        }
        3 => {
            record[22] = 0;
            let address: u16 = random.pick(&[0, 1, 0x0100, 0x0200, 0xFFFF]);
            record[23..25].copy_from_slice(&address.to_be_bytes());
        }
        4 => record[27] = random.pick(&[15, 16, 17, 127, 128, 254, 255]),
        5 => {
            let (start, count) = edge(&record[0..2], end, random);
            record[28..30].copy_from_slice(&start.to_be_bytes());
            record[30..32].copy_from_slice(&count.to_be_bytes());
        }
        6 => record[291] = random.pick(&[0, 1, 2, 3, 128, 254, 255]),
        _ => record[random.within(28..=31)] = random.pick(&[0, 1, 2, 16, 17, 128, 255]),
    }
}

/// A start and a count around the limits of the mark, where memory has that end.
fn edge(mark: &[u8], end: u16, random: &Random) -> (u16, u16) {
    let (size, most) = match mark {
        b"ME" => (end, 16),
        _ => (256, 256),
    };
    let count = random.pick(&[0, 1, 2, most - 1, most, most + 1, 256, 257, 0x8000, 0xFFFF]);
    let edges = [
        0u16,
        1,
        size - 1,
        size,
        size + 1,
        size.wrapping_sub(count),
        size.wrapping_sub(count).wrapping_add(1),
        0u16.wrapping_sub(count),
        0xFFFF,
    ];
    (random.pick(&edges), count)
}
