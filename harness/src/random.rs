//! Random numbers that a seed repeats.

use std::cell::Cell;
use std::ops::RangeInclusive;

pub struct Random {
    state: Cell<u64>,
}

impl Random {
    pub fn new(seed: u64) -> Random {
        Random {
            state: Cell::new(seed),
        }
    }

    /// The next number of the splitmix64 row.
    pub fn number(&self) -> u64 {
        let mut z = self.state.get().wrapping_add(0x9E37_79B9_7F4A_7C15);
        self.state.set(z);
        z = (z ^ (z >> 30)).wrapping_mul(0xBF58_476D_1CE4_E5B9);
        z = (z ^ (z >> 27)).wrapping_mul(0x94D0_49BB_1331_11EB);
        z ^ (z >> 31)
    }

    pub fn byte(&self) -> u8 {
        self.number() as u8
    }

    pub fn word(&self) -> u16 {
        self.number() as u16
    }

    pub fn within(&self, range: RangeInclusive<usize>) -> usize {
        let width = range.end() - range.start() + 1;
        range.start() + (self.number() % width as u64) as usize
    }

    /// True once in `times` on average.
    pub fn once_in(&self, times: usize) -> bool {
        self.within(1..=times) == 1
    }

    pub fn pick<T: Copy>(&self, from: &[T]) -> T {
        from[self.within(0..=from.len() - 1)]
    }

    pub fn bytes(&self, count: usize) -> Vec<u8> {
        let mut bytes = vec![0; count];
        for chunk in bytes.chunks_mut(8) {
            let number = self.number().to_le_bytes();
            chunk.copy_from_slice(&number[..chunk.len()]);
        }
        bytes
    }
}
