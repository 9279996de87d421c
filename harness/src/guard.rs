//! A buffer of exactly the lent size, with guards on both sides of it in the
//! same allocation, so that a write outside is seen.

use std::fmt::UpperHex;

const GUARD: u8 = 0xA5;
/// An odd number, so that byte buffers do not begin at a rounded address.
const BEFORE: usize = 31;
const AFTER: usize = 33;
/// More than one place, since the history is written a place at a time.
const AFTER_BUFFER: usize = 321;

/// What a buffer is made of: bytes or numbers.
pub trait Item: Copy + PartialEq + From<u8> + UpperHex {}

impl<T: Copy + PartialEq + From<u8> + UpperHex> Item for T {}

pub struct Guarded<T> {
    all: Vec<T>,
    end: usize,
}

impl Guarded<u8> {
    /// One of the buffers that make up a machine.
    pub fn buffer(contents: &[u8]) -> Guarded<u8> {
        Guarded::with(contents, AFTER_BUFFER)
    }
}

impl<T: Item> Guarded<T> {
    pub fn new(contents: &[T]) -> Guarded<T> {
        Guarded::with(contents, AFTER)
    }

    fn with(contents: &[T], after: usize) -> Guarded<T> {
        let end = BEFORE + contents.len();
        let mut all = Vec::with_capacity(end + after);
        all.resize(BEFORE, T::from(GUARD));
        all.extend_from_slice(contents);
        all.resize(end + after, T::from(GUARD));
        Guarded { all, end }
    }

    pub fn lent(&mut self) -> &mut [T] {
        &mut self.all[BEFORE..self.end]
    }

    pub fn contents(&self) -> &[T] {
        &self.all[BEFORE..self.end]
    }

    /// A guard is whole if its first item is right and each equals the one
    /// before it. Put so, it is one comparison of memory and not a loop, which
    /// counts where the programs run under an emulator.
    pub fn guards_stand(&self) -> bool {
        let whole =
            |guard: &[T]| guard[0] == T::from(GUARD) && guard[1..] == guard[..guard.len() - 1];
        whole(&self.all[..BEFORE]) && whole(&self.all[self.end..])
    }
}
