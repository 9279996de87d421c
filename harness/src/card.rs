//! The card's archive: the calls of include/card.h.
//!
//! A slice crosses as its pointer and its length, and Rust lets no two changed
//! slices overlap, so a caller of these functions has nothing to get wrong.

use crate::buffers::{Lent, Lists, Told};
use crate::engine::Engine;
use crate::plain;

/// Declares a call of the archive and makes it. What crosses is `read` or
/// `write`, a slice; `value`, a number; `machine`, all the buffers of one; or
/// `lists`, those of a run or a play.
macro_rules! cross {
    ($call:ident: $($crossing:tt)*) => {
        cross!(@ $call [] [] $($crossing)*,)
    };
    (@ $call:ident [$($kind:ty,)*] [$($given:expr,)*]) => {{
        extern "C" {
            fn $call($(_: $kind),*) -> u32;
        }
        // SAFETY: each pointer and length come from one slice.
        unsafe { $call($($given),*) }
    }};
    (@ $call:ident [$($kinds:tt)*] [$($given:tt)*] machine $lent:ident, $($rest:tt)*) => {
        cross!(@ $call [$($kinds)*] [$($given)*]
            write u8 $lent.image, write u8 $lent.memory,
            write u64 $lent.picture, write u8 $lent.history, $($rest)*)
    };
    (@ $call:ident [$($kinds:tt)*] [$($given:tt)*] lists $lists:ident, $($rest:tt)*) => {
        cross!(@ $call [$($kinds)*] [$($given)*]
            read u8 $lists.first, read u16 $lists.keys, read u8 $lists.randoms, $($rest)*)
    };
    (@ $call:ident [$($kinds:tt)*] [$($given:tt)*] read $item:ident $list:expr, $($rest:tt)*) => {
        cross!(@ $call [$($kinds)* *const $item, usize,]
            [$($given)* $list.as_ptr(), $list.len(),] $($rest)*)
    };
    (@ $call:ident [$($kinds:tt)*] [$($given:tt)*] write $item:ident $list:expr, $($rest:tt)*) => {
        cross!(@ $call [$($kinds)* *mut $item, usize,]
            [$($given)* $list.as_mut_ptr(), $list.len(),] $($rest)*)
    };
    (@ $call:ident [$($kinds:tt)*] [$($given:tt)*] value $item:ident $number:expr, $($rest:tt)*) => {
        cross!(@ $call [$($kinds)* $item,] [$($given)* $number,] $($rest)*)
    };
}

/// The card's archive.
pub struct Archive;

impl Engine<u64> for Archive {
    fn name(&self) -> &'static str {
        "the card's archive"
    }
    fn load(&self, lent: Lent<u64>, program: &[u8], edition: u8, end: u16) -> u32 {
        cross!(card_load: read u8 program, value u8 edition, value u16 end, machine lent)
    }
    fn step(&self, lent: Lent<u64>, keys: u16, random: u8, answer: &mut [u64]) -> u32 {
        cross!(card_step: machine lent, value u16 keys, value u8 random, write u64 answer)
    }
    fn tick(&self, lent: Lent<u64>) -> u32 {
        cross!(card_tick: write u8 lent.image, write u8 lent.history)
    }
    fn back(&self, lent: Lent<u64>) -> u32 {
        cross!(card_back: machine lent)
    }
    fn forward(&self, lent: Lent<u64>) -> u32 {
        cross!(card_forward: machine lent)
    }
    fn run(&self, lent: Lent<u64>, lists: Lists, answer: &mut [u64]) -> u32 {
        cross!(card_run: machine lent, lists lists, write u64 answer)
    }
    fn play(&self, lent: Lent<u64>, lists: Lists) -> u32 {
        cross!(card_play: machine lent, lists lists)
    }
    fn salvage(&self, lent: Lent<u64>, told: Told) -> u32 {
        cross!(card_salvage: write u8 lent.image, write u8 lent.history,
            write u16 told.list, write u64 told.answer)
    }
    fn rows(&self, picture: &[u8], rows: &mut [u64]) -> u32 {
        cross!(card_rows: read u8 picture, write u64 rows)
    }
    fn bytes(&self, rows: &[u64], picture: &mut [u8]) -> u32 {
        cross!(card_bytes: read u64 rows, write u8 picture)
    }
}

/// A run of the plain engine.
pub fn plain(lent: plain::Lent, lists: Lists, answer: &mut [u64]) -> u32 {
    cross!(card_plain: write u8 lent.image, write u8 lent.memory, write u8 lent.spots,
        lists lists, write u64 answer)
}

pub fn panel(picture: &[u8], panel: &mut [u8]) -> u32 {
    cross!(card_panel: read u8 picture, write u8 panel)
}

pub fn page(image: &[u8], page: &mut [u8]) -> u32 {
    cross!(card_page: read u8 image, write u8 page)
}
