//! One shape for every engine, so that any two of them can be compared.

use crate::buffers::{Lent, Lists, Told};
use crate::rows;
use crate::second::{self, Machine, Refusal, IMAGE};

/// The length of an answer, in numbers.
pub const ANSWER: usize = 4;
/// Where a step and a run write the number of accepted steps.
pub const ACCEPTED: usize = 0;
/// Where they write how many lit spots went dark.
pub const WENT_DARK: usize = 1;
/// Where a run writes how many bytes its records keep.
pub const COPIED: usize = 2;
/// Where a salvage writes how many records it kept and how many places it cleared.
pub const RECORDS_KEPT: usize = 0;
pub const PLACES_CLEARED: usize = 1;

/// The calls on a machine, and the turning of a picture. Each answers the refusal
/// number, 0 for done. The picture of a machine is lent as rows (`u64`), or as
/// bytes (`u8`) as in the rules.
pub trait Engine<Item> {
    fn name(&self) -> &'static str;
    fn load(&self, lent: Lent<Item>, program: &[u8], edition: u8, end: u16) -> u32;
    fn step(&self, lent: Lent<Item>, keys: u16, random: u8, answer: &mut [u64]) -> u32;
    fn tick(&self, lent: Lent<Item>) -> u32;
    fn back(&self, lent: Lent<Item>) -> u32;
    fn forward(&self, lent: Lent<Item>) -> u32;
    fn run(&self, lent: Lent<Item>, lists: Lists, answer: &mut [u64]) -> u32;
    fn play(&self, lent: Lent<Item>, lists: Lists) -> u32;
    fn salvage(&self, lent: Lent<Item>, told: Told) -> u32;
    fn rows(&self, picture: &[u8], rows: &mut [u64]) -> u32;
    fn bytes(&self, rows: &[u64], picture: &mut [u8]) -> u32;
}

/// The second interpreter behind the card's boundary.
pub struct Second;

fn number(outcome: Result<(), Refusal>) -> u32 {
    match outcome {
        Ok(()) => 0,
        Err(refusal) => refusal as u32,
    }
}

const WRONG_LENGTH: u32 = Refusal::Length as u32;

/// Takes the machine out of its image, lets `call` work on it and puts it back.
fn with_machine(lent: Lent<u8>, call: impl FnOnce(&mut Machine, &mut second::Lent) -> u32) -> u32 {
    if lent.image.len() != IMAGE {
        return WRONG_LENGTH;
    }
    let mut machine = Machine::from_image(lent.image);
    let mut beside = second::Lent {
        memory: lent.memory,
        picture: lent.picture,
        history: lent.history,
    };
    let refusal = call(&mut machine, &mut beside);
    lent.image.copy_from_slice(&machine.to_image());
    refusal
}

impl Engine<u8> for Second {
    fn name(&self) -> &'static str {
        "the second interpreter"
    }
    fn load(&self, lent: Lent<u8>, program: &[u8], edition: u8, end: u16) -> u32 {
        with_machine(lent, |machine, lent| {
            let (loaded, outcome) = second::load(program, edition, end, lent);
            *machine = loaded;
            number(outcome)
        })
    }
    fn step(&self, lent: Lent<u8>, keys: u16, random: u8, answer: &mut [u64]) -> u32 {
        if answer.len() != ANSWER {
            return WRONG_LENGTH;
        }
        answer.fill(0);
        with_machine(lent, |machine, lent| {
            let outcome = second::step(machine, lent, keys, random);
            if let Ok(went_dark) = outcome {
                answer[ACCEPTED] = 1;
                answer[WENT_DARK] = went_dark;
            }
            number(outcome.map(drop))
        })
    }
    fn tick(&self, lent: Lent<u8>) -> u32 {
        with_machine(lent, |machine, lent| {
            number(second::tick(machine, lent.history))
        })
    }
    fn back(&self, lent: Lent<u8>) -> u32 {
        with_machine(lent, |machine, lent| number(second::back(machine, lent)))
    }
    fn forward(&self, lent: Lent<u8>) -> u32 {
        with_machine(lent, |machine, lent| number(second::forward(machine, lent)))
    }
    fn run(&self, lent: Lent<u8>, lists: Lists, answer: &mut [u64]) -> u32 {
        if answer.len() != ANSWER {
            return WRONG_LENGTH;
        }
        answer.fill(0);
        with_machine(lent, |machine, lent| {
            let ran = second::run(machine, lent, lists.first, lists.keys, lists.randoms);
            answer[ACCEPTED] = ran.accepted;
            answer[WENT_DARK] = ran.went_dark;
            answer[COPIED] = ran.copied;
            number(ran.outcome)
        })
    }
    fn play(&self, lent: Lent<u8>, lists: Lists) -> u32 {
        with_machine(lent, |machine, lent| {
            number(second::play(
                machine,
                lent,
                lists.first,
                lists.keys,
                lists.randoms,
            ))
        })
    }
    fn salvage(&self, lent: Lent<u8>, told: Told) -> u32 {
        if told.answer.len() != ANSWER {
            return WRONG_LENGTH;
        }
        told.answer.fill(0);
        with_machine(lent, |machine, lent| {
            let outcome = second::salvage(machine, lent.history, told.list);
            if let Ok(salvaged) = &outcome {
                told.answer[RECORDS_KEPT] = salvaged.kept;
                told.answer[PLACES_CLEARED] = salvaged.cleared;
            }
            number(outcome.map(drop))
        })
    }
    fn rows(&self, picture: &[u8], rows: &mut [u64]) -> u32 {
        rows::rows(picture, rows)
    }
    fn bytes(&self, rows: &[u64], picture: &mut [u8]) -> u32 {
        rows::bytes(rows, picture)
    }
}
