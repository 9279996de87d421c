//! The plain engine's run a second time: the second interpreter on the
//! picture that the spots are. Written from document 02 alone.

use crate::buffers::Lists;
use crate::engine::{ACCEPTED, ANSWER};
use crate::second::{self, Machine, Refusal, IMAGE, LIST_MOST, MEMORY, PLACE};

/// The bytes of the spots, one for each.
pub const SPOTS: usize = 2048;

/// What a run of the plain engine is lent. It has no history.
pub struct Lent<'a> {
    pub image: &'a mut [u8],
    pub memory: &'a mut [u8],
    pub spots: &'a mut [u8],
}

/// A byte for each spot of a picture, 1 for a lit one: rows from the top, left to
/// right.
pub fn spots_of(picture: &[u8]) -> Vec<u8> {
    let eight = |byte: &u8| {
        let byte = *byte;
        (0..8).map(move |place| byte >> (7 - place) & 1)
    };
    picture.iter().flat_map(eight).collect()
}

/// The picture of spots that are 0 or 1.
pub fn picture_of(spots: &[u8]) -> Vec<u8> {
    let byte = |eight: &[u8]| eight.iter().fold(0, |byte, spot| byte << 1 | spot);
    spots.chunks(8).map(byte).collect()
}

/// Makes the run and answers the refusal. The history plays no part in what a run
/// does otherwise, so it is made beside one of a single empty place, and the
/// numbers of the image that speak of a history stay.
pub fn run(lent: Lent, lists: Lists, answer: &mut [u64]) -> u32 {
    if answer.len() != ANSWER {
        return Refusal::Length as u32;
    }
    answer.fill(0);
    if !lengths_fit(&lent, &lists) {
        return Refusal::Length as u32;
    }
    let before = Machine::from_image(lent.image);
    if !before.is_sound() || lent.spots.iter().any(|&spot| spot > 1) {
        return Refusal::Unsound as u32;
    }
    let mut machine = numbered(before.clone(), [0, 0, 0]);
    let mut picture = picture_of(lent.spots);
    let mut beside = second::Lent {
        memory: lent.memory,
        picture: &mut picture,
        history: &mut [0; PLACE],
    };
    let ran = second::run(
        &mut machine,
        &mut beside,
        lists.first,
        lists.keys,
        lists.randoms,
    );
    answer[ACCEPTED] = ran.accepted;
    lent.spots.copy_from_slice(&spots_of(&picture));
    let machine = numbered(machine, [before.next, before.kept, before.ahead]);
    lent.image.copy_from_slice(&machine.to_image());
    ran.outcome.map_or_else(|refusal| refusal as u32, |()| 0)
}

fn lengths_fit(lent: &Lent, lists: &Lists) -> bool {
    let entries = lists.first.len();
    lent.image.len() == IMAGE
        && lent.memory.len() == MEMORY
        && lent.spots.len() == SPOTS
        && lists.keys.len() == entries
        && lists.randoms.len() == entries
        && entries <= LIST_MOST
}

/// A machine with other numbers of a history.
pub fn numbered(machine: Machine, [next, kept, ahead]: [u16; 3]) -> Machine {
    Machine {
        next,
        kept,
        ahead,
        ..machine
    }
}
