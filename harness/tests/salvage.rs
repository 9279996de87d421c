//! Every bit of a record wears out, one at a time, in the middle of a history. The
//! card salvages each as the second interpreter does, and what is claimed of a
//! salvage holds.

use harness::buffers::{Host, Told};
use harness::card::Archive;
use harness::case::{wear, Call, Case};
use harness::check::check;
use harness::engine::{Engine, Second, ANSWER, PLACES_CLEARED, RECORDS_KEPT};
use harness::second::{
    Machine, Refusal, FIRST_EDITION, FULL_END, MEMORY, PICTURE, PLACE, WAS_FREE,
};
use harness::tally::Tally;

const PLACES: usize = 7;
/// The third newest of the kept records.
const WORN: usize = 3;
/// What stands in a list before.
const BEFORE: u16 = 0x7777;

/// Records of every mark stand beside each other, at depths 0, 1 and 2.
const PROGRAM: [u16; 9] = [
    0xA000, // 0200 I = the digit 0
    0xD005, // 0202 draw it
    0x2208, // 0204 a call
    0x1206, // 0206
    0x220C, // 0208 another
    0x00EE, // 020A
    0xF133, // 020C three digits: the record that wears out
    0x00E0, // 020E clear the picture
    0x00EE, // 0210 return
];

/// Eight actions were made with seven places, and one was taken back: so the last
/// place but one is next, six records are kept, and one is ahead.
fn host() -> Host {
    let mut host = Host {
        image: vec![0; 64],
        memory: vec![0; MEMORY],
        picture: vec![0; PICTURE],
        history: vec![0; PLACES * PLACE + 5],
    };
    let program: Vec<u8> = PROGRAM.iter().flat_map(|word| word.to_be_bytes()).collect();
    assert_eq!(
        Second.load(host.lend(), &program, FIRST_EDITION, FULL_END),
        0
    );
    host.history[PLACES * PLACE..].fill(0x3C);
    for _ in 0..7 {
        assert_eq!(Second.step(host.lend(), 0, 0, &mut [0; ANSWER]), 0);
    }
    assert_eq!(Second.tick(host.lend()), 0);
    assert_eq!(Second.back(host.lend()), 0);
    let machine = Machine::from_image(&host.image);
    assert_eq!((machine.next, machine.kept, machine.ahead), (0, 6, 1));
    host
}

/// The second interpreter's answer and list.
fn salvage(host: &mut Host) -> ([u64; ANSWER], Vec<u16>) {
    let mut answer = [0; ANSWER];
    let mut list = vec![BEFORE; 2 * PLACES + 1];
    let told = Told {
        answer: &mut answer,
        list: &mut list,
    };
    assert_eq!(Second.salvage(host.lend(), told), 0);
    (answer, list)
}

/// Salvages twice and goes back as far as it can. Answers how many records were
/// kept.
fn claims_hold(mut host: Host) -> u64 {
    let (answer, list) = salvage(&mut host);
    let (kept, cleared) = (answer[RECORDS_KEPT], answer[PLACES_CLEARED]);
    assert_eq!(kept + cleared, PLACES as u64);
    let end = 2 * cleared as usize;
    assert!(list[end..].iter().all(|&number| number == BEFORE));

    let after = host.history.clone();
    let (again, free) = salvage(&mut host);
    assert_eq!(again, answer);
    assert_eq!(host.history, after);
    for (entry, freed) in list[..end].chunks(2).zip(free.chunks(2)) {
        assert_eq!(freed, [entry[0], WAS_FREE]);
    }

    for _ in 0..kept {
        assert_eq!(Second.back(host.lend()), 0);
    }
    assert_eq!(Second.back(host.lend()), Refusal::NothingKept as u32);
    kept
}

fn salvage_call() -> Call {
    Call::Salvage {
        list: vec![BEFORE; 2 * PLACES + 1],
        answer_length: ANSWER,
    }
}

#[test]
fn every_worn_bit_of_a_record() {
    let host = host();
    let mut tally = Tally::default();
    let mut seen = [false; PLACES];
    for offset in 0..PLACE {
        for bit in 0..8 {
            let at = PLACE * (PLACES - WORN) + offset;
            let mut calls = vec![Call::Wear { at, bit }, salvage_call(), salvage_call()];
            calls.extend(std::iter::repeat_n(Call::Back, PLACES));
            let case = Case {
                start: host.clone(),
                calls,
            };
            if let Err(mismatch) = check(&Archive, &case, &mut tally) {
                panic!("{case}\n{mismatch}");
            }
            let mut worn = host.clone();
            wear(&mut worn.history, at, bit);
            seen[claims_hold(worn) as usize] = true;
        }
    }
    // The worn record is sound still, is damaged, or only its depth is another, so
    // that the next older one does not fit it.
    assert_eq!(seen, [false, false, true, true, false, false, true]);
}
