//! The stepper's page of variables beside an independent one, spot by spot.

use harness::buffers::Part;
use harness::card;
use harness::case::Call;
use harness::check::check_page;
use harness::generate;
use harness::random::Random;
use harness::second::{Machine, FIRST_EDITION, FULL_END, IMAGE, PICTURE, SMALL_END};

fn compare(image: &[u8], before: &[u8]) -> u32 {
    match check_page(image, before) {
        Ok((refusal, _)) => refusal,
        Err(what) => panic!("{what}: the page of {image:02X?}"),
    }
}

fn page_of(machine: &Machine) -> [u8; PICTURE] {
    let mut page = [0x5A; PICTURE];
    assert_eq!(card::page(&machine.to_image(), &mut page), 0);
    page
}

/// Every value in every variable, and every PC in steps that reach each digit.
#[test]
fn every_value() {
    let mut machine = Machine::fresh(FIRST_EDITION, FULL_END);
    for value in 0..=255 {
        for number in 0..16 {
            machine.v[number] = value ^ 17 * number as u8;
        }
        machine.pc = u16::from(value) * 0x0101;
        assert_eq!(compare(&machine.to_image(), &[0xFF; PICTURE]), 0);
    }
}

/// The images of the comparison's cases: sound, unsound, and of wrong lengths.
#[test]
fn images_of_the_comparison() {
    let random = Random::new(64 * 32);
    let mut given = [0; 11];
    for _ in 0..600 {
        let case = generate::case(&random);
        given[compare(&case.start.image, &random.bytes(PICTURE)) as usize] += 1;
        for call in &case.calls {
            if let Call::Write { part, bytes, .. } = call {
                if *part == Part::Image && bytes.len() == IMAGE {
                    given[compare(bytes, &random.bytes(PICTURE)) as usize] += 1;
                }
            }
        }
    }
    for refusal in [0, 9, 10] {
        assert!(given[refusal] > 5, "{refusal} in {given:?}");
    }
}

/// Only 64 and 256 together are taken; every other pair is 9, before 10.
#[test]
fn lengths() {
    let random = Random::new(9);
    let image = Machine::fresh(FIRST_EDITION, FULL_END).to_image();
    for images in [0, 1, 63, 64, 65, 128, 256] {
        for pages in [0, 1, 64, 255, 256, 257, 512] {
            let mut lent = image.to_vec();
            lent.resize(images, 0);
            let before = random.bytes(pages);
            let right = images == IMAGE && pages == PICTURE;
            assert_eq!(compare(&lent, &before), if right { 0 } else { 9 });
            lent[20.min(images)..].fill(13);
            assert_eq!(compare(&lent, &before), if right { 10 } else { 9 });
        }
    }
}

/// Next, kept and ahead are not looked at, and no other part of the state is
/// shown.
#[test]
fn what_is_not_shown() {
    let fresh = Machine::fresh(FIRST_EDITION, FULL_END);
    let other = Machine {
        i: 0x1234,
        delay: 5,
        tone: 6,
        wait: Some(7),
        next: 0xFFFF,
        kept: 0xFFFF,
        ahead: 0xFFFF,
        edition: 1,
        lit: 2048,
        end: SMALL_END,
        ..fresh.clone()
    };
    assert_eq!(page_of(&fresh), page_of(&other));
}

/// What a person can check: V0 to VF are 01, 23 and so on up and down, PC 0ABC.
#[test]
fn a_page_to_look_at() {
    let mut machine = Machine::fresh(FIRST_EDITION, FULL_END);
    machine.v = [
        0x01, 0x23, 0x45, 0x67, 0x89, 0xAB, 0xCD, 0xEF, 0xFE, 0xDC, 0xBA, 0x98, 0x76, 0x54, 0x32,
        0x10,
    ];
    machine.pc = 0x0ABC;
    let drawn: String = page_of(&machine)
        .chunks(8)
        .map(|row| {
            let spots = row.iter().map(|byte| format!("{byte:08b}"));
            let row = spots.collect::<String>().replace('0', ".");
            format!("{}\n", row.replace('1', "#"))
        })
        .collect();
    assert_eq!(drawn, include_str!("page.txt"));
}
