//! The card's panel beside an independent doubling, dot by dot.

use harness::check::check_panel;
use harness::random::Random;
use harness::second::PICTURE;
use harness::{card, dots};

fn compare(picture: &[u8], before: &[u8]) -> u32 {
    match check_panel(picture, before) {
        Ok((refusal, _)) => refusal,
        Err(what) => panic!("{what}: the panel of {picture:02X?}"),
    }
}

#[test]
fn random_pictures() {
    let random = Random::new(128 * 64);
    for _ in 0..20_000 {
        let picture = random.bytes(PICTURE);
        assert_eq!(compare(&picture, &random.bytes(dots::PANEL)), 0);
    }
}

/// Each of the 2,048 spots alone, lit in a dark picture and dark in a lit one.
#[test]
fn single_spots() {
    for spot in 0..8 * PICTURE {
        for rest in [0x00, 0xFF] {
            let mut picture = vec![rest; PICTURE];
            picture[spot / 8] ^= 0x80 >> (spot % 8);
            assert_eq!(compare(&picture, &vec![0x5A; dots::PANEL]), 0);
        }
    }
}

/// Every byte in every place of a row.
#[test]
fn every_byte() {
    for byte in 0..256 {
        let picture: Vec<u8> = (0..PICTURE).map(|at| (byte + at) as u8).collect();
        assert_eq!(compare(&picture, &vec![0xFF; dots::PANEL]), 0);
    }
}

/// Only 256 and 1,024 together are taken; every other pair is 9.
#[test]
fn lengths() {
    let random = Random::new(9);
    let pictures = [0, 1, 8, 128, 254, 255, 256, 257, 258, 512, 1024, 4096];
    let panels = [0, 1, 16, 256, 512, 1022, 1023, 1024, 1025, 1026, 2048, 4096];
    for picture in pictures {
        for panel in panels {
            let refusal = compare(&random.bytes(picture), &random.bytes(panel));
            let right = picture == PICTURE && panel == dots::PANEL;
            assert_eq!(refusal, if right { 0 } else { 9 }, "{picture} and {panel}");
        }
    }
    for _ in 0..2_000 {
        let picture = random.bytes(random.within(0..=600));
        compare(&picture, &random.bytes(random.within(900..=1100)));
    }
}

/// What a person can check: a board of single spots, and two corners.
#[test]
fn a_board() {
    let mut panel = [0; dots::PANEL];
    let board: Vec<u8> = (0..PICTURE)
        .map(|at| if at / 8 % 2 == 0 { 0xAA } else { 0x55 })
        .collect();
    assert_eq!(card::panel(&board, &mut panel), 0);
    for (at, byte) in panel.iter().enumerate() {
        let expected = if at / 32 % 2 == 0 { 0xCC } else { 0x33 };
        assert_eq!(*byte, expected, "byte {at}");
    }
    let mut corners = [0; PICTURE];
    corners[0] = 0x80;
    corners[255] = 0x01;
    assert_eq!(card::panel(&corners, &mut panel), 0);
    let lit: Vec<(usize, u8)> = (0..dots::PANEL)
        .filter(|&at| panel[at] != 0)
        .map(|at| (at, panel[at]))
        .collect();
    assert_eq!(lit, [(0, 0xC0), (16, 0xC0), (1007, 0x03), (1023, 0x03)]);
}
