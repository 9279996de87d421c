//! The card's turning between bytes and rows beside an independent one.

use harness::card::Archive;
use harness::check::{check_bytes, check_rows};
use harness::engine::Engine;
use harness::random::Random;
use harness::rows::{bytes_of, rows_of};
use harness::second::{BYTES_A_ROW, COLUMNS, PICTURE, ROWS};

/// Turns both ways, each over what stood there, and answers the two refusals.
fn compare(picture: &[u8], rows: &[u64]) -> (u32, u32) {
    match (
        check_rows(&Archive, picture, rows),
        check_bytes(&Archive, rows, picture),
    ) {
        (Ok((to_rows, _)), Ok((to_bytes, _))) => (to_rows, to_bytes),
        (Err(what), _) => panic!("{what}: the rows of {picture:02X?}"),
        (_, Err(what)) => panic!("{what}: the bytes of {rows:016X?}"),
    }
}

fn numbers(count: usize, random: &Random) -> Vec<u64> {
    (0..count).map(|_| random.number()).collect()
}

#[test]
fn random_pictures_and_rows() {
    let random = Random::new(64 * 32);
    for _ in 0..20_000 {
        let (picture, rows) = (random.bytes(PICTURE), numbers(ROWS, &random));
        assert_eq!(compare(&picture, &rows), (0, 0));
    }
}

/// Each of the 2,048 spots alone, lit in a dark picture and dark in a lit one: the
/// spot in column x of row y is bit 63 - x of number y.
#[test]
fn single_spots() {
    for y in 0..ROWS {
        for x in 0..COLUMNS {
            for (byte, row) in [(0x00, 0), (0xFF, u64::MAX)] {
                let mut picture = vec![byte; PICTURE];
                picture[BYTES_A_ROW * y + x / 8] ^= 0x80 >> (x % 8);
                let mut rows = vec![row; ROWS];
                rows[y] ^= 1 << (COLUMNS - 1 - x);
                assert_eq!(rows_of(&picture), rows);
                assert_eq!(bytes_of(&rows), picture);
                assert_eq!(compare(&picture, &vec![!row; ROWS]), (0, 0));
                assert_eq!(compare(&vec![!byte; PICTURE], &rows), (0, 0));
            }
        }
    }
}

/// Nothing is lost: there and back is what it was.
#[test]
fn there_and_back() {
    let random = Random::new(32);
    for _ in 0..2_000 {
        let (picture, drawn) = (random.bytes(PICTURE), numbers(ROWS, &random));
        let (mut rows, mut bytes) = ([0; ROWS], [0; PICTURE]);
        assert_eq!(Archive.rows(&picture, &mut rows), 0);
        assert_eq!(Archive.bytes(&rows, &mut bytes), 0);
        assert_eq!(bytes, picture[..]);
        assert_eq!(Archive.bytes(&drawn, &mut bytes), 0);
        assert_eq!(Archive.rows(&bytes, &mut rows), 0);
        assert_eq!(rows, drawn[..]);
    }
}

/// Only 256 and 32 together are taken; every other pair is 9.
#[test]
fn lengths() {
    let random = Random::new(9);
    let pictures = [0, 1, 8, 32, 128, 248, 255, 256, 257, 264, 512, 2048];
    let rows = [0, 1, 8, 30, 31, 32, 33, 34, 64, 128, 256, 2048];
    for picture in pictures {
        for rows in rows {
            let refusals = compare(&random.bytes(picture), &numbers(rows, &random));
            let right = picture == PICTURE && rows == ROWS;
            let expected = if right { (0, 0) } else { (9, 9) };
            assert_eq!(refusals, expected, "{picture} and {rows}");
        }
    }
}
