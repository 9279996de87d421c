//! The turning between the bytes of a picture and its rows a second time: what
//! the card's own is held to, and what the comparison uses itself. Written from
//! document 02 alone.

use crate::second::{BYTES_A_ROW, PICTURE, ROWS};

/// Each row as a number, its leftmost spot highest. So its first byte is highest.
pub fn rows_of(picture: &[u8]) -> Vec<u64> {
    let (rows, rest) = picture.as_chunks::<BYTES_A_ROW>();
    assert!(rest.is_empty(), "a picture has whole rows");
    let number = |row: &[u8; BYTES_A_ROW]| {
        row.iter()
            .fold(0, |number, byte| number << 8 | u64::from(*byte))
    };
    rows.iter().map(number).collect()
}

/// The bytes of each row, the highest first.
pub fn bytes_of(rows: &[u64]) -> Vec<u8> {
    let bytes = |row: &u64| {
        let row = *row;
        (0..BYTES_A_ROW).map(move |place| (row >> (56 - 8 * place)) as u8)
    };
    rows.iter().flat_map(bytes).collect()
}

/// Fills rows from a picture. Answers the refusal; a refused call leaves the rows.
pub fn rows(picture: &[u8], rows: &mut [u64]) -> u32 {
    if !fit(picture, rows) {
        return 9;
    }
    rows.copy_from_slice(&rows_of(picture));
    0
}

/// Fills a picture from rows, and likewise.
pub fn bytes(rows: &[u64], picture: &mut [u8]) -> u32 {
    if !fit(picture, rows) {
        return 9;
    }
    picture.copy_from_slice(&bytes_of(rows));
    0
}

fn fit(picture: &[u8], rows: &[u64]) -> bool {
    picture.len() == PICTURE && rows.len() == ROWS
}
