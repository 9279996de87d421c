//! The panel a second time, dot by dot and with no table: what the card's own
//! panel is held to.

use crate::second::PICTURE;

/// The bytes of a panel, and its dots.
pub const PANEL: usize = 1024;
pub const COLUMNS: usize = 128;
pub const ROWS: usize = 64;

/// Whether the spot in column x of row y is lit.
fn is_lit(picture: &[u8], x: usize, y: usize) -> bool {
    picture[8 * y + x / 8] & (0x80 >> (x % 8)) != 0
}

/// The refusal number. A refused call leaves the panel.
pub fn panel(picture: &[u8], panel: &mut [u8]) -> u32 {
    if picture.len() != PICTURE || panel.len() != PANEL {
        return 9;
    }
    for y in 0..ROWS {
        for x in 0..COLUMNS {
            let dot = 0x80 >> (x % 8);
            let byte = &mut panel[16 * y + x / 8];
            if is_lit(picture, x / 2, y / 2) {
                *byte |= dot;
            } else {
                *byte &= !dot;
            }
        }
    }
    0
}
