//! The page of variables a second time, spot by spot: what the stepper's page is
//! held to. Written from document 02 alone.

use crate::second::{Machine, COLUMNS, DIGITS, IMAGE, PICTURE, ROWS};

/// The rows in which the variables' patterns start, and that of PC.
const VARIABLE_ROWS: [usize; 4] = [0, 6, 12, 18];
const PC_ROW: usize = 24;
/// Patterns stand at columns 0, 8 and so on.
const PATTERN_COLUMNS: usize = 8;

/// A digit's pattern, and the spot of its upper left corner.
struct Pattern {
    digit: u16,
    column: usize,
    row: usize,
}

impl Pattern {
    fn lights(&self, x: usize, y: usize) -> bool {
        let (right, down) = (x.wrapping_sub(self.column), y.wrapping_sub(self.row));
        let line = DIGITS[usize::from(self.digit)].get(down);
        right < 8 && line.is_some_and(|bits| bits >> (7 - right) & 1 == 1)
    }
}

/// V0 to VF as pairs, high digit first, four a row; then PC as four.
fn patterns(machine: &Machine) -> Vec<Pattern> {
    let pattern = |digit: u16, place: usize, row: usize| Pattern {
        digit: digit % 16,
        column: PATTERN_COLUMNS * place,
        row,
    };
    let mut patterns = Vec::new();
    for (number, &value) in machine.v.iter().enumerate() {
        let value = u16::from(value);
        let row = VARIABLE_ROWS[number / 4];
        patterns.push(pattern(value / 16, 2 * (number % 4), row));
        patterns.push(pattern(value, 2 * (number % 4) + 1, row));
    }
    for (place, below) in [0x1000, 0x100, 0x10, 1].into_iter().enumerate() {
        patterns.push(pattern(machine.pc / below, place, PC_ROW));
    }
    patterns
}

/// The refusal number. A refused call leaves the page.
pub fn page(image: &[u8], page: &mut [u8]) -> u32 {
    if image.len() != IMAGE || page.len() != PICTURE {
        return 9;
    }
    let machine = Machine::from_image(image);
    if !machine.is_sound() {
        return 10;
    }
    let patterns = patterns(&machine);
    page.fill(0);
    for y in 0..ROWS {
        for x in 0..COLUMNS {
            if patterns.iter().any(|pattern| pattern.lights(x, y)) {
                page[8 * y + x / 8] |= 0x80 >> (x % 8);
            }
        }
    }
    0
}
