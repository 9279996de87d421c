//! A hand-tuned engine behind the card's boundary, the rival of the
//! measurements: the same records, the same refusals, as fast as safe Rust goes.
//!
//! A step is judged before anything is written, and nothing is allocated.

use crate::buffers::{Lent, Lists, Told};
use crate::engine::Engine;

const MEMORY: usize = 4096;
const PICTURE: usize = 256;
const ROWS: usize = 32;
const PLACE: usize = 292;
const HISTORY_MOST: usize = 65_536;
const IMAGE: usize = 64;
const ANSWER: usize = 4;
const LIST_MOST: usize = 4096;
const START: usize = 0x0200;
const NO_KEY: u8 = 0xFF;
/// The most spots that can be lit.
const SPOTS: u64 = 2048;
const FIRST_EDITION: u8 = 0;
const SECOND_EDITION: u8 = 1;
/// The two ends of memory in use.
const SMALL_END: u16 = 1696;
const FULL_END: u16 = 4096;

const PROGRAM_COUNTER: u32 = 1;
const NOT_LISTED: u32 = 2;
const MACHINE_LANGUAGE: u32 = 3;
const STACK_FULL: u32 = 4;
const STACK_EMPTY: u32 = 5;
const PAST_MEMORY: u32 = 6;
const NOTHING_KEPT: u32 = 7;
const PROGRAM_LENGTH: u32 = 8;
const LENGTH: u32 = 9;
const UNSOUND: u32 = 10;
const DAMAGED_RECORD: u32 = 11;
const NOTHING_AHEAD: u32 = 12;

type Memory = [u8; MEMORY];
type Rows = [u64; ROWS];
type Place = [u8; PLACE];
type Image = [u8; IMAGE];
/// Entries 12 to 15 stay 0. So the entry before depth 0, taken modulo 16, reads as
/// 0, and no index needs a bounds test.
type Stack = [u16; 16];

const DIGITS: [u8; 80] = [
    0xF0, 0x90, 0x90, 0x90, 0xF0, 0x60, 0x20, 0x20, 0x20, 0x70, 0xF0, 0x10, 0xF0, 0x80, 0xF0, 0xF0,
    0x10, 0xF0, 0x10, 0xF0, 0xA0, 0xA0, 0xF0, 0x20, 0x20, 0xF0, 0x80, 0xF0, 0x10, 0xF0, 0xF0, 0x80,
    0xF0, 0x90, 0xF0, 0xF0, 0x10, 0x10, 0x10, 0x10, 0xF0, 0x90, 0xF0, 0x90, 0xF0, 0xF0, 0x90, 0xF0,
    0x10, 0xF0, 0xF0, 0x90, 0xF0, 0x90, 0x90, 0xF0, 0x50, 0x70, 0x50, 0xF0, 0xF0, 0x80, 0x80, 0x80,
    0xF0, 0xF0, 0x50, 0x50, 0x50, 0xF0, 0xF0, 0x80, 0xF0, 0x80, 0xF0, 0xF0, 0x80, 0xF0, 0x80, 0x80,
];

// ---- The working state ----------------------------------------------------

/// V0 to VF.
#[derive(Clone, Copy, Default)]
struct Registers([u8; 16]);

impl Registers {
    #[inline(always)]
    fn get(&self, x: usize) -> u8 {
        self.0[x & 15]
    }

    #[inline(always)]
    fn set(&mut self, x: usize, value: u8) {
        self.0[x & 15] = value;
    }

    #[inline(always)]
    fn set_flag(&mut self, flag: bool) {
        self.0[15] = u8::from(flag);
    }
}

/// All of a record but its variables and its old bytes, held in numbers.
struct Head {
    /// I, PC, depth, last return address, delay: bytes 18 to 25.
    middle: u64,
    /// Tone, held key, start, count: bytes 26 to 31.
    end: u64,
    mark: [u8; 2],
    /// Keys, random byte and kind: the four bytes after the old ones.
    inputs: u32,
}

/// The inputs of a tick.
const TICK: u32 = 0;

/// The inputs of a step.
#[inline(always)]
fn step_with(keys: u16, random: u8) -> u32 {
    u32::from(keys) << 16 | u32::from(random) << 8 | 1
}

impl Head {
    #[inline(always)]
    fn mark(&mut self, mark: &[u8; 2], start: usize, count: usize) {
        self.mark = *mark;
        self.end |= (start << 16 | count) as u64;
    }

    #[inline(always)]
    fn write(&self, bytes: &mut [u8; 32]) {
        bytes[..2].copy_from_slice(&self.mark);
        bytes[18..26].copy_from_slice(&self.middle.to_be_bytes());
        bytes[24..32].copy_from_slice(&(self.middle << 48 | self.end).to_be_bytes());
    }
}

/// The variables and the stack are lent, and so stand apart. An array that is
/// indexed keeps the whole struct that holds it in memory, and there a number of four
/// bytes that is read over a byte just written waits for it.
struct Work<'a> {
    v: &'a mut Registers,
    stack: &'a mut Stack,
    i: u16,
    pc: u16,
    depth: u8,
    delay: u8,
    tone: u8,
    held: u8,
    next: usize,
    kept: usize,
    /// Set by the calls and not by an action, so that a run's actions do no work
    /// for it.
    ahead: usize,
    second_edition: bool,
    /// Where memory ends. No call but a load sets it.
    end: usize,
    /// The number of lit spots. Only steps and backs that change the picture touch
    /// it.
    lit: u64,
    /// Lit spots that the steps so far have darkened. Only a drawing adds to it,
    /// so other steps do no work for it.
    went_dark: u64,
    /// Bytes that the records so far keep. Only steps that keep some add to it.
    copied: u64,
}

fn number(bytes: &[u8], at: usize) -> u16 {
    u16::from_be_bytes([bytes[at], bytes[at + 1]])
}

impl<'a> Work<'a> {
    /// Reads the variables and the stack into what is lent for them. None if the image
    /// is unsound or its numbers are out of range.
    #[inline(always)]
    fn read(
        image: &Image,
        places: usize,
        v: &'a mut Registers,
        stack: &'a mut Stack,
    ) -> Option<Work<'a>> {
        for (entry, bytes) in stack.iter_mut().zip(image[24..48].as_chunks::<2>().0) {
            *entry = u16::from_be_bytes(*bytes);
        }
        let depth = image[20];
        let held = image[23];
        let next = usize::from(number(image, 48));
        let kept = usize::from(number(image, 50));
        let edition = image[52];
        let ahead = usize::from(number(image, 54));
        // The number, the end, and four bytes for later use, which come to stand
        // above the number, so that one test is enough for them and it.
        let last = u64::from_be_bytes(*image.last_chunk().expect("64 bytes hold 8"));
        let lit = last << 32 | last >> 48;
        let end = (last >> 32) as u16;
        let sound = depth <= 12
            && entries_from(stack, depth) == 0
            && (held <= 15 || held == NO_KEY)
            && edition <= SECOND_EDITION
            && image[53] == 0
            && lit <= SPOTS
            && is_end(end)
            && next < places
            && kept + ahead <= places;
        if !sound {
            return None;
        }
        v.0 = *image.first_chunk().expect("64 bytes hold 16");
        Some(Work {
            v,
            stack,
            i: number(image, 16),
            pc: number(image, 18),
            depth,
            delay: image[21],
            tone: image[22],
            held,
            next,
            kept,
            ahead,
            second_edition: edition == SECOND_EDITION,
            end: usize::from(end),
            lit,
            went_dark: 0,
            copied: 0,
        })
    }

    /// The edition and the end stand in the image already, and the bytes for later
    /// use are 0, or it had been refused.
    #[inline(always)]
    fn write(&self, image: &mut Image) {
        image[..16].copy_from_slice(&self.v.0);
        image[16..18].copy_from_slice(&self.i.to_be_bytes());
        image[18..20].copy_from_slice(&self.pc.to_be_bytes());
        image[20] = self.depth;
        image[21] = self.delay;
        image[22] = self.tone;
        image[23] = self.held;
        for (bytes, entry) in image[24..48]
            .as_chunks_mut::<2>()
            .0
            .iter_mut()
            .zip(*self.stack)
        {
            *bytes = entry.to_be_bytes();
        }
        image[48..50].copy_from_slice(&(self.next as u16).to_be_bytes());
        image[50..52].copy_from_slice(&(self.kept as u16).to_be_bytes());
        image[54..56].copy_from_slice(&(self.ahead as u16).to_be_bytes());
        image[56..58].copy_from_slice(&(self.lit as u16).to_be_bytes());
    }

    /// The end of memory, in a form that shows the compiler that it is within the
    /// lent bytes.
    #[inline(always)]
    fn end(&self) -> usize {
        self.end.min(MEMORY)
    }

    /// The head of a record that keeps no old bytes.
    #[inline(always)]
    fn head(&self, inputs: u32) -> Head {
        let last = self.stack[usize::from(self.depth.wrapping_sub(1) & 15)];
        Head {
            middle: u64::from(self.i) << 48
                | u64::from(self.pc) << 32
                | u64::from(self.depth) << 24
                | u64::from(last) << 8
                | u64::from(self.delay),
            end: u64::from(self.tone) << 40 | u64::from(self.held) << 32,
            mark: *b"NO",
            inputs,
        }
    }

    /// Writes the place at next with the head, zeros and the variables, moves on,
    /// and lends the zeros for the old bytes. The variables come last: sixteen bytes
    /// read at once wait for a byte among them that the last step wrote.
    #[inline(always)]
    fn record<'p>(&mut self, places: &'p mut [Place], head: &Head) -> &'p mut [u8; 256] {
        let place = self.place(places, head);
        clear(old_of(place));
        place[2..18].copy_from_slice(&self.v.0);
        old_of(place)
    }

    /// The same, but the variables and the old bytes are as they came.
    #[inline(always)]
    fn place<'p>(&mut self, places: &'p mut [Place], head: &Head) -> &'p mut Place {
        let count = places.len();
        let place = &mut places[self.next];
        self.next += 1;
        if self.next == count {
            self.next = 0;
        }
        self.kept += usize::from(self.kept < count);
        let (first, rest) = place.split_first_chunk_mut().expect("292 hold 32");
        head.write(first);
        rest[256..].copy_from_slice(&head.inputs.to_be_bytes());
        place
    }

    #[inline(always)]
    fn tick(&mut self, places: &mut [Place]) {
        let head = self.head(TICK);
        self.record(places, &head);
        self.delay = self.delay.saturating_sub(1);
        self.tone = self.tone.saturating_sub(1);
    }

    /// One step, with lengths and state tested. Answers the refusal.
    #[inline(always)]
    fn step(
        &mut self,
        memory: &mut Memory,
        rows: &mut Rows,
        places: &mut [Place],
        keys: u16,
        random: u8,
    ) -> u32 {
        let at = usize::from(self.pc);
        if at > self.end() - 2 {
            return PROGRAM_COUNTER;
        }
        let word = number(memory, at);
        let low = word as u8;
        let x = usize::from(word >> 8 & 15);
        let y = usize::from(low >> 4);
        let address = word & 0x0FFF;
        let mut head = self.head(step_with(keys, random));
        let mut pc = self.pc + 2;

        // What can be refused is judged, and what keeps old bytes is done here.
        match word >> 12 {
            0x0 => match address {
                0x0E0 => {
                    let lit = self.lit.wrapping_sub(lit_spots(rows));
                    if lit > SPOTS {
                        return UNSOUND;
                    }
                    self.lit = lit;
                    head.mark(b"DI", 0, PICTURE);
                    self.copied += PICTURE as u64;
                    let place = self.place(places, &head);
                    write_bytes(rows, old_of(place));
                    place[2..18].copy_from_slice(&self.v.0);
                    rows.fill(0);
                    self.pc = pc;
                    self.held = NO_KEY;
                    return 0;
                }
                0x0EE => {
                    if self.depth == 0 {
                        return STACK_EMPTY;
                    }
                }
                _ => return MACHINE_LANGUAGE,
            },
            0x2 => {
                if self.depth == 12 {
                    return STACK_FULL;
                }
            }
            0x5 | 0x9 => {
                if low & 15 != 0 {
                    return NOT_LISTED;
                }
            }
            0x8 => {
                let listed = if self.second_edition { 0x40FF } else { 0x0037 };
                if listed >> (low & 15) & 1 == 0 {
                    return NOT_LISTED;
                }
            }
            0xD => {
                let n = usize::from(low & 15);
                if n != 0 {
                    let (vx, vy) = (self.v.get(x), self.v.get(y));
                    let i = usize::from(self.i);
                    let Some(pattern) = memory.get(i..i + n).filter(|_| i + n <= self.end()) else {
                        return PAST_MEMORY;
                    };
                    let column = vx & 63;
                    let row = usize::from(vy & 31);
                    let shown = n.min(ROWS - row);
                    let rows = &mut rows[row..row + shown];
                    // A row turns at most eight spots, so a number far from its
                    // ends stays between them. Near an end there is a look before
                    // the writing.
                    let most = 8 * shown as u64;
                    if !(most..=SPOTS - most).contains(&self.lit)
                        && leaves_range(self.lit, rows, pattern, column)
                    {
                        return UNSOUND;
                    }
                    head.mark(b"DI", 8 * row, 8 * shown);
                    self.copied += 8 * shown as u64;
                    let kept = self.record(places, &head).as_chunks_mut().0;
                    let eight = shown.min(8);
                    let (upper, lower) = rows.split_at_mut(eight);
                    let (first, last) = pattern[..shown].split_at(eight);
                    let (kept, below) = kept.split_at_mut(eight);
                    let (mut darkened, mut turned) = draw_rows(upper, first, column, kept);
                    if shown > 8 {
                        let (dark, all) = draw_rows(lower, last, column, below);
                        darkened += dark;
                        turned += all;
                    }
                    self.went_dark += darkened;
                    self.lit = self.lit + turned - 2 * darkened;
                    self.v.set_flag(darkened != 0);
                    self.pc = pc;
                    self.held = NO_KEY;
                    return 0;
                }
            }
            0xE => {
                if low != 0x9E && low != 0xA1 {
                    return NOT_LISTED;
                }
            }
            0xF => match low {
                0x07 | 0x0A | 0x15 | 0x18 | 0x1E | 0x29 => {}
                0x33 => {
                    let vx = self.v.get(x);
                    let i = usize::from(self.i);
                    let fits = i + 3 <= self.end();
                    let Some(bytes) = memory.get_mut(i..i + 3).filter(|_| fits) else {
                        return PAST_MEMORY;
                    };
                    head.mark(b"ME", i, 3);
                    self.copied += 3;
                    let old = self.record(places, &head);
                    old[..3].copy_from_slice(bytes);
                    bytes.copy_from_slice(&[vx / 100, vx / 10 % 10, vx % 10]);
                    self.pc = pc;
                    self.held = NO_KEY;
                    return 0;
                }
                0x55 => {
                    let i = usize::from(self.i);
                    if i + x + 1 > self.end() {
                        return PAST_MEMORY;
                    }
                    head.mark(b"ME", i, x + 1);
                    self.copied += x as u64 + 1;
                    let old = self.record(places, &head);
                    store(memory, i, x, *self.v, old);
                    self.i += x as u16 + 1;
                    self.pc = pc;
                    self.held = NO_KEY;
                    return 0;
                }
                0x65 => {
                    if usize::from(self.i) + x + 1 > self.end() {
                        return PAST_MEMORY;
                    }
                }
                _ => return NOT_LISTED,
            },
            _ => {}
        }

        // The record comes before the act, which changes what it holds.
        self.record(places, &head);
        let (vx, vy) = (self.v.get(x), self.v.get(y));
        let skip = |condition: bool| 2 * u16::from(condition);
        let mut held = NO_KEY;
        match word >> 12 {
            0x0 => {
                self.depth -= 1;
                let entry = &mut self.stack[usize::from(self.depth & 15)];
                pc = *entry;
                *entry = 0;
            }
            0x1 => pc = address,
            0x2 => {
                self.stack[usize::from(self.depth & 15)] = pc;
                self.depth += 1;
                pc = address;
            }
            0x3 => pc += skip(vx == low),
            0x4 => pc += skip(vx != low),
            0x5 => pc += skip(vx == vy),
            0x6 => self.v.set(x, low),
            0x7 => self.v.set(x, vx.wrapping_add(low)),
            0x8 => match low & 15 {
                0x0 => self.v.set(x, vy),
                0x1 => {
                    self.v.set(x, vx | vy);
                    self.v.set_flag(false);
                }
                0x2 => {
                    self.v.set(x, vx & vy);
                    self.v.set_flag(false);
                }
                0x4 => {
                    let (sum, passed) = vx.overflowing_add(vy);
                    self.v.set(x, sum);
                    self.v.set_flag(passed);
                }
                0x5 => {
                    self.v.set(x, vx.wrapping_sub(vy));
                    self.v.set_flag(vx >= vy);
                }
                0x3 => {
                    self.v.set(x, vx ^ vy);
                    self.v.set_flag(false);
                }
                0x6 => {
                    self.v.set(x, vy >> 1);
                    self.v.set_flag(vy & 1 != 0);
                }
                0x7 => {
                    self.v.set(x, vy.wrapping_sub(vx));
                    self.v.set_flag(vy >= vx);
                }
                _ => {
                    self.v.set(x, vy << 1);
                    self.v.set_flag(vy & 0x80 != 0);
                }
            },
            0x9 => pc += skip(vx != vy),
            0xA => self.i = address,
            0xB => pc = address + u16::from(self.v.get(0)),
            0xC => self.v.set(x, random & low),
            0xD => self.v.set_flag(false),
            0xE => {
                let down = keys >> (vx & 15) & 1 == 1;
                pc += skip(down == (low == 0x9E));
            }
            _ => match low {
                0x07 => self.v.set(x, self.delay),
                0x0A => {
                    if self.held == NO_KEY {
                        pc = self.pc;
                        if keys != 0 {
                            held = keys.trailing_zeros() as u8;
                        }
                    } else if keys >> (self.held & 15) & 1 == 1 {
                        pc = self.pc;
                        held = self.held;
                    } else {
                        self.v.set(x, self.held);
                    }
                }
                0x15 => self.delay = vx,
                0x18 => self.tone = vx,
                0x1E => self.i = self.i.wrapping_add(u16::from(vx)),
                0x29 => self.i = 5 * u16::from(vx & 15),
                _ => {
                    fetch(memory, usize::from(self.i), x, self.v);
                    self.i += x as u16 + 1;
                }
            },
        }
        self.pc = pc;
        self.held = held;
        0
    }

    #[inline(always)]
    fn back(&mut self, memory: &mut Memory, rows: &mut Rows, places: &[Place]) -> u32 {
        if self.kept == 0 {
            return NOTHING_KEPT;
        }
        let before = match self.next {
            0 => places.len() - 1,
            next => next - 1,
        };
        let record = &places[before];
        let depth = record[22];
        let last = number(record, 23);
        let held = record[27];
        let start = usize::from(number(record, 28));
        let count = usize::from(number(record, 30));
        if depth > 12
            || depth.abs_diff(self.depth) > 1
            || (depth == 0 && last != 0)
            || (held > 15 && held != NO_KEY)
            || record[PLACE - 1] > 1
        {
            return DAMAGED_RECORD;
        }
        match [record[0], record[1]] {
            [b'N', b'O'] if start == 0 && count == 0 => {}
            [b'M', b'E'] if (1..=16).contains(&count) && start + count <= self.end() => {
                memory[start..start + count].copy_from_slice(&record[32..32 + count]);
            }
            [b'D', b'I'] if (1..=256).contains(&count) && start + count <= PICTURE => {
                let mut after = *rows;
                put_back(&mut after, start, &record[32..32 + count]);
                let touched = start / 8..(start + count).div_ceil(8);
                let put = self.lit + lit_spots(&after[touched.clone()]);
                let lit = put.wrapping_sub(lit_spots(&rows[touched]));
                if lit > SPOTS {
                    return UNSOUND;
                }
                self.lit = lit;
                *rows = after;
            }
            _ => return DAMAGED_RECORD,
        }
        let v = record[2..].first_chunk().expect("290 hold 16");
        *self.v = Registers(*v);
        self.i = number(record, 18);
        self.pc = number(record, 20);
        self.depth = depth;
        if depth > 0 {
            self.stack[usize::from(depth - 1)] = last;
        }
        self.stack[usize::from(depth)..].fill(0);
        self.delay = record[25];
        self.tone = record[26];
        self.held = held;
        self.next = before;
        self.kept -= 1;
        self.ahead += 1;
        0
    }

    #[inline(always)]
    fn forward(&mut self, memory: &mut Memory, rows: &mut Rows, places: &mut [Place]) -> u32 {
        if self.ahead == 0 {
            return NOTHING_AHEAD;
        }
        let [high, low, random, kind] = *places[self.next].last_chunk().expect("292 hold 4");
        let refusal = match kind {
            0 => {
                self.tick(places);
                0
            }
            1 => {
                let keys = u16::from_be_bytes([high, low]);
                self.step(memory, rows, places, keys, random)
            }
            _ => DAMAGED_RECORD,
        };
        self.ahead -= usize::from(refusal == 0);
        refusal
    }
}

/// An end of memory that is in use.
#[inline(always)]
fn is_end(end: u16) -> bool {
    end == SMALL_END || end == FULL_END
}

/// All stack entries at and above the depth, one over the other. Looking at
/// every entry without a branch is quicker than stopping at the first.
#[inline(always)]
fn entries_from(stack: &Stack, depth: u8) -> u16 {
    let mut over = 0;
    for (entry, number) in (0u16..).zip(stack) {
        over |= if entry >= u16::from(depth) {
            *number
        } else {
            0
        };
    }
    over
}

fn old_of(place: &mut Place) -> &mut [u8; 256] {
    place[32..].first_chunk_mut().expect("260 hold 256")
}

/// Places of 292 bytes begin at every fourth address, where a store of sixteen
/// bytes often lies across two lines of the cache. All but the first and the last
/// are made at rounded addresses, where none does.
#[inline(always)]
fn clear(old: &mut [u8; 256]) {
    let rounded = old.as_ptr().addr().wrapping_neg() & 15;
    old[..16].fill(0);
    old[240..].fill(0);
    let middle: &mut [u8; 240] = old[rounded..].first_chunk_mut().expect("256 less 15");
    middle.fill(0);
}

/// Where a byte of a pattern turns a row over. What passes the last column falls out.
#[inline(always)]
fn mask_of(byte: u8, column: u8) -> u64 {
    u64::from(byte) << 56 >> column
}

/// Spots of one row more, which lie in eight columns, join those of the rows before
/// it. These move on by eight first, so that the row finds its columns free.
#[inline(always)]
fn gather(spots: &mut u64, more: u64) {
    *spots = spots.rotate_left(8) | more;
}

/// Draws at most eight bytes of a pattern over as many rows, and keeps the rows as
/// they were. Answers how many spots went dark and how many were turned, counted at
/// once. Two rows in a turn are quicker than one.
#[inline(always)]
fn draw_rows(rows: &mut [u64], pattern: &[u8], column: u8, kept: &mut [[u8; 8]]) -> (u64, u64) {
    let (mut met, mut shown) = (0, 0);
    let draw_row = |row: &mut u64, byte: u8, kept: &mut [u8; 8], met: &mut u64, shown: &mut u64| {
        let before = *row;
        let mask = mask_of(byte, column);
        *kept = before.to_be_bytes();
        *row = before ^ mask;
        gather(met, before & mask);
        gather(shown, mask);
    };
    let (pairs, single) = rows.as_chunks_mut::<2>();
    let (patterns, last) = pattern.as_chunks::<2>();
    let (kept, rest) = kept.split_at_mut(2 * pairs.len());
    for (([upper, lower], [first, second]), [kept, below]) in
        pairs.iter_mut().zip(patterns).zip(kept.as_chunks_mut().0)
    {
        draw_row(upper, *first, kept, &mut met, &mut shown);
        draw_row(lower, *second, below, &mut met, &mut shown);
    }
    if let ([row], [byte]) = (single, last) {
        draw_row(row, *byte, &mut rest[0], &mut met, &mut shown);
    }
    (u64::from(met.count_ones()), u64::from(shown.count_ones()))
}

/// Whether a drawing takes the number of lit spots below 0 or above all spots. Each
/// that goes dark was turned too, so it counts twice. Nothing is written.
#[inline(always)]
fn leaves_range(lit: u64, rows: &[u64], pattern: &[u8], column: u8) -> bool {
    let (mut darkened, mut turned) = (0, 0);
    for (row, byte) in rows.iter().zip(pattern) {
        let mask = mask_of(*byte, column);
        darkened += u64::from((row & mask).count_ones());
        turned += u64::from(mask.count_ones());
    }
    (lit + turned).wrapping_sub(2 * darkened) > SPOTS
}

#[inline(always)]
fn lit_spots(rows: &[u64]) -> u64 {
    rows.iter().map(|row| u64::from(row.count_ones())).sum()
}

#[inline(always)]
fn write_bytes(rows: &Rows, picture: &mut [u8; PICTURE]) {
    for (bytes, row) in picture.as_chunks_mut().0.iter_mut().zip(rows) {
        *bytes = row.to_be_bytes();
    }
}

/// Old bytes from a place of the picture on. Those of the engine's own records are
/// whole rows; a record of another hand may begin and end inside a row.
#[inline(always)]
fn put_back(rows: &mut Rows, start: usize, old: &[u8]) {
    if start.is_multiple_of(8) && old.len().is_multiple_of(8) {
        for (row, bytes) in rows[start / 8..].iter_mut().zip(old.as_chunks().0) {
            *row = u64::from_be_bytes(*bytes);
        }
    } else {
        for (at, byte) in (start..).zip(old) {
            let shift = 56 - 8 * (at % 8);
            let row = &mut rows[at / 8];
            *row = *row & !(0xFF << shift) | u64::from(*byte) << shift;
        }
    }
}

/// The bytes of V0 to VX in a 16-byte number.
#[inline(always)]
fn up_to(x: usize) -> u128 {
    u128::MAX << (8 * (15 - x))
}

/// Away from the end of memory sixteen bytes are taken at once and masked.
#[inline(always)]
fn store(memory: &mut Memory, i: usize, x: usize, v: Registers, old: &mut [u8; 256]) {
    if let Some(bytes) = memory[i..].first_chunk_mut::<16>() {
        let before = u128::from_be_bytes(*bytes);
        let kept = before & up_to(x);
        *bytes = (before ^ kept | u128::from_be_bytes(v.0) & up_to(x)).to_be_bytes();
        old[..16].copy_from_slice(&kept.to_be_bytes());
    } else {
        let bytes = &mut memory[i..i + x + 1];
        old[..x + 1].copy_from_slice(bytes);
        bytes.copy_from_slice(&v.0[..x + 1]);
    }
}

#[inline(always)]
fn fetch(memory: &Memory, i: usize, x: usize, v: &mut Registers) {
    let mut bytes = [0; 16];
    if let Some(sixteen) = memory[i..].first_chunk() {
        bytes = *sixteen;
    } else {
        bytes[..x + 1].copy_from_slice(&memory[i..i + x + 1]);
    }
    v.0 = (u128::from_be_bytes(v.0) & !up_to(x) | u128::from_be_bytes(bytes) & up_to(x))
        .to_be_bytes();
}

/// Whether a record is damaged beside a state of that depth. A back tests the
/// same as it goes, and this is for a salvage, where speed does not count.
fn is_damaged(record: &Place, end_of_memory: usize, present_depth: u8) -> bool {
    let depth = record[22];
    let held = record[27];
    let start = usize::from(number(record, 28));
    let count = usize::from(number(record, 30));
    let end = start + count;
    let fits = match [record[0], record[1]] {
        [b'N', b'O'] => end == 0,
        [b'M', b'E'] => (1..=16).contains(&count) && end <= end_of_memory,
        [b'D', b'I'] => (1..=256).contains(&count) && end <= PICTURE,
        _ => false,
    };
    let sound = fits
        && depth <= 12
        && depth.abs_diff(present_depth) <= 1
        && (depth > 0 || number(record, 23) == 0)
        && (held <= 15 || held == NO_KEY)
        && record[PLACE - 1] <= 1;
    !sound
}

// ---- The ten calls --------------------------------------------------------

/// The hand-tuned rival of the measurements.
pub struct Tuned;

fn places_of(history: &mut [u8]) -> Option<&mut [Place]> {
    (PLACE..=HISTORY_MOST)
        .contains(&history.len())
        .then_some(history.as_chunks_mut().0)
}

/// The lent buffers, once their lengths are right.
struct Fitting<'a> {
    image: &'a mut Image,
    memory: &'a mut Memory,
    rows: &'a mut Rows,
    places: &'a mut [Place],
}

#[inline(always)]
fn fitting(lent: Lent<'_, u64>) -> Option<Fitting<'_>> {
    Some(Fitting {
        image: lent.image.try_into().ok()?,
        memory: lent.memory.try_into().ok()?,
        rows: lent.picture.try_into().ok()?,
        places: places_of(lent.history)?,
    })
}

fn lists_fit(lists: Lists) -> bool {
    let length = lists.first.len();
    length <= LIST_MOST && lists.keys.len() == length && lists.randoms.len() == length
}

/// The entries of the three lists, one after the other.
#[inline(always)]
fn entries(lists: Lists<'_>) -> impl Iterator<Item = (u8, u16, u8)> + '_ {
    lists
        .first
        .iter()
        .zip(lists.keys)
        .zip(lists.randoms)
        .map(|((first, keys), random)| (*first, *keys, *random))
}

impl Engine<u64> for Tuned {
    fn name(&self) -> &'static str {
        "the hand-tuned engine"
    }

    fn load(&self, lent: Lent<u64>, program: &[u8], edition: u8, end: u16) -> u32 {
        let Ok(image) = <&mut Image>::try_from(lent.image) else {
            return LENGTH;
        };
        image.fill(0);
        image[18..20].copy_from_slice(&(START as u16).to_be_bytes());
        image[23] = NO_KEY;
        let listed = edition <= SECOND_EDITION;
        image[52] = if listed { edition } else { FIRST_EDITION };
        let in_use = is_end(end);
        let handed_back = if in_use { end } else { FULL_END };
        image[58..60].copy_from_slice(&handed_back.to_be_bytes());
        let (memory, rows, history) = (lent.memory, lent.picture, lent.history);
        if memory.len() != MEMORY || rows.len() != ROWS || places_of(history).is_none() {
            return LENGTH;
        }
        if !listed || !in_use {
            return UNSOUND;
        }
        if program.is_empty() || program.len() > usize::from(end) - START {
            return PROGRAM_LENGTH;
        }
        memory.fill(0);
        memory[..DIGITS.len()].copy_from_slice(&DIGITS);
        memory[START..START + program.len()].copy_from_slice(program);
        rows.fill(0);
        history.fill(0);
        0
    }

    /// Never inlined, so that it is measured as a call like the card's own.
    #[inline(never)]
    fn step(&self, lent: Lent<u64>, keys: u16, random: u8, answer: &mut [u64]) -> u32 {
        let Ok(answer) = <&mut [u64; ANSWER]>::try_from(answer) else {
            return LENGTH;
        };
        *answer = [0; ANSWER];
        let Some(lent) = fitting(lent) else {
            return LENGTH;
        };
        let (mut v, mut stack) = Default::default();
        let Some(mut work) = Work::read(lent.image, lent.places.len(), &mut v, &mut stack) else {
            return UNSOUND;
        };
        let refusal = work.step(lent.memory, lent.rows, lent.places, keys, random);
        if refusal == 0 {
            work.ahead = 0;
            work.write(lent.image);
            answer[0] = 1;
            answer[1] = work.went_dark;
        }
        refusal
    }

    fn tick(&self, lent: Lent<u64>) -> u32 {
        let image = <&mut Image>::try_from(lent.image);
        let (Ok(image), Some(places)) = (image, places_of(lent.history)) else {
            return LENGTH;
        };
        let (mut v, mut stack) = Default::default();
        let Some(mut work) = Work::read(image, places.len(), &mut v, &mut stack) else {
            return UNSOUND;
        };
        work.tick(places);
        work.ahead = 0;
        work.write(image);
        0
    }

    fn back(&self, lent: Lent<u64>) -> u32 {
        let Some(lent) = fitting(lent) else {
            return LENGTH;
        };
        let (mut v, mut stack) = Default::default();
        let Some(mut work) = Work::read(lent.image, lent.places.len(), &mut v, &mut stack) else {
            return UNSOUND;
        };
        let refusal = work.back(lent.memory, lent.rows, lent.places);
        if refusal == 0 {
            work.write(lent.image);
        }
        refusal
    }

    fn forward(&self, lent: Lent<u64>) -> u32 {
        let Some(lent) = fitting(lent) else {
            return LENGTH;
        };
        let (mut v, mut stack) = Default::default();
        let Some(mut work) = Work::read(lent.image, lent.places.len(), &mut v, &mut stack) else {
            return UNSOUND;
        };
        let refusal = work.forward(lent.memory, lent.rows, lent.places);
        if refusal == 0 {
            work.write(lent.image);
        }
        refusal
    }

    fn run(&self, lent: Lent<u64>, lists: Lists, answer: &mut [u64]) -> u32 {
        let Ok(answer) = <&mut [u64; ANSWER]>::try_from(answer) else {
            return LENGTH;
        };
        *answer = [0; ANSWER];
        let Some(lent) = fitting(lent).filter(|_| lists_fit(lists)) else {
            return LENGTH;
        };
        let (mut v, mut stack) = Default::default();
        let Some(mut work) = Work::read(lent.image, lent.places.len(), &mut v, &mut stack) else {
            return UNSOUND;
        };
        let mut accepted = 0;
        let mut refusal = 0;
        for (ticks, keys, random) in entries(lists) {
            for _ in 0..ticks {
                work.tick(lent.places);
            }
            refusal = work.step(lent.memory, lent.rows, lent.places, keys, random);
            if refusal != 0 {
                break;
            }
            accepted += 1;
        }
        // An action was accepted if a step was, or else a tick before the first.
        if accepted > 0 || lists.first.first().is_some_and(|&ticks| ticks > 0) {
            work.ahead = 0;
        }
        work.write(lent.image);
        answer[0] = accepted;
        answer[1] = work.went_dark;
        answer[2] = work.copied;
        refusal
    }

    fn play(&self, lent: Lent<u64>, lists: Lists) -> u32 {
        let moves = lists.first;
        let fits = lists_fit(lists) && moves.iter().all(|&made| made <= 3);
        let Some(lent) = fitting(lent).filter(|_| fits) else {
            return LENGTH;
        };
        let (mut v, mut stack) = Default::default();
        let Some(mut work) = Work::read(lent.image, lent.places.len(), &mut v, &mut stack) else {
            return UNSOUND;
        };
        let mut refusal = 0;
        for (made, keys, random) in entries(lists) {
            refusal = match made {
                0 => {
                    let refusal = work.step(lent.memory, lent.rows, lent.places, keys, random);
                    if refusal == 0 {
                        work.ahead = 0;
                    }
                    refusal
                }
                1 => {
                    work.tick(lent.places);
                    work.ahead = 0;
                    0
                }
                2 => work.back(lent.memory, lent.rows, lent.places),
                _ => work.forward(lent.memory, lent.rows, lent.places),
            };
        }
        work.write(lent.image);
        refusal
    }

    fn salvage(&self, lent: Lent<u64>, told: Told) -> u32 {
        let Ok(answer) = <&mut [u64; ANSWER]>::try_from(told.answer) else {
            return LENGTH;
        };
        *answer = [0; ANSWER];
        let image = <&mut Image>::try_from(lent.image);
        let (Ok(image), Some(places)) = (image, places_of(lent.history)) else {
            return LENGTH;
        };
        let count = places.len();
        if told.list.len() < 2 * count {
            return LENGTH;
        }
        let (mut v, mut stack) = Default::default();
        let Some(mut work) = Work::read(image, count, &mut v, &mut stack) else {
            return UNSOUND;
        };
        let mut row = 0;
        let mut depth = work.depth;
        while row < work.kept {
            let record = &places[(work.next + count - 1 - row) % count];
            if is_damaged(record, work.end(), depth) {
                break;
            }
            depth = record[22];
            row += 1;
        }
        let mut cleared = 0;
        for (at, place) in places.iter_mut().enumerate() {
            // How many places it stands behind next, and how many on from it.
            let on = (at + count - work.next) % count;
            let behind = count - 1 - on;
            if behind >= row {
                place.fill(0);
                told.list[2 * cleared] = at as u16;
                told.list[2 * cleared + 1] = if behind < work.kept {
                    0
                } else if on < work.ahead {
                    1
                } else {
                    2
                };
                cleared += 1;
            }
        }
        (work.kept, work.ahead) = (row, 0);
        work.write(image);
        answer[..2].copy_from_slice(&[row as u64, cleared as u64]);
        0
    }

    fn rows(&self, picture: &[u8], rows: &mut [u64]) -> u32 {
        let (Ok(picture), Ok(rows)) = (
            <&[u8; PICTURE]>::try_from(picture),
            <&mut Rows>::try_from(rows),
        ) else {
            return LENGTH;
        };
        put_back(rows, 0, picture);
        0
    }

    fn bytes(&self, rows: &[u64], picture: &mut [u8]) -> u32 {
        let (Ok(rows), Ok(picture)) = (<&Rows>::try_from(rows), picture.try_into()) else {
            return LENGTH;
        };
        write_bytes(rows, picture);
        0
    }
}
