//! The second interpreter: document 01 once more, in its own words and order,
//! with the requests of document 02 that have landed.
//!
//! It is written from those papers alone and shares no line with the card. It is
//! meant to be read beside them, so it is simple rather than fast.

use std::ops::Range;

// ---- The machine ----------------------------------------------------------

pub const MEMORY: usize = 4096;
pub const PICTURE: usize = 256;
pub const COLUMNS: usize = 64;
pub const ROWS: usize = 32;
pub const BYTES_A_ROW: usize = 8;
pub const STACK: usize = 12;
pub const START: u16 = 0x0200;
pub const PLACE: usize = 292;
pub const HISTORY_MOST: usize = 65_536;
pub const LIST_MOST: usize = 4096;
/// The spots of a picture, and so the highest number of lit ones.
pub const SPOTS: u16 = 2048;

/// The editions of the instruction set.
pub const FIRST_EDITION: u8 = 0;
pub const SECOND_EDITION: u8 = 1;

/// Where memory ends, in the 2K profile and else. Lent memory has 4,096
/// bytes in both.
pub const SMALL_END: u16 = 1696;
pub const FULL_END: u16 = 4096;

/// A state, and the three numbers that go with its history.
#[derive(Clone, Debug, PartialEq, Eq)]
pub struct Machine {
    pub v: [u8; 16],
    pub i: u16,
    pub pc: u16,
    pub stack: [u16; STACK],
    pub depth: u8,
    pub delay: u8,
    pub tone: u8,
    /// None, or the key held. One handed in may hold a number that is no key.
    pub wait: Option<u8>,
    pub next: u16,
    pub kept: u16,
    /// How many actions can be made again.
    pub ahead: u16,
    /// First or second. A state handed in may have a number that is neither.
    pub edition: u8,
    /// The number of lit spots. One handed in may be false, even above the
    /// number of all spots.
    pub lit: u16,
    /// Where memory ends. One handed in may be neither of the two in use.
    pub end: u16,
    /// The image's bytes that are kept for later. Sound only when all are 0.
    pub later: [u8; LATER.len()],
}

/// The buffers lent beside a machine.
pub struct Lent<'a> {
    pub memory: &'a mut [u8],
    pub picture: &'a mut [u8],
    pub history: &'a mut [u8],
}

#[derive(Clone, Copy, Debug, PartialEq, Eq)]
pub enum Refusal {
    ProgramCounter = 1,
    NotListed = 2,
    MachineLanguage = 3,
    StackFull = 4,
    StackEmpty = 5,
    PastMemory = 6,
    NothingKept = 7,
    ProgramLength = 8,
    Length = 9,
    Unsound = 10,
    DamagedRecord = 11,
    NothingAhead = 12,
}

impl Machine {
    /// The machine that a load hands back.
    pub fn fresh(edition: u8, end: u16) -> Machine {
        Machine {
            v: [0; 16],
            i: 0,
            pc: START,
            stack: [0; STACK],
            depth: 0,
            delay: 0,
            tone: 0,
            wait: None,
            next: 0,
            kept: 0,
            ahead: 0,
            edition,
            lit: 0,
            end,
            later: [0; LATER.len()],
        }
    }

    pub fn is_sound(&self) -> bool {
        let depth = usize::from(self.depth);
        depth <= STACK
            && self.stack[depth..].iter().all(|&entry| entry == 0)
            && self.wait.is_none_or(|key| key <= 15)
            && is_edition(self.edition)
            && self.lit <= SPOTS
            && is_end(self.end)
            && self.later == [0; LATER.len()]
    }

    /// The last return address, 0 if depth is 0.
    fn last_return_address(&self) -> u16 {
        match self.depth {
            0 => 0,
            depth => self.stack[usize::from(depth) - 1],
        }
    }
}

fn is_edition(number: u8) -> bool {
    number == FIRST_EDITION || number == SECOND_EDITION
}

fn is_end(number: u16) -> bool {
    number == SMALL_END || number == FULL_END
}

/// R, the number of places in a history.
pub fn places(history: &[u8]) -> usize {
    history.len() / PLACE
}

// ---- What is tested first: 9, then 10 -------------------------------------

fn test(holds: bool, otherwise: Refusal) -> Result<(), Refusal> {
    if holds {
        Ok(())
    } else {
        Err(otherwise)
    }
}

fn test_history_length(history: &[u8]) -> Result<(), Refusal> {
    let fits = (PLACE..=HISTORY_MOST).contains(&history.len());
    test(fits, Refusal::Length)
}

fn test_lengths(lent: &Lent) -> Result<(), Refusal> {
    test(lent.memory.len() == MEMORY, Refusal::Length)?;
    test(lent.picture.len() == PICTURE, Refusal::Length)?;
    test_history_length(lent.history)
}

/// Three lists go together if they are equally long, 0 to 4,096.
fn test_lists(first: &[u8], keys: &[u16], randoms: &[u8]) -> Result<(), Refusal> {
    test(first.len() <= LIST_MOST, Refusal::Length)?;
    test(keys.len() == first.len(), Refusal::Length)?;
    test(randoms.len() == first.len(), Refusal::Length)
}

pub fn test_state(machine: &Machine, history: &[u8]) -> Result<(), Refusal> {
    let r = places(history);
    test(machine.is_sound(), Refusal::Unsound)?;
    test(usize::from(machine.next) < r, Refusal::Unsound)?;
    test(usize::from(machine.kept) <= r, Refusal::Unsound)?;
    let reach = usize::from(machine.kept) + usize::from(machine.ahead);
    test(reach <= r, Refusal::Unsound)
}

// ---- Loading --------------------------------------------------------------

pub const DIGITS: [[u8; 5]; 16] = [
    [0xF0, 0x90, 0x90, 0x90, 0xF0],
    [0x60, 0x20, 0x20, 0x20, 0x70],
    [0xF0, 0x10, 0xF0, 0x80, 0xF0],
    [0xF0, 0x10, 0xF0, 0x10, 0xF0],
    [0xA0, 0xA0, 0xF0, 0x20, 0x20],
    [0xF0, 0x80, 0xF0, 0x10, 0xF0],
    [0xF0, 0x80, 0xF0, 0x90, 0xF0],
    [0xF0, 0x10, 0x10, 0x10, 0x10],
    [0xF0, 0x90, 0xF0, 0x90, 0xF0],
    [0xF0, 0x90, 0xF0, 0x10, 0xF0],
    [0xF0, 0x90, 0xF0, 0x90, 0x90],
    [0xF0, 0x50, 0x70, 0x50, 0xF0],
    [0xF0, 0x80, 0x80, 0x80, 0xF0],
    [0xF0, 0x50, 0x50, 0x50, 0xF0],
    [0xF0, 0x80, 0xF0, 0x80, 0xF0],
    [0xF0, 0x80, 0xF0, 0x80, 0x80],
];

/// A load takes no machine. Refused or not, it hands back the fresh one, of the
/// edition and with the end that were asked for; where there is no such edition
/// of the first, and where the end is not in use with 4,096.
pub fn load(
    program: &[u8],
    edition: u8,
    end: u16,
    lent: &mut Lent,
) -> (Machine, Result<(), Refusal>) {
    let edition_back = match is_edition(edition) {
        true => edition,
        false => FIRST_EDITION,
    };
    let end_back = match is_end(end) {
        true => end,
        false => FULL_END,
    };
    let outcome = fill_buffers(program, edition, end, lent);
    (Machine::fresh(edition_back, end_back), outcome)
}

fn fill_buffers(program: &[u8], edition: u8, end: u16, lent: &mut Lent) -> Result<(), Refusal> {
    test_lengths(lent)?;
    test(is_edition(edition), Refusal::Unsound)?;
    test(is_end(end), Refusal::Unsound)?;
    let fits = (1..=usize::from(end - START)).contains(&program.len());
    test(fits, Refusal::ProgramLength)?;

    lent.memory.fill(0);
    for (digit, bytes) in DIGITS.iter().enumerate() {
        for (offset, byte) in bytes.iter().enumerate() {
            lent.memory[5 * digit + offset] = *byte;
        }
    }
    for (offset, byte) in program.iter().enumerate() {
        lent.memory[usize::from(START) + offset] = *byte;
    }
    lent.picture.fill(0);
    lent.history.fill(0);
    Ok(())
}

// ---- One step -------------------------------------------------------------

/// The instructions of the papers, in their order. X and Y are register numbers.
enum Instruction {
    ClearPicture,                           // 00E0
    Return,                                 // 00EE
    Jump { mmm: u16 },                      // 1MMM
    Call { mmm: u16 },                      // 2MMM
    JumpPlusV0 { mmm: u16 },                // BMMM
    SkipIfEqual { x: usize, kk: u8 },       // 3XKK
    SkipIfNotEqual { x: usize, kk: u8 },    // 4XKK
    SkipIfSame { x: usize, y: usize },      // 5XY0
    SkipIfDifferent { x: usize, y: usize }, // 9XY0
    SkipIfKeyDown { x: usize },             // EX9E
    SkipIfKeyUp { x: usize },               // EXA1
    Set { x: usize, kk: u8 },               // 6XKK
    Add { x: usize, kk: u8 },               // 7XKK
    Random { x: usize, kk: u8 },            // CXKK
    Copy { x: usize, y: usize },            // 8XY0
    Or { x: usize, y: usize },              // 8XY1
    And { x: usize, y: usize },             // 8XY2
    AddRegister { x: usize, y: usize },     // 8XY4
    Subtract { x: usize, y: usize },        // 8XY5
    SetI { mmm: u16 },                      // AMMM
    AddToI { x: usize },                    // FX1E
    Digit { x: usize },                     // FX29
    Decimal { x: usize },                   // FX33
    Store { x: usize },                     // FX55
    Fetch { x: usize },                     // FX65
    ReadDelay { x: usize },                 // FX07
    SetDelay { x: usize },                  // FX15
    SetTone { x: usize },                   // FX18
    WaitForKey { x: usize },                // FX0A
    Draw { x: usize, y: usize, n: usize },  // DXYN
    // in the second edition alone.
    ExclusiveOr { x: usize, y: usize },  // 8XY3
    Halve { x: usize, y: usize },        // 8XY6
    SubtractFrom { x: usize, y: usize }, // 8XY7
    Double { x: usize, y: usize },       // 8XYE
}

use Instruction::*;

/// The instruction is the byte at PC, then the byte at PC+1.
fn instruction_at(machine: &Machine, memory: &[u8]) -> Result<Instruction, Refusal> {
    test(machine.pc <= machine.end - 2, Refusal::ProgramCounter)?;
    let high = memory[usize::from(machine.pc)];
    let low = memory[usize::from(machine.pc) + 1];
    listed(u16::from(high) * 256 + u16::from(low), machine.edition)
}

fn listed(word: u16, edition: u8) -> Result<Instruction, Refusal> {
    let second = edition == SECOND_EDITION;
    let first_digit = word / 0x1000;
    let x = usize::from(word / 0x100 % 0x10);
    let y = usize::from(word / 0x10 % 0x10);
    let n = usize::from(word % 0x10);
    let kk = (word % 0x100) as u8;
    let mmm = word % 0x1000;
    let instruction = match (first_digit, kk, n) {
        (0x0, _, _) if mmm == 0x0E0 => ClearPicture,
        (0x0, _, _) if mmm == 0x0EE => Return,
        (0x0, _, _) => return Err(Refusal::MachineLanguage),
        (0x1, _, _) => Jump { mmm },
        (0x2, _, _) => Call { mmm },
        (0x3, _, _) => SkipIfEqual { x, kk },
        (0x4, _, _) => SkipIfNotEqual { x, kk },
        (0x5, _, 0x0) => SkipIfSame { x, y },
        (0x6, _, _) => Set { x, kk },
        (0x7, _, _) => Add { x, kk },
        (0x8, _, 0x0) => Copy { x, y },
        (0x8, _, 0x1) => Or { x, y },
        (0x8, _, 0x2) => And { x, y },
        (0x8, _, 0x4) => AddRegister { x, y },
        (0x8, _, 0x5) => Subtract { x, y },
        (0x8, _, 0x3) if second => ExclusiveOr { x, y },
        (0x8, _, 0x6) if second => Halve { x, y },
        (0x8, _, 0x7) if second => SubtractFrom { x, y },
        (0x8, _, 0xE) if second => Double { x, y },
        (0x9, _, 0x0) => SkipIfDifferent { x, y },
        (0xA, _, _) => SetI { mmm },
        (0xB, _, _) => JumpPlusV0 { mmm },
        (0xC, _, _) => Random { x, kk },
        (0xD, _, _) => Draw { x, y, n },
        (0xE, 0x9E, _) => SkipIfKeyDown { x },
        (0xE, 0xA1, _) => SkipIfKeyUp { x },
        (0xF, 0x07, _) => ReadDelay { x },
        (0xF, 0x0A, _) => WaitForKey { x },
        (0xF, 0x15, _) => SetDelay { x },
        (0xF, 0x18, _) => SetTone { x },
        (0xF, 0x1E, _) => AddToI { x },
        (0xF, 0x29, _) => Digit { x },
        (0xF, 0x33, _) => Decimal { x },
        (0xF, 0x55, _) => Store { x },
        (0xF, 0x65, _) => Fetch { x },
        _ => return Err(Refusal::NotListed),
    };
    Ok(instruction)
}

/// Refusals 4, 5 and 6: what the instruction needs and the machine has not.
fn test_possible(instruction: &Instruction, machine: &Machine) -> Result<(), Refusal> {
    match instruction {
        Call { .. } => test(usize::from(machine.depth) < STACK, Refusal::StackFull),
        Return => test(machine.depth > 0, Refusal::StackEmpty),
        _ => match bytes_needed(instruction) {
            0 => Ok(()),
            needed => {
                let reach = usize::from(machine.i) + needed;
                test(reach <= usize::from(machine.end), Refusal::PastMemory)
            }
        },
    }
}

/// How many bytes of memory from I an instruction needs.
fn bytes_needed(instruction: &Instruction) -> usize {
    match instruction {
        Decimal { .. } => 3,
        Store { x } | Fetch { x } => x + 1,
        Draw { n, .. } => *n,
        _ => 0,
    }
}

/// Answers how many lit spots went dark.
pub fn step(machine: &mut Machine, lent: &mut Lent, keys: u16, random: u8) -> Result<u64, Refusal> {
    test_lengths(lent)?;
    test_state(machine, lent.history)?;
    let instruction = instruction_at(machine, lent.memory)?;
    test_possible(&instruction, machine)?;
    let lit = lit_after(&instruction, machine, lent)?;

    let inputs = Inputs {
        keys,
        random,
        last: STEP,
    };
    write_record(machine, lent, old_bytes(&instruction, machine), inputs);
    machine.ahead = 0;
    machine.lit = lit;
    Ok(execute(&instruction, machine, lent, keys, random))
}

/// Everything is read from `old`, so no operand is read after a write. Answers
/// how many lit spots went dark, which is 0 for all but a drawing.
fn execute(
    instruction: &Instruction,
    machine: &mut Machine,
    lent: &mut Lent,
    keys: u16,
    random: u8,
) -> u64 {
    let old = machine.clone();
    let key_down = |key: u8| keys >> key & 1 == 1;
    let at_i = usize::from(old.i);

    let went_dark = change_picture(instruction, &old, lent.memory, lent.picture);
    machine.pc = old.pc + 2;
    machine.wait = None;
    let mut skip_if = |condition: bool| {
        if condition {
            machine.pc = old.pc + 4;
        }
    };

    match *instruction {
        // The picture is clear already.
        ClearPicture => {}
        Return => {
            let last = usize::from(old.depth) - 1;
            machine.pc = old.stack[last];
            machine.stack[last] = 0;
            machine.depth = old.depth - 1;
        }
        Jump { mmm } => machine.pc = mmm,
        Call { mmm } => {
            machine.stack[usize::from(old.depth)] = old.pc + 2;
            machine.depth = old.depth + 1;
            machine.pc = mmm;
        }
        JumpPlusV0 { mmm } => machine.pc = mmm + u16::from(old.v[0]),

        SkipIfEqual { x, kk } => skip_if(old.v[x] == kk),
        SkipIfNotEqual { x, kk } => skip_if(old.v[x] != kk),
        SkipIfSame { x, y } => skip_if(old.v[x] == old.v[y]),
        SkipIfDifferent { x, y } => skip_if(old.v[x] != old.v[y]),
        SkipIfKeyDown { x } => skip_if(key_down(old.v[x] % 16)),
        SkipIfKeyUp { x } => skip_if(!key_down(old.v[x] % 16)),

        Set { x, kk } => machine.v[x] = kk,
        Add { x, kk } => machine.v[x] = old.v[x].wrapping_add(kk),
        Random { x, kk } => machine.v[x] = random & kk,

        Copy { x, y } => machine.v[x] = old.v[y],
        // both set VF to 0 after the result, also when X is F.
        Or { x, y } => {
            machine.v[x] = old.v[x] | old.v[y];
            machine.v[0xF] = 0;
        }
        And { x, y } => {
            machine.v[x] = old.v[x] & old.v[y];
            machine.v[0xF] = 0;
        }
        AddRegister { x, y } => {
            let sum = u16::from(old.v[x]) + u16::from(old.v[y]);
            machine.v[x] = (sum % 256) as u8;
            machine.v[0xF] = u8::from(sum > 255);
        }
        Subtract { x, y } => {
            machine.v[x] = old.v[x].wrapping_sub(old.v[y]);
            machine.v[0xF] = u8::from(old.v[x] >= old.v[y]);
        }

        SetI { mmm } => machine.i = mmm,
        AddToI { x } => machine.i = old.i.wrapping_add(u16::from(old.v[x])),
        Digit { x } => machine.i = 5 * u16::from(old.v[x] % 16),

        Decimal { x } => {
            lent.memory[at_i] = old.v[x] / 100;
            lent.memory[at_i + 1] = old.v[x] / 10 % 10;
            lent.memory[at_i + 2] = old.v[x] % 10;
        }
        Store { x } => {
            for register in 0..=x {
                lent.memory[at_i + register] = old.v[register];
            }
            machine.i = old.i + x as u16 + 1;
        }
        Fetch { x } => {
            for register in 0..=x {
                machine.v[register] = lent.memory[at_i + register];
            }
            machine.i = old.i + x as u16 + 1;
        }

        ReadDelay { x } => machine.v[x] = old.delay,
        SetDelay { x } => machine.delay = old.v[x],
        SetTone { x } => machine.tone = old.v[x],

        WaitForKey { x } => match old.wait {
            None => {
                machine.wait = (0..16).find(|&key| key_down(key));
                machine.pc = old.pc;
            }
            Some(held) if key_down(held) => {
                machine.wait = old.wait;
                machine.pc = old.pc;
            }
            Some(held) => machine.v[x] = held,
        },

        Draw { .. } => machine.v[0xF] = u8::from(went_dark > 0),

        ExclusiveOr { x, y } => {
            machine.v[x] = old.v[x] ^ old.v[y];
            machine.v[0xF] = 0;
        }
        Halve { x, y } => {
            machine.v[x] = old.v[y] / 2;
            machine.v[0xF] = old.v[y] % 2;
        }
        SubtractFrom { x, y } => {
            machine.v[x] = old.v[y].wrapping_sub(old.v[x]);
            machine.v[0xF] = u8::from(old.v[y] >= old.v[x]);
        }
        Double { x, y } => {
            machine.v[x] = (2 * u16::from(old.v[y]) % 256) as u8;
            machine.v[0xF] = old.v[y] / 128;
        }
    }
    went_dark
}

/// What an instruction does to a picture; only 00E0 and a drawing change it.
/// Answers how many lit spots a drawing darkened.
fn change_picture(
    instruction: &Instruction,
    machine: &Machine,
    memory: &[u8],
    picture: &mut [u8],
) -> u64 {
    match *instruction {
        ClearPicture => {
            picture.fill(0);
            0
        }
        // Without a pattern no memory is read, wherever I stands.
        Draw { n: 0, .. } => 0,
        Draw { x, y, n } => {
            let column = usize::from(machine.v[x]) % COLUMNS;
            let row = usize::from(machine.v[y]) % ROWS;
            let at_i = usize::from(machine.i);
            draw(picture, column, row, &memory[at_i..at_i + n])
        }
        _ => 0,
    }
}

/// Turns over one spot for each 1 bit; spots past an edge are dropped.
/// Answers how many lit spots went dark.
fn draw(picture: &mut [u8], column: usize, row: usize, pattern: &[u8]) -> u64 {
    let mut went_dark = 0;
    for (down, byte) in pattern.iter().enumerate() {
        for right in 0..8 {
            let bit = byte >> (7 - right) & 1;
            let (spot_column, spot_row) = (column + right, row + down);
            if bit == 1 && spot_column < COLUMNS && spot_row < ROWS {
                let was_lit = turn_over(picture, spot_column, spot_row);
                if was_lit {
                    went_dark += 1;
                }
            }
        }
    }
    went_dark
}

/// Turns one spot over and answers whether it was lit.
fn turn_over(picture: &mut [u8], column: usize, row: usize) -> bool {
    let byte = &mut picture[BYTES_A_ROW * row + column / 8];
    let spot = 0x80 >> (column % 8);
    let was_lit = *byte & spot != 0;
    *byte ^= spot;
    was_lit
}

// ---- The number of lit spots (Q-8) ----------------------------------------

/// How many spots are lit in some bytes of a picture.
pub fn lit_spots(bytes: &[u8]) -> u16 {
    bytes.iter().map(|byte| byte.count_ones() as u16).sum()
}

/// The number with the lit spots of the bytes that change added, counted after
/// less before; 10 if that is below 0 or above the number of all spots.
fn counted(lit: u16, before: &[u8], after: &[u8]) -> Result<u16, Refusal> {
    let sum = i32::from(lit) + i32::from(lit_spots(after)) - i32::from(lit_spots(before));
    test((0..=i32::from(SPOTS)).contains(&sum), Refusal::Unsound)?;
    Ok(sum as u16)
}

/// The number after a step. The step's change is made on a copy of the picture,
/// so it is judged before anything is written.
fn lit_after(instruction: &Instruction, machine: &Machine, lent: &Lent) -> Result<u16, Refusal> {
    let changed = old_bytes(instruction, machine).of_picture();
    let mut after = lent.picture.to_vec();
    change_picture(instruction, machine, lent.memory, &mut after);
    counted(machine.lit, &lent.picture[changed.clone()], &after[changed])
}

// ---- A tick, a run, a play ------------------------------------------------

pub fn tick(machine: &mut Machine, history: &mut [u8]) -> Result<(), Refusal> {
    test_history_length(history)?;
    test_state(machine, history)?;
    let mut lent = Lent {
        memory: &mut [],
        picture: &mut [],
        history,
    };
    let inputs = Inputs {
        keys: 0,
        random: 0,
        last: TICK,
    };
    write_record(machine, &mut lent, NOTHING, inputs);
    machine.ahead = 0;
    if machine.delay > 0 {
        machine.delay -= 1;
    }
    if machine.tone > 0 {
        machine.tone -= 1;
    }
    Ok(())
}

/// What a run answers.
pub struct Ran {
    pub accepted: u64,
    /// The sum over the accepted steps of the lit spots that went dark.
    pub went_dark: u64,
    /// The total of the count fields of the records that the run wrote.
    pub copied: u64,
    pub outcome: Result<(), Refusal>,
}

pub fn run(
    machine: &mut Machine,
    lent: &mut Lent,
    ticks: &[u8],
    keys: &[u16],
    randoms: &[u8],
) -> Ran {
    let mut ran = Ran {
        accepted: 0,
        went_dark: 0,
        copied: 0,
        outcome: Ok(()),
    };
    ran.outcome = test_lengths(lent)
        .and_then(|()| test_lists(ticks, keys, randoms))
        .and_then(|()| test_state(machine, lent.history));
    if ran.outcome.is_err() {
        return ran;
    }
    for entry in 0..ticks.len() {
        for _ in 0..ticks[entry] {
            tick(machine, lent.history).expect("a tick of a run is never refused");
            ran.copied += last_count(machine, lent.history);
        }
        match step(machine, lent, keys[entry], randoms[entry]) {
            Ok(went_dark) => {
                ran.accepted += 1;
                ran.went_dark += went_dark;
                ran.copied += last_count(machine, lent.history);
            }
            Err(refusal) => {
                ran.outcome = Err(refusal);
                return ran;
            }
        }
    }
    ran
}

/// The count field of the record that was written last, read in the history.
fn last_count(machine: &Machine, history: &[u8]) -> u64 {
    u64::from(get(history, PLACE * place_before(machine, history) + 30))
}

pub const MOVE_STEP: u8 = 0;
pub const MOVE_TICK: u8 = 1;
pub const MOVE_BACK: u8 = 2;
pub const MOVE_FORWARD: u8 = 3;

/// Makes every move, refused ones included, and answers for the last one.
pub fn play(
    machine: &mut Machine,
    lent: &mut Lent,
    moves: &[u8],
    keys: &[u16],
    randoms: &[u8],
) -> Result<(), Refusal> {
    test_lengths(lent)?;
    test_lists(moves, keys, randoms)?;
    test(moves.iter().all(|&m| m <= MOVE_FORWARD), Refusal::Length)?;
    test_state(machine, lent.history)?;
    let mut last = Ok(());
    for entry in 0..moves.len() {
        last = match moves[entry] {
            MOVE_STEP => step(machine, lent, keys[entry], randoms[entry]).map(drop),
            MOVE_TICK => tick(machine, lent.history),
            MOVE_BACK => back(machine, lent),
            _ => forward(machine, lent),
        };
    }
    last
}

// ---- The history record ---------------------------------------------------

/// Which bytes of which buffer an action is about to change.
struct OldBytes {
    mark: [u8; 2],
    start: usize,
    count: usize,
}

const NOTHING: OldBytes = OldBytes {
    mark: *b"NO",
    start: 0,
    count: 0,
};

impl OldBytes {
    /// Where they stand in the picture; nowhere for those of memory.
    fn of_picture(&self) -> Range<usize> {
        match &self.mark {
            b"DI" => self.start..self.start + self.count,
            _ => 0..0,
        }
    }
}

fn old_bytes(instruction: &Instruction, machine: &Machine) -> OldBytes {
    let memory = |count| OldBytes {
        mark: *b"ME",
        start: usize::from(machine.i),
        count,
    };
    let picture = |start, count| OldBytes {
        mark: *b"DI",
        start,
        count,
    };
    match *instruction {
        Decimal { .. } => memory(3),
        Store { x } => memory(x + 1),
        ClearPicture => picture(0, PICTURE),
        Draw { y, n, .. } if n > 0 => {
            let row = usize::from(machine.v[y]) % ROWS;
            picture(8 * row, 8 * n.min(ROWS - row))
        }
        _ => NOTHING,
    }
}

/// What an action was given, which its record keeps too. The keys and the
/// random byte are 0 for a tick.
struct Inputs {
    keys: u16,
    random: u8,
    last: u8,
}

/// The last byte of a record.
const STEP: u8 = 1;
const TICK: u8 = 0;

/// Writes the place at next with what stands before the action, and its inputs.
fn write_record(machine: &mut Machine, lent: &mut Lent, old: OldBytes, inputs: Inputs) {
    let mut record = [0; PLACE];
    record[0..2].copy_from_slice(&old.mark);
    record[2..18].copy_from_slice(&machine.v);
    put(&mut record, 18, machine.i);
    put(&mut record, 20, machine.pc);
    record[22] = machine.depth;
    put(&mut record, 23, machine.last_return_address());
    record[25] = machine.delay;
    record[26] = machine.tone;
    record[27] = machine.wait.unwrap_or(0xFF);
    put(&mut record, 28, old.start as u16);
    put(&mut record, 30, old.count as u16);
    let source: &[u8] = match &old.mark {
        b"ME" => lent.memory,
        b"DI" => lent.picture,
        _ => &[],
    };
    for offset in 0..old.count {
        record[32 + offset] = source[old.start + offset];
    }
    put(&mut record, 288, inputs.keys);
    record[290] = inputs.random;
    record[291] = inputs.last;

    let r = places(lent.history);
    let place = PLACE * usize::from(machine.next);
    lent.history[place..place + PLACE].copy_from_slice(&record);
    machine.next = (machine.next + 1) % r as u16;
    machine.kept = (machine.kept + 1).min(r as u16);
}

/// Numbers have their high byte first.
fn put(bytes: &mut [u8], at: usize, number: u16) {
    bytes[at] = (number / 256) as u8;
    bytes[at + 1] = (number % 256) as u8;
}

fn get(bytes: &[u8], at: usize) -> u16 {
    u16::from(bytes[at]) * 256 + u16::from(bytes[at + 1])
}

/// The place before next.
fn place_before(machine: &Machine, history: &[u8]) -> usize {
    match usize::from(machine.next) {
        0 => places(history) - 1,
        next => next - 1,
    }
}

pub fn back(machine: &mut Machine, lent: &mut Lent) -> Result<(), Refusal> {
    test_lengths(lent)?;
    test_state(machine, lent.history)?;
    test(machine.kept > 0, Refusal::NothingKept)?;
    let before_next = place_before(machine, lent.history);
    let place = PLACE * before_next;
    let record = lent.history[place..place + PLACE].to_vec();
    let damaged = is_damaged(&record, machine.end, machine.depth);
    test(!damaged, Refusal::DamagedRecord)?;
    let start = usize::from(get(&record, 28));
    let count = usize::from(get(&record, 30));
    let old = &record[32..32 + count];
    let lit = match &record[0..2] {
        b"DI" => counted(machine.lit, &lent.picture[start..start + count], old)?,
        _ => machine.lit,
    };

    machine.v.copy_from_slice(&record[2..18]);
    machine.i = get(&record, 18);
    machine.pc = get(&record, 20);
    machine.depth = record[22];
    let depth = usize::from(machine.depth);
    if depth > 0 {
        machine.stack[depth - 1] = get(&record, 23);
    }
    machine.stack[depth..].fill(0);
    machine.delay = record[25];
    machine.tone = record[26];
    machine.wait = match record[27] {
        0xFF => None,
        key => Some(key),
    };
    machine.lit = lit;
    for (offset, byte) in old.iter().enumerate() {
        match &record[0..2] {
            b"ME" => lent.memory[start + offset] = *byte,
            _ => lent.picture[start + offset] = *byte,
        }
    }
    machine.next = before_next as u16;
    machine.kept -= 1;
    machine.ahead += 1;
    Ok(())
}

/// Makes the action of the record at next again, with its kept inputs. Of
/// the record nothing else is read: a step and a tick write it anew, and raise
/// next and kept as they did.
pub fn forward(machine: &mut Machine, lent: &mut Lent) -> Result<(), Refusal> {
    test_lengths(lent)?;
    test_state(machine, lent.history)?;
    test(machine.ahead > 0, Refusal::NothingAhead)?;
    let ahead = machine.ahead;
    let place = PLACE * usize::from(machine.next);
    let keys = get(lent.history, place + 288);
    let random = lent.history[place + 290];
    match lent.history[place + 291] {
        STEP => step(machine, lent, keys, random).map(drop)?,
        TICK => tick(machine, lent.history)?,
        _ => return Err(Refusal::DamagedRecord),
    }
    machine.ahead = ahead - 1;
    Ok(())
}

fn is_damaged(record: &[u8], end: u16, present_depth: u8) -> bool {
    let depth = record[22];
    let address = get(record, 23);
    let key = record[27];
    let start = usize::from(get(record, 28));
    let count = usize::from(get(record, 30));
    let range_damaged = match &record[0..2] {
        b"NO" => start != 0 || count != 0,
        b"ME" => !(1..=16).contains(&count) || start + count > usize::from(end),
        b"DI" => !(1..=256).contains(&count) || start + count > PICTURE,
        _ => true,
    };
    range_damaged
        || usize::from(depth) > STACK
        || depth.abs_diff(present_depth) > 1
        || (depth == 0 && address != 0)
        || (key > 15 && key != 0xFF)
        || (record[291] != STEP && record[291] != TICK)
}

// ---- Salvage a worn history (Q-12) -----------------------------------------

/// What a salvage reports of a place that it cleared: as what it had counted.
pub const WAS_KEPT: u16 = 0;
pub const WAS_AHEAD: u16 = 1;
pub const WAS_FREE: u16 = 2;

/// What a salvage reports beside its list.
pub struct Salvaged {
    pub kept: u64,
    pub cleared: u64,
}

/// Keeps the longest row of sound records and clears every other place. The list
/// has two numbers an entry: a place, and as what it had counted.
pub fn salvage(
    machine: &mut Machine,
    history: &mut [u8],
    list: &mut [u16],
) -> Result<Salvaged, Refusal> {
    let r = places(history);
    test_history_length(history)?;
    test(list.len() >= 2 * r, Refusal::Length)?;
    test_state(machine, history)?;

    // The kept places stand before next, the newest first; those ahead from next on.
    let next = usize::from(machine.next);
    let kept: Vec<usize> = (1..=usize::from(machine.kept))
        .map(|back| (next + r - back) % r)
        .collect();
    let ahead: Vec<usize> = (0..usize::from(machine.ahead))
        .map(|on| (next + on) % r)
        .collect();

    let mut row = Vec::new();
    let mut newer_depth = machine.depth;
    for &place in &kept {
        let record = &history[PLACE * place..PLACE * (place + 1)];
        if is_damaged(record, machine.end, newer_depth) {
            break;
        }
        newer_depth = record[22];
        row.push(place);
    }

    let mut entries = list.chunks_exact_mut(2);
    for place in (0..r).filter(|place| !row.contains(place)) {
        history[PLACE * place..PLACE * (place + 1)].fill(0);
        let entry = entries.next().expect("an entry for each place");
        entry[0] = place as u16;
        entry[1] = if kept.contains(&place) {
            WAS_KEPT
        } else if ahead.contains(&place) {
            WAS_AHEAD
        } else {
            WAS_FREE
        };
    }
    machine.kept = row.len() as u16;
    machine.ahead = 0;
    Ok(Salvaged {
        kept: row.len() as u64,
        cleared: (r - row.len()) as u64,
    })
}

// ---- The image ------------------------------------------------------------

pub const IMAGE: usize = 64;
/// Where the image holds nothing yet.
pub const LATER: [usize; 5] = [53, 60, 61, 62, 63];

impl Machine {
    pub fn from_image(image: &[u8]) -> Machine {
        let mut machine = Machine::fresh(image[52], get(image, 58));
        machine.v.copy_from_slice(&image[0..16]);
        machine.i = get(image, 16);
        machine.pc = get(image, 18);
        machine.depth = image[20];
        machine.delay = image[21];
        machine.tone = image[22];
        machine.wait = match image[23] {
            0xFF => None,
            key => Some(key),
        };
        for entry in 0..STACK {
            machine.stack[entry] = get(image, 24 + 2 * entry);
        }
        machine.next = get(image, 48);
        machine.kept = get(image, 50);
        machine.ahead = get(image, 54);
        machine.lit = get(image, 56);
        machine.later = LATER.map(|at| image[at]);
        machine
    }

    pub fn to_image(&self) -> [u8; IMAGE] {
        let mut image = [0; IMAGE];
        image[0..16].copy_from_slice(&self.v);
        put(&mut image, 16, self.i);
        put(&mut image, 18, self.pc);
        image[20] = self.depth;
        image[21] = self.delay;
        image[22] = self.tone;
        image[23] = self.wait.unwrap_or(0xFF);
        for entry in 0..STACK {
            put(&mut image, 24 + 2 * entry, self.stack[entry]);
        }
        put(&mut image, 48, self.next);
        put(&mut image, 50, self.kept);
        image[52] = self.edition;
        put(&mut image, 54, self.ahead);
        put(&mut image, 56, self.lit);
        put(&mut image, 58, self.end);
        for (at, byte) in LATER.iter().zip(self.later) {
            image[*at] = byte;
        }
        image
    }
}
