//! A case of the comparison: what a host holds at first and the calls it makes.
//! It is plain data, so it can be repeated, cut short and printed.

use std::fmt;

use crate::buffers::{Host, Lists, Part, PARTS};
use crate::second::{lit_spots, Machine, IMAGE, PLACE};

#[derive(Clone, Debug, PartialEq, Eq)]
pub enum Call {
    Load {
        program: Vec<u8>,
        edition: u8,
        end: u16,
    },
    Step {
        keys: u16,
        random: u8,
        answer_length: usize,
    },
    Tick,
    Back,
    Forward,
    Run {
        ticks: Vec<u8>,
        keys: Vec<u16>,
        randoms: Vec<u8>,
        answer_length: usize,
    },
    Play {
        moves: Vec<u8>,
        keys: Vec<u16>,
        randoms: Vec<u8>,
    },
    /// With what stands in the lent list before.
    Salvage {
        list: Vec<u16>,
        answer_length: usize,
    },
    /// Fills rows from a picture, over what stands in them. Neither is a machine's.
    Rows {
        picture: Vec<u8>,
        rows: Vec<u64>,
    },
    /// Fills a picture from rows, likewise.
    Bytes {
        rows: Vec<u64>,
        picture: Vec<u8>,
    },
    /// No call: the host itself writes bytes into a buffer. What would fall
    /// outside is left out.
    Write {
        part: Part,
        at: usize,
        bytes: Vec<u8>,
    },
    /// No call: one bit of the history wears out, and is turned over.
    Wear {
        at: usize,
        bit: u8,
    },
}

#[derive(Clone, Debug, PartialEq, Eq)]
pub struct Case {
    pub start: Host,
    pub calls: Vec<Call>,
}

impl Call {
    /// The lists that the call is lent; most calls are lent none.
    pub fn lists(&self) -> Lists<'_> {
        let (first, keys, randoms): (&[u8], &[u16], &[u8]) = match self {
            Call::Load { program, .. } => (program, &[], &[]),
            Call::Run {
                ticks: first,
                keys,
                randoms,
                ..
            }
            | Call::Play {
                moves: first,
                keys,
                randoms,
            } => (first, keys, randoms),
            _ => (&[], &[], &[]),
        };
        Lists {
            first,
            keys,
            randoms,
        }
    }

    pub fn answer_length(&self) -> usize {
        match self {
            Call::Step { answer_length, .. }
            | Call::Run { answer_length, .. }
            | Call::Salvage { answer_length, .. } => *answer_length,
            _ => 0,
        }
    }

    /// What stands in the list that a salvage is lent; no other call is lent one.
    pub fn list(&self) -> &[u16] {
        match self {
            Call::Salvage { list, .. } => list,
            _ => &[],
        }
    }
}

/// The host's own write.
pub fn write_bytes(buffer: &mut [u8], at: usize, bytes: &[u8]) {
    for (offset, byte) in bytes.iter().enumerate() {
        if let Some(spot) = buffer.get_mut(at + offset) {
            *spot = *byte;
        }
    }
}

/// The bit that wears out.
pub fn wear(history: &mut [u8], at: usize, bit: u8) {
    if let Some(byte) = history.get_mut(at) {
        *byte ^= 1 << bit;
    }
}

// ---- Printing -------------------------------------------------------------

impl fmt::Display for Case {
    fn fmt(&self, f: &mut fmt::Formatter) -> fmt::Result {
        writeln!(f, "start")?;
        write!(f, "{}", self.start)?;
        for (number, call) in self.calls.iter().enumerate() {
            writeln!(f, "call {number}: {call}")?;
        }
        Ok(())
    }
}

impl fmt::Display for Host {
    fn fmt(&self, f: &mut fmt::Formatter) -> fmt::Result {
        if self.image.len() == IMAGE {
            let m = Machine::from_image(&self.image);
            writeln!(
                f,
                "    PC {:04X}, I {:04X}, depth {}, delay {:02X}, tone {:02X}, wait {:?}, next {}, kept {}, ahead {}, edition {}, end {:04X}",
                m.pc, m.i, m.depth, m.delay, m.tone, m.wait, m.next, m.kept, m.ahead, m.edition, m.end
            )?;
            let spots = lit_spots(&self.picture);
            writeln!(
                f,
                "    number of lit spots {}, in the picture {spots}",
                m.lit
            )?;
        }
        for (part, name) in PARTS {
            buffer(f, name, self.part(*part))?;
        }
        writeln!(f, "    places: {}", self.history.len() / PLACE)
    }
}

/// Only rows with a byte other than 0 are printed.
fn buffer(f: &mut fmt::Formatter, name: &str, bytes: &[u8]) -> fmt::Result {
    let rest = match bytes.iter().all(|&byte| byte == 0) {
        true => "",
        false => " but",
    };
    writeln!(f, "  {name} ({} bytes), all 0{rest}", bytes.len())?;
    for (number, row) in bytes.chunks(16).enumerate() {
        if row.iter().any(|&byte| byte != 0) {
            writeln!(f, "    {:04X}: {}", 16 * number, hex(row))?;
        }
    }
    Ok(())
}

impl fmt::Display for Call {
    fn fmt(&self, f: &mut fmt::Formatter) -> fmt::Result {
        match self {
            Call::Load {
                program,
                edition,
                end,
            } => {
                let bytes = in_rows(program);
                write!(
                    f,
                    "load {} bytes [{bytes}] edition {edition} end {end:04X}",
                    program.len()
                )
            }
            Call::Step {
                keys,
                random,
                answer_length,
            } => write!(
                f,
                "step keys {keys:04X} random {random:02X} (answer of {answer_length})"
            ),
            Call::Tick => write!(f, "tick"),
            Call::Back => write!(f, "back"),
            Call::Forward => write!(f, "forward"),
            Call::Run {
                ticks,
                keys,
                randoms,
                answer_length,
            } => write!(
                f,
                "run {} (answer of {answer_length})",
                lists("ticks", ticks, keys, randoms)
            ),
            Call::Play {
                moves,
                keys,
                randoms,
            } => write!(f, "play {}", lists("moves", moves, keys, randoms)),
            Call::Salvage {
                list,
                answer_length,
            } => write!(
                f,
                "salvage with a list of {} numbers [{}] (answer of {answer_length})",
                list.len(),
                in_rows(list)
            ),
            Call::Rows { picture, rows } => write!(
                f,
                "rows of {} bytes [{}] over {} numbers [{}]",
                picture.len(),
                in_rows(picture),
                rows.len(),
                in_rows(rows)
            ),
            Call::Bytes { rows, picture } => write!(
                f,
                "bytes of {} numbers [{}] over {} bytes [{}]",
                rows.len(),
                in_rows(rows),
                picture.len(),
                in_rows(picture)
            ),
            Call::Write { part, at, bytes } => {
                write!(
                    f,
                    "(the host writes {part:?} from {at:04X}: {})",
                    hex(bytes)
                )
            }
            Call::Wear { at, bit } => write!(
                f,
                "(bit {bit} of byte {} of place {} wears out)",
                at % PLACE,
                at / PLACE
            ),
        }
    }
}

fn lists(name: &str, first: &[u8], keys: &[u16], randoms: &[u8]) -> String {
    format!(
        "{} {name} [{}], {} keys [{}], {} randoms [{}]",
        first.len(),
        in_rows(first),
        keys.len(),
        in_rows(keys),
        randoms.len(),
        in_rows(randoms)
    )
}

/// Equal entries one after another are printed once, with their number.
fn in_rows<T: PartialEq + fmt::UpperHex>(list: &[T]) -> String {
    let rows: Vec<String> = list
        .chunk_by(|one, other| one == other)
        .map(|row| match row.len() {
            1 => hex(&row[..1]),
            times => format!("{} x{times}", hex(&row[..1])),
        })
        .collect();
    rows.join(" ")
}

/// Bytes or numbers, each with all its digits.
pub fn hex<T: fmt::UpperHex>(numbers: &[T]) -> String {
    let width = 2 * size_of::<T>();
    let words: Vec<String> = numbers
        .iter()
        .map(|number| format!("{number:0width$X}"))
        .collect();
    words.join(" ")
}
