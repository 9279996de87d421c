//! Obeys the script of the edge cases, cases/edges.txt, whose head says what its
//! words mean. Every engine makes each call, and all must leave the same.

use crate::buffers::{Host, Told, PARTS};
use crate::card::Archive;
use crate::case::{hex, Call, Case};
use crate::check::{check, check_page, check_panel, make, Filled, UNWRITTEN};
use crate::engine::{Engine, Second, ANSWER};
use crate::second::{
    lit_spots, Machine, BYTES_A_ROW, FIRST_EDITION, FULL_END, HISTORY_MOST, IMAGE, LATER,
    LIST_MOST, MEMORY, PICTURE, PLACE, ROWS,
};
use crate::tally::Tally;
use crate::{dots, tuned::Tuned};

/// What is compared with the second interpreter.
const ENGINES: [&dyn Engine<u64>; 2] = [&Archive, &Tuned];

/// The buffers by name: how many bytes there are, one more than any call takes,
/// and how many of them are lent unless the script says otherwise.
const BUFFERS: [(&str, usize, usize); 13] = [
    ("image", IMAGE + 1, IMAGE),
    ("memory", MEMORY + 1, MEMORY),
    // Bytes for one row more.
    ("picture", BYTES_A_ROW * (ROWS + 1), PICTURE),
    ("history", HISTORY_MOST + 1, 3 * PLACE),
    ("panel", dots::PANEL + 1, dots::PANEL),
    ("page", PICTURE + 1, PICTURE),
    // Of rows, of an answer and of a list only the length counts, in numbers.
    ("rows", ROWS + 1, ROWS),
    ("answer", ANSWER + 1, ANSWER),
    ("list", LIST + 1, 6),
    // Of a list each call says how much it is lent.
    ("program", LIST_MOST + 1, 0),
    ("ticks", LIST_MOST + 1, 0),
    ("moves", LIST_MOST + 1, 0),
    ("randoms", LIST_MOST + 1, 0),
];

/// How many numbers the list of a salvage needs at most.
const LIST: usize = 2 * (HISTORY_MOST / PLACE);

/// The words for moves, and their bytes.
const MOVES: [(&str, &str); 4] = [
    ("step", "00"),
    ("tick", "01"),
    ("back", "02"),
    ("forward", "03"),
];

// ---- The state, part by part ----------------------------------------------

enum Form {
    Byte,
    Word,
    /// Of two bytes, and decimal.
    Count,
}

/// A part of the state in the image. At rest it is not printed.
struct Field {
    name: String,
    at: usize,
    form: Form,
    rest: Option<u16>,
}

fn fields() -> Vec<Field> {
    let field = |name: &str, at, form, rest| Field {
        name: name.to_string(),
        at,
        form,
        rest,
    };
    let mut fields: Vec<Field> = (0..16)
        .map(|x| field(&format!("V{x:X}"), x, Form::Byte, Some(0)))
        .collect();
    fields.extend([
        field("I", 16, Form::Word, Some(0)),
        field("PC", 18, Form::Word, None),
        field("depth", 20, Form::Byte, Some(0)),
    ]);
    fields.extend((0..12).map(|k| field(&format!("stack {k:X}"), 24 + 2 * k, Form::Word, Some(0))));
    fields.extend([
        field("delay", 21, Form::Byte, Some(0)),
        field("tone", 22, Form::Byte, Some(0)),
        field("held", 23, Form::Byte, Some(0xFF)),
        field("next", 48, Form::Count, None),
        field("kept", 50, Form::Count, None),
        field("ahead", 54, Form::Count, Some(0)),
        field("lit", 56, Form::Count, Some(0)),
        field("edition", 52, Form::Byte, Some(0)),
        field("end", 58, Form::Word, Some(FULL_END)),
    ]);
    fields.extend(LATER.map(|at| field(&format!("byte {at}"), at, Form::Byte, Some(0))));
    fields
}

impl Field {
    fn set(&self, image: &mut [u8], value: &str) -> Result<(), String> {
        let bytes = match self.form {
            Form::Byte => number::<u8>(value, 16)?.to_be_bytes().to_vec(),
            Form::Word => number::<u16>(value, 16)?.to_be_bytes().to_vec(),
            Form::Count => number::<u16>(value, 10)?.to_be_bytes().to_vec(),
        };
        image[self.at..self.at + bytes.len()].copy_from_slice(&bytes);
        Ok(())
    }

    /// Name and value, or nothing at rest.
    fn told(&self, image: &[u8]) -> Option<String> {
        let word = u16::from_be_bytes([image[self.at], image[self.at + 1]]);
        let byte = u16::from(image[self.at]);
        let (value, text) = match self.form {
            Form::Byte => (byte, format!("{byte:02X}")),
            Form::Word => (word, format!("{word:04X}")),
            Form::Count => (word, format!("{word}")),
        };
        (self.rest != Some(value)).then(|| format!("{} {text}", self.name))
    }
}

// ---- Numbers of the script ------------------------------------------------

fn number<T: TryFrom<u64>>(word: &str, base: u32) -> Result<T, String> {
    u64::from_str_radix(word, base)
        .ok()
        .and_then(|number| T::try_from(number).ok())
        .ok_or_else(|| format!("{word} is no such number"))
}

/// Bytes or words in hex; `FF*256` is one of them 256 times.
fn numbers<T: TryFrom<u64> + Clone>(words: &str) -> Result<Vec<T>, String> {
    let mut numbers = Vec::new();
    for word in words.split_whitespace() {
        let (word, times) = match word.split_once('*') {
            Some((word, times)) => (word, number::<usize>(times, 10)?),
            None => (word, 1),
        };
        let value = match MOVES.iter().find(|(name, _)| *name == word) {
            Some((_, made)) => number(made, 16)?,
            None => number(word, 16)?,
        };
        numbers.resize(numbers.len() + times, value);
    }
    Ok(numbers)
}

/// The first entries of a list.
fn first<T: Clone>(list: &[T], length: &str) -> Result<Vec<T>, String> {
    let entries = list.get(..number::<usize>(length, 10)?);
    Ok(entries.ok_or("no list is that long")?.to_vec())
}

fn write<T: Clone>(list: &mut [T], at: usize, values: &[T]) -> Result<(), String> {
    list.get_mut(at..at + values.len())
        .ok_or("that is past the end")?
        .clone_from_slice(values);
    Ok(())
}

fn inputs(words: &[&str]) -> Result<(u16, u8), String> {
    Ok(match words {
        [] => (0, 0),
        ["keys", keys] => (number(keys, 16)?, 0),
        ["random", random] => (0, number(random, 16)?),
        ["keys", keys, "random", random] => (number(keys, 16)?, number(random, 16)?),
        _ => return Err("a step has keys and random".to_string()),
    })
}

// ---- The desk -------------------------------------------------------------

/// What the host holds in a case.
struct Desk {
    buffers: Vec<Buffer>,
    /// What the calls rows and bytes are lent. No machine's picture stands here.
    rows: Vec<u64>,
    /// What a salvage is lent.
    list: Vec<u16>,
    keys: Vec<u16>,
    calls: usize,
}

struct Buffer {
    name: &'static str,
    bytes: Vec<u8>,
    lent: usize,
}

/// What came of a call.
struct Made {
    refusal: u32,
    answer: Vec<u64>,
}

impl Desk {
    fn new() -> Desk {
        let buffer = |(name, size, lent)| Buffer {
            name,
            bytes: vec![0; size],
            lent,
        };
        let mut desk = Desk {
            buffers: BUFFERS.map(buffer).into(),
            rows: vec![0; ROWS + 1],
            list: vec![0; LIST + 1],
            keys: vec![0; LIST_MOST + 1],
            calls: 0,
        };
        desk.keep("image", &Machine::fresh(FIRST_EDITION, FULL_END).to_image());
        desk
    }

    fn buffer(&mut self, name: &str) -> Result<&mut Buffer, String> {
        let named = self.buffers.iter_mut().find(|buffer| buffer.name == name);
        named.ok_or_else(|| format!("there is no buffer {name}"))
    }

    /// One of the buffers of the table.
    fn known(&self, name: &str) -> &Buffer {
        let named = self.buffers.iter().find(|buffer| buffer.name == name);
        named.expect("a buffer of the table")
    }

    /// The first bytes of a buffer: as many as are lent.
    fn lent(&self, name: &str) -> &[u8] {
        let buffer = self.known(name);
        &buffer.bytes[..buffer.lent]
    }

    fn keep(&mut self, name: &str, bytes: &[u8]) {
        let buffer = self.buffer(name).expect("a buffer of the table");
        buffer.bytes[..bytes.len()].copy_from_slice(bytes);
    }

    /// Obeys one statement; a call and what is shown give a line.
    fn obey(&mut self, statement: &str) -> Result<Option<String>, String> {
        if let Some((name, value)) = statement.split_once('=') {
            self.set(name.trim(), value.trim())?;
            return Ok(None);
        }
        if let Some((place, values)) = statement.split_once(':') {
            self.write(place, values)?;
            return Ok(None);
        }
        let words: Vec<&str> = statement.split_whitespace().collect();
        let came = match words.as_slice() {
            ["lend", sizes @ ..] => {
                self.lend(sizes)?;
                return Ok(None);
            }
            ["show", name, at, count] => return self.show(name, at, count).map(Some),
            ["panel"] => self.fill("picture", "panel", check_panel)?,
            ["page"] => self.fill("image", "page", check_page)?,
            ["rows"] => self.turn_to_rows()?,
            ["bytes"] => self.turn_to_bytes()?,
            ["walk", "back", count] => self.walk(number(count, 10)?, |_| Call::Back)?,
            ["walk", "forward", count] => self.walk(number(count, 10)?, |_| Call::Forward)?,
            ["walk", count, "keys", keys] => self.walk_on(number(count, 10)?, number(keys, 16)?)?,
            ["do", word, inputs @ ..] => {
                self.put_instruction(number(word, 16)?)?;
                let step = self.step(inputs)?;
                self.call(step)?
            }
            _ => {
                let call = self.read_call(&words)?;
                self.call(call)?
            }
        };
        Ok(Some(format!("{statement}: {came}")))
    }

    fn read_call(&self, words: &[&str]) -> Result<Call, String> {
        Ok(match words {
            ["load", length] => self.read_call(&["load", length, "edition", "00"])?,
            ["load", length, "edition", edition] => {
                self.read_call(&["load", length, "edition", edition, "end", "1000"])?
            }
            ["load", length, "end", end] => {
                self.read_call(&["load", length, "edition", "00", "end", end])?
            }
            ["load", length, "edition", edition, "end", end] => Call::Load {
                program: first(&self.known("program").bytes, length)?,
                edition: number(edition, 16)?,
                end: number(end, 16)?,
            },
            ["step", inputs @ ..] => self.step(inputs)?,
            ["tick"] => Call::Tick,
            ["back"] => Call::Back,
            ["forward"] => Call::Forward,
            ["run", length] => self.read_call(&["run", length, length, length])?,
            ["run", ticks, keys, randoms] => Call::Run {
                ticks: first(&self.known("ticks").bytes, ticks)?,
                keys: first(&self.keys, keys)?,
                randoms: first(&self.known("randoms").bytes, randoms)?,
                answer_length: self.lent("answer").len(),
            },
            ["play", length] => self.read_call(&["play", length, length, length])?,
            ["play", moves, keys, randoms] => Call::Play {
                moves: first(&self.known("moves").bytes, moves)?,
                keys: first(&self.keys, keys)?,
                randoms: first(&self.known("randoms").bytes, randoms)?,
            },
            ["salvage"] => Call::Salvage {
                list: self.list[..self.known("list").lent].to_vec(),
                answer_length: self.lent("answer").len(),
            },
            _ => return Err("these words mean nothing".to_string()),
        })
    }

    fn step(&self, words: &[&str]) -> Result<Call, String> {
        let (keys, random) = inputs(words)?;
        Ok(Call::Step {
            keys,
            random,
            answer_length: self.lent("answer").len(),
        })
    }

    // ---- What is set before a call

    fn set(&mut self, name: &str, value: &str) -> Result<(), String> {
        let fields = fields();
        let field = fields.iter().find(|field| field.name == name);
        let field = field.ok_or_else(|| format!("the state has no {name}"))?;
        field.set(&mut self.buffer("image")?.bytes, value)
    }

    fn write(&mut self, place: &str, values: &str) -> Result<(), String> {
        let words: Vec<&str> = place.split_whitespace().collect();
        let (name, at) = match words.as_slice() {
            [name] => (*name, 0),
            [name, at] => (*name, number(at, 16)?),
            _ => return Err("bytes go to a buffer and an address".to_string()),
        };
        match name {
            "keys" => write(&mut self.keys, at, &numbers(values)?),
            "rows" => write(&mut self.rows, at, &numbers(values)?),
            "list" => write(&mut self.list, at, &numbers(values)?),
            "picture" => {
                write(&mut self.buffer(name)?.bytes, at, &numbers(values)?)?;
                self.count_lit()
            }
            _ => write(&mut self.buffer(name)?.bytes, at, &numbers(values)?),
        }
    }

    /// A case has a true number of lit spots, unless it sets another afterwards.
    fn count_lit(&mut self) -> Result<(), String> {
        let lit = lit_spots(&self.known("picture").bytes[..PICTURE]);
        self.set("lit", &lit.to_string())
    }

    fn lend(&mut self, sizes: &[&str]) -> Result<(), String> {
        for size in sizes.chunks(2) {
            let [name, count] = size else {
                return Err("a buffer is lent in a length".to_string());
            };
            let count = number(count, 10)?;
            let buffer = self.buffer(name)?;
            if count > buffer.bytes.len() {
                return Err(format!("there are only {} bytes", buffer.bytes.len()));
            }
            buffer.lent = count;
        }
        Ok(())
    }

    /// The instruction goes to PC, where memory has room for it.
    fn put_instruction(&mut self, word: u16) -> Result<(), String> {
        let pc = usize::from(Machine::from_image(&self.buffer("image")?.bytes[..IMAGE]).pc);
        if pc + 1 < MEMORY {
            write(&mut self.buffer("memory")?.bytes, pc, &word.to_be_bytes())?;
        }
        Ok(())
    }

    // ---- Calls

    /// Every engine makes the call on the same buffers. What came must be the same.
    fn on_every_engine(&mut self, call: Call) -> Result<Case, String> {
        self.calls += 1;
        let case = Case {
            start: self.host(),
            calls: vec![call],
        };
        for engine in ENGINES {
            check(engine, &case, &mut Tally::default()).map_err(|mismatch| {
                format!(
                    "{} is not as the second interpreter: {}",
                    engine.name(),
                    mismatch.what
                )
            })?;
        }
        Ok(case)
    }

    /// A call on the machine. The case goes on with what it left.
    fn make(&mut self, call: Call) -> Result<Made, String> {
        let mut case = self.on_every_engine(call)?;
        let call = &case.calls[0];
        let mut answer = vec![UNWRITTEN; call.answer_length()];
        let mut list = call.list().to_vec();
        let told = Told {
            answer: &mut answer,
            list: &mut list,
        };
        let refusal = make(&Second, call, call.lists(), case.start.lend(), told);
        self.list[..list.len()].copy_from_slice(&list);
        for (part, name) in PARTS {
            self.keep(name, case.start.part(*part));
        }
        Ok(Made { refusal, answer })
    }

    /// What a call is lent: of the picture as many rows as are lent.
    fn host(&self) -> Host {
        let mut host = Host::of_names(|name| self.lent(name).to_vec());
        let length = BYTES_A_ROW * self.known("rows").lent;
        host.picture = self.known("picture").bytes[..length].to_vec();
        host
    }

    fn call(&mut self, call: Call) -> Result<String, String> {
        let made = self.make(call)?;
        Ok(self.told(&made))
    }

    /// A call that reads one buffer and fills another.
    fn fill(
        &mut self,
        read: &str,
        filled: &str,
        check: fn(&[u8], &[u8]) -> Filled<u8>,
    ) -> Result<String, String> {
        self.calls += 1;
        let (refusal, bytes) = check(self.lent(read), self.lent(filled))?;
        self.keep(filled, &bytes);
        Ok(told_refusal(refusal))
    }

    fn turn_to_rows(&mut self) -> Result<String, String> {
        let (picture, mut rows) = self.both_forms();
        self.on_every_engine(Call::Rows {
            picture: picture.clone(),
            rows: rows.clone(),
        })?;
        let refusal = Second.rows(&picture, &mut rows);
        self.rows[..rows.len()].copy_from_slice(&rows);
        Ok(told_refusal(refusal))
    }

    fn turn_to_bytes(&mut self) -> Result<String, String> {
        let (mut picture, rows) = self.both_forms();
        self.on_every_engine(Call::Bytes {
            rows: rows.clone(),
            picture: picture.clone(),
        })?;
        let refusal = Second.bytes(&rows, &mut picture);
        self.keep("picture", &picture);
        self.count_lit()?;
        Ok(told_refusal(refusal))
    }

    /// What is lent of the bytes of a picture and of the buffer rows.
    fn both_forms(&self) -> (Vec<u8>, Vec<u64>) {
        let rows = &self.rows[..self.known("rows").lent];
        (self.lent("picture").to_vec(), rows.to_vec())
    }

    /// Every fifth action is a tick. Keys are down at every second, and each step
    /// has a random byte of its own.
    fn walk_on(&mut self, count: usize, keys: u16) -> Result<String, String> {
        self.walk(count, |action| match action % 5 {
            4 => Call::Tick,
            _ => Call::Step {
                keys: if action % 2 == 0 { keys } else { 0 },
                random: (7 * action) as u8,
                answer_length: ANSWER,
            },
        })
    }

    /// Many actions, up to the first that is refused.
    fn walk(&mut self, count: usize, action: impl Fn(usize) -> Call) -> Result<String, String> {
        let mut accepted = 0;
        while accepted < count {
            let made = self.make(action(accepted))?;
            if made.refusal != 0 {
                return Ok(format!("{accepted} accepted, then {}", self.told(&made)));
            }
            accepted += 1;
        }
        let made = Made {
            refusal: 0,
            answer: vec![],
        };
        Ok(format!("{accepted} accepted, {}", self.told(&made)))
    }

    // ---- What is written of them

    fn told(&self, made: &Made) -> String {
        let image = &self.known("image").bytes;
        let state: Vec<String> = fields()
            .iter()
            .filter_map(|field| field.told(image))
            .collect();
        let mut told = format!("{}, {}", told_refusal(made.refusal), state.join(" "));
        if !made.answer.is_empty() {
            let numbers: Vec<String> = made.answer.iter().map(told_number).collect();
            told += &format!(", answer {}", numbers.join(" "));
        }
        told
    }

    fn show(&mut self, name: &str, at: &str, count: &str) -> Result<String, String> {
        let (first, count) = (number::<usize>(at, 16)?, number::<usize>(count, 10)?);
        let range = first..first + count;
        let shown = match name {
            "rows" => self.rows.get(range).map(hex),
            "list" => self.list.get(range).map(hex),
            _ => self.buffer(name)?.bytes.get(range).map(hex),
        };
        Ok(format!(
            "{name} {at}: {}",
            shown.ok_or("that is past the end")?
        ))
    }
}

fn told_refusal(refusal: u32) -> String {
    match refusal {
        0 => "done".to_string(),
        _ => format!("refused {refusal}"),
    }
}

fn told_number(number: &u64) -> String {
    match *number {
        UNWRITTEN => "-".to_string(),
        _ => number.to_string(),
    }
}

// ---- The script -----------------------------------------------------------

/// What came of a script: lines, each with the line of the script it is of.
#[derive(Default)]
pub struct Report {
    pub lines: Vec<(usize, String)>,
    pub cases: usize,
    pub calls: usize,
}

/// Obeys a script. What stands before its first heading is not read. An error
/// names the line.
pub fn obey(script: &str) -> Result<Report, String> {
    let mut report = Report::default();
    let mut desk = Desk::new();
    for (at, line) in (1..).zip(script.lines()) {
        if line.starts_with("# ") {
            report.cases += 1;
            report.calls += desk.calls;
            report.lines.push((at, line.to_string()));
            desk = Desk::new();
        } else if report.cases > 0 {
            for statement in line
                .split(',')
                .map(str::trim)
                .filter(|text| !text.is_empty())
            {
                let came = desk
                    .obey(statement)
                    .map_err(|what| format!("line {at}: {statement}: {what}"))?;
                report.lines.extend(came.map(|line| (at, line)));
            }
        }
    }
    report.calls += desk.calls;
    Ok(report)
}
