//! Writes the comparison's cases, and what must come of each call by the second
//! interpreter, for an engine that cannot be linked here: the card as
//! WebAssembly, which docks/tests/replay.js calls.
//!
//! What is written is a row of records, each behind its length. Numbers have
//! four bytes, the lowest first; bytes stand behind their number. A record is
//!   0, four buffers      a case begins: image, memory, rows and history
//!   1, patches           the host itself wrote
//!   2, name, crossings,  a call, the refusal that must come and where the
//!      refusal, patches  buffers must differ afterwards
//! Crossings stand behind their number, and each is
//!   0, buffer            one of the machine's four
//!   1, size, bytes       another buffer, with the size of an element
//!   2, number
//! A patch is a buffer, where it begins, and its bytes. The buffers of a call
//! are the machine's four and then its other ones. In each the elements lie as
//! in the memory of WebAssembly, which has the low bytes first.

use std::io::{self, Write};

use crate::buffers::{Host, Lent, Part, Told, PARTS};
use crate::case::{wear, write_bytes, Call, Case};
use crate::check::{make, UNWRITTEN};
use crate::engine::{Engine, Second};
use crate::plain::{self, spots_of};
use crate::random::Random;
use crate::rows::rows_of;
use crate::{dots, page};

/// The length of a patch, unless its buffer ends before.
const PIECE: usize = 64;

/// What crosses the boundary in a call.
enum Crossing {
    Machine(Part),
    /// The next one of the call's other buffers.
    Other,
    Number(u32),
}
use Crossing::{Machine, Number, Other};

/// A buffer that is not the machine's, before a call and after it.
struct Filled {
    size: usize,
    before: Vec<u8>,
    after: Vec<u8>,
}

/// A number of which a buffer is made.
trait Element: Copy {
    fn laid(self) -> Vec<u8>;
}
impl Element for u8 {
    fn laid(self) -> Vec<u8> {
        vec![self]
    }
}
impl Element for u16 {
    fn laid(self) -> Vec<u8> {
        self.to_le_bytes().to_vec()
    }
}
impl Element for u64 {
    fn laid(self) -> Vec<u8> {
        self.to_le_bytes().to_vec()
    }
}

fn laid<T: Element>(elements: &[T]) -> Vec<u8> {
    elements.iter().flat_map(|element| element.laid()).collect()
}

fn read<T: Element>(elements: &[T]) -> Filled {
    filled(elements, elements)
}

fn filled<T: Element>(before: &[T], after: &[T]) -> Filled {
    Filled {
        size: size_of::<T>(),
        before: laid(before),
        after: laid(after),
    }
}

/// The machine's buffers as they lie in memory: its picture as rows.
fn buffers(host: &Host) -> Vec<Vec<u8>> {
    let buffer = |(part, _): &(Part, &str)| match part {
        Part::Picture => laid(&rows_of(&host.picture)),
        part => host.part(*part).clone(),
    };
    PARTS.iter().map(buffer).collect()
}

#[derive(Default)]
struct Record(Vec<u8>);

impl Record {
    fn number(&mut self, number: usize) {
        let number = u32::try_from(number).expect("numbers are small");
        self.0.extend(number.to_le_bytes());
    }

    fn bytes(&mut self, bytes: &[u8]) {
        self.number(bytes.len());
        self.0.extend(bytes);
    }

    /// The pieces of each buffer that came to differ.
    fn patches(&mut self, before: &[Vec<u8>], after: &[Vec<u8>]) {
        let mut patches = Vec::new();
        for (buffer, (before, after)) in before.iter().zip(after).enumerate() {
            let pieces = before.chunks(PIECE).zip(after.chunks(PIECE));
            for (number, (old, new)) in pieces.enumerate() {
                if old != new {
                    patches.push((buffer, PIECE * number, new));
                }
            }
        }
        self.number(patches.len());
        for (buffer, at, bytes) in patches {
            self.number(buffer);
            self.number(at);
            self.bytes(bytes);
        }
    }

    fn write(&self, out: &mut impl Write) -> io::Result<()> {
        let length = u32::try_from(self.0.len()).expect("a record is short");
        out.write_all(&length.to_le_bytes())?;
        out.write_all(&self.0)
    }
}

pub struct Recording<W: Write> {
    pub out: W,
    /// How many calls were written.
    pub calls: u64,
    host: Host,
    random: Random,
}

impl<W: Write> Recording<W> {
    pub fn new(out: W, seed: u64) -> Recording<W> {
        Recording {
            out,
            calls: 0,
            host: Host::of_names(|_| Vec::new()),
            random: Random::new(seed),
        }
    }

    pub fn write(&mut self, case: &Case) -> io::Result<()> {
        self.host = case.start.clone();
        let mut record = Record::default();
        record.number(0);
        for buffer in buffers(&self.host) {
            record.bytes(&buffer);
        }
        record.write(&mut self.out)?;
        for call in &case.calls {
            match call {
                Call::Write { .. } | Call::Wear { .. } => self.own_write(call)?,
                Call::Run { .. } => {
                    self.plain(call)?;
                    self.call(call)?;
                }
                _ => self.call(call)?,
            }
        }
        self.panel()?;
        self.page()
    }

    fn own_write(&mut self, call: &Call) -> io::Result<()> {
        let before = buffers(&self.host);
        match call {
            Call::Write { part, at, bytes } => write_bytes(self.host.part_mut(*part), *at, bytes),
            Call::Wear { at, bit } => wear(&mut self.host.history, *at, *bit),
            _ => unreachable!("a call"),
        }
        let mut record = Record::default();
        record.number(1);
        record.patches(&before, &buffers(&self.host));
        record.write(&mut self.out)
    }

    fn call(&mut self, call: &Call) -> io::Result<()> {
        let before = buffers(&self.host);
        let (refusal, others) = match call {
            Call::Rows { picture, rows } => {
                let mut after = rows.clone();
                let refusal = Second.rows(picture, &mut after);
                (refusal, vec![read(picture), filled(rows, &after)])
            }
            Call::Bytes { rows, picture } => {
                let mut after = picture.clone();
                let refusal = Second.bytes(rows, &mut after);
                (refusal, vec![read(rows), filled(picture, &after)])
            }
            _ => on_machine(call, self.host.lend()),
        };
        let (name, crossings) = crossing(call);
        self.record(name, &crossings, refusal, before, others)
    }

    /// A run, made by the plain engine on copies, with spots that are mostly those
    /// of the host's picture.
    fn plain(&mut self, call: &Call) -> io::Result<()> {
        let lists = call.lists();
        let mut spots = spots_of(&self.host.picture);
        match self.random.within(0..=15) {
            0 => spots.resize(self.near(plain::SPOTS), 0),
            1 if !spots.is_empty() => {
                let at = self.random.within(0..=spots.len() - 1);
                spots[at] = self.random.pick(&[2, 3, 128, 255]);
            }
            _ => {}
        }
        let before = [&self.host.image, &self.host.memory, &spots];
        let mut after = before.map(Vec::clone);
        let unwritten = vec![UNWRITTEN; call.answer_length()];
        let mut answer = unwritten.clone();
        let [image, memory, spots] = &mut after;
        let lent = plain::Lent {
            image,
            memory,
            spots,
        };
        let refusal = plain::run(lent, lists, &mut answer);
        let mut others: Vec<Filled> = before
            .iter()
            .zip(&after)
            .map(|(before, after)| filled(before, after))
            .collect();
        others.extend([read(lists.first), read(lists.keys), read(lists.randoms)]);
        others.push(filled(&unwritten, &answer));
        let crossings: Vec<Crossing> = others.iter().map(|_| Other).collect();
        let machine = buffers(&self.host);
        self.record("card_plain", &crossings, refusal, machine, others)
    }

    /// The picture that the host holds, as a panel.
    fn panel(&mut self) -> io::Result<()> {
        let length = self.near(1024);
        let before = self.random.bytes(length);
        let mut after = before.clone();
        let refusal = dots::panel(&self.host.picture, &mut after);
        let others = vec![read(&self.host.picture), filled(&before, &after)];
        let machine = buffers(&self.host);
        self.record("card_panel", &[Other, Other], refusal, machine, others)
    }

    /// Mostly the right length, and else one beside it.
    fn near(&self, length: usize) -> usize {
        match self.random.once_in(8) {
            true => self.random.pick(&[length - 1, length + 1]),
            false => length,
        }
    }

    /// The variables that the host holds, as a page.
    fn page(&mut self) -> io::Result<()> {
        let length = self.near(256);
        let before = self.random.bytes(length);
        let mut after = before.clone();
        let refusal = page::page(&self.host.image, &mut after);
        let others = vec![read(&self.host.image), filled(&before, &after)];
        let machine = buffers(&self.host);
        self.record("card_page", &[Other, Other], refusal, machine, others)
    }

    fn record(
        &mut self,
        name: &str,
        crossings: &[Crossing],
        refusal: u32,
        mut before: Vec<Vec<u8>>,
        others: Vec<Filled>,
    ) -> io::Result<()> {
        let mut record = Record::default();
        record.number(2);
        record.bytes(name.as_bytes());
        record.number(crossings.len());
        let mut rest = others.iter();
        for crossing in crossings {
            match crossing {
                Machine(part) => {
                    record.number(0);
                    record.number(*part as usize);
                }
                Other => {
                    let other = rest.next().expect("as many as cross");
                    record.number(1);
                    record.number(other.size);
                    record.bytes(&other.before);
                }
                Number(number) => {
                    record.number(2);
                    record.number(*number as usize);
                }
            }
        }
        record.number(refusal as usize);
        let mut after = buffers(&self.host);
        for other in others {
            before.push(other.before);
            after.push(other.after);
        }
        record.patches(&before, &after);
        self.calls += 1;
        record.write(&mut self.out)
    }
}

/// Makes a call on a machine. What comes is the refusal, and the call's other
/// buffers in the order in which they cross.
fn on_machine(call: &Call, lent: Lent<u8>) -> (u32, Vec<Filled>) {
    let lists = call.lists();
    let before = vec![UNWRITTEN; call.answer_length()];
    let mut answer = before.clone();
    let mut list = call.list().to_vec();
    let told = Told {
        answer: &mut answer,
        list: &mut list,
    };
    let refusal = make(&Second, call, lists, lent, told);
    let all = || vec![read(lists.first), read(lists.keys), read(lists.randoms)];
    let answered = || filled(&before, &answer);
    let others = match call {
        Call::Load { .. } => vec![read(lists.first)],
        Call::Step { .. } => vec![answered()],
        Call::Run { .. } => all().into_iter().chain([answered()]).collect(),
        Call::Play { .. } => all(),
        Call::Salvage { list: before, .. } => vec![filled(before, &list), answered()],
        _ => vec![],
    };
    (refusal, others)
}

/// A call's name and what crosses, in the order of include/card.h.
fn crossing(call: &Call) -> (&'static str, Vec<Crossing>) {
    let machine = || PARTS.iter().map(|(part, _)| Machine(*part));
    match call {
        Call::Load { edition, end, .. } => {
            let numbers = [Number(u32::from(*edition)), Number(u32::from(*end))];
            let first = [Other].into_iter().chain(numbers);
            ("card_load", first.chain(machine()).collect())
        }
        Call::Step { keys, random, .. } => {
            let rest = [Number(u32::from(*keys)), Number(u32::from(*random)), Other];
            ("card_step", machine().chain(rest).collect())
        }
        Call::Tick => (
            "card_tick",
            vec![Machine(Part::Image), Machine(Part::History)],
        ),
        Call::Back => ("card_back", machine().collect()),
        Call::Forward => ("card_forward", machine().collect()),
        Call::Run { .. } => {
            let rest = [Other, Other, Other, Other];
            ("card_run", machine().chain(rest).collect())
        }
        Call::Play { .. } => {
            let rest = [Other, Other, Other];
            ("card_play", machine().chain(rest).collect())
        }
        Call::Salvage { .. } => {
            let all = [Machine(Part::Image), Machine(Part::History), Other, Other];
            ("card_salvage", all.into())
        }
        Call::Rows { .. } => ("card_rows", vec![Other, Other]),
        Call::Bytes { .. } => ("card_bytes", vec![Other, Other]),
        Call::Write { .. } | Call::Wear { .. } => unreachable!("no call"),
    }
}
