//! Runs one case on an engine and on the second interpreter, side by side, and
//! compares everything after every call.

use std::fmt;

use crate::buffers::{Buffers, Host, Lent, Lists, Part, Told, PARTS};
use crate::case::{hex, wear, write_bytes, Call, Case};
use crate::engine::{Engine, Second, ACCEPTED};
use crate::guard::{Guarded, Item};
use crate::plain::{self, numbered, spots_of};
use crate::plain_list::PlainList;
use crate::rows::{bytes_of, rows_of};
use crate::second::{lit_spots, test_state, Machine, Refusal, IMAGE};
use crate::tally::Tally;
use crate::{card, dots, page};

/// Where and how the engine first differed.
#[derive(Debug)]
pub struct Mismatch {
    pub call: usize,
    pub what: String,
}

impl fmt::Display for Mismatch {
    fn fmt(&self, f: &mut fmt::Formatter) -> fmt::Result {
        write!(f, "after call {}: {}", self.call, self.what)
    }
}

/// Counts in the tally the calls that were made and found equal.
pub fn check(engine: &dyn Engine<u64>, case: &Case, tally: &mut Tally) -> Result<(), Mismatch> {
    let mut sides = Sides {
        expected: case.start.clone(),
        got: case.start.each().map(|buffer| Guarded::buffer(buffer)),
        list: PlainList::start(&case.start),
        answered: Vec::new(),
        lit_is_true: lit_is_true(&case.start),
    };
    for (number, call) in case.calls.iter().enumerate() {
        let refusal = match call {
            Call::Write { part, at, bytes } => {
                sides.write(*part, *at, bytes);
                continue;
            }
            Call::Wear { at, bit } => {
                sides.wear(*at, *bit);
                continue;
            }
            Call::Rows { picture, rows } => check_rows(engine, picture, rows).map(|came| came.0),
            Call::Bytes { rows, picture } => check_bytes(engine, rows, picture).map(|came| came.0),
            Call::Run { .. } => {
                let before = sides.expected.clone();
                sides.make(engine, call).and_then(|refusal| {
                    tally.count_plain(sides.run_plainly(&before, call, refusal)?);
                    Ok(refusal)
                })
            }
            _ => sides.make(engine, call),
        };
        let refusal = refusal.map_err(|what| Mismatch { call: number, what })?;
        tally.count(call, refusal);
        if sides.said_late(call, refusal) {
            tally.count_late(call);
        }
    }
    Ok(())
}

/// Whether an engine differs from the second interpreter somewhere in a case.
pub fn fails(engine: &dyn Engine<u64>, case: &Case) -> bool {
    check(engine, case, &mut Tally::default()).is_err()
}

/// Makes one call on a machine with these lists.
pub fn make<Item>(
    engine: &dyn Engine<Item>,
    call: &Call,
    lists: Lists,
    lent: Lent<Item>,
    told: Told,
) -> u32 {
    match call {
        Call::Load { edition, end, .. } => engine.load(lent, lists.first, *edition, *end),
        Call::Step { keys, random, .. } => engine.step(lent, *keys, *random, told.answer),
        Call::Tick => engine.tick(lent),
        Call::Back => engine.back(lent),
        Call::Forward => engine.forward(lent),
        Call::Run { .. } => engine.run(lent, lists, told.answer),
        Call::Play { .. } => engine.play(lent, lists),
        Call::Salvage { .. } => engine.salvage(lent, told),
        Call::Rows { .. } | Call::Bytes { .. } | Call::Write { .. } | Call::Wear { .. } => {
            unreachable!("no call on a machine")
        }
    }
}

/// What came of a call that reads one buffer and fills another: the refusal, and
/// what stands in the filled buffer.
pub type Filled<T> = Result<(u32, Vec<T>), String>;

/// The card's panel beside the doubling dot by dot.
pub fn check_panel(picture: &[u8], panel: &[u8]) -> Filled<u8> {
    check_filling(picture, panel, card::panel, dots::panel)
}

/// The stepper's page of variables beside the page spot by spot.
pub fn check_page(image: &[u8], before: &[u8]) -> Filled<u8> {
    check_filling(image, before, card::page, page::page)
}

/// What a run of the plain engine left.
pub struct Plain {
    pub refusal: u32,
    pub image: Vec<u8>,
    pub memory: Vec<u8>,
    pub spots: Vec<u8>,
    pub answer: Vec<u64>,
}

/// A run of the card's plain engine beside that of the second interpreter,
/// each on copies of the same buffers.
pub fn check_plain(
    [image, memory, spots]: [&[u8]; 3],
    lists: Lists,
    answer_length: usize,
) -> Result<Plain, String> {
    let lent_lists = LentLists::new(&lists);
    let mut lent = [image, memory, spots].map(Guarded::buffer);
    let mut answered = Guarded::new(&vec![UNWRITTEN; answer_length]);
    let [lent_image, lent_memory, lent_spots] = &mut lent;
    let refusal = card::plain(
        plain::Lent {
            image: lent_image.lent(),
            memory: lent_memory.lent(),
            spots: lent_spots.lent(),
        },
        lent_lists.lists(),
        answered.lent(),
    );
    lent_lists.compare(&lists)?;

    let mut left = Plain {
        refusal,
        image: image.to_vec(),
        memory: memory.to_vec(),
        spots: spots.to_vec(),
        answer: vec![UNWRITTEN; answer_length],
    };
    let expected = plain::run(
        plain::Lent {
            image: &mut left.image,
            memory: &mut left.memory,
            spots: &mut left.spots,
        },
        lists,
        &mut left.answer,
    );
    if expected != refusal {
        return Err(format!("plain: expected refusal {expected}, got {refusal}"));
    }
    compare_answer(&left.answer, &answered)?;
    compare_buffer("image of the plain engine", &left.image, &lent[0])?;
    compare_buffer("memory of the plain engine", &left.memory, &lent[1])?;
    compare_buffer("spots", &left.spots, &lent[2])?;
    Ok(left)
}

/// An engine's rows of a picture beside the second interpreter's.
pub fn check_rows(engine: &dyn Engine<u64>, picture: &[u8], before: &[u64]) -> Filled<u64> {
    check_filling(
        picture,
        before,
        |picture, rows| engine.rows(picture, rows),
        |picture, rows| Second.rows(picture, rows),
    )
}

/// An engine's bytes of rows beside the second interpreter's.
pub fn check_bytes(engine: &dyn Engine<u64>, rows: &[u64], before: &[u8]) -> Filled<u8> {
    check_filling(
        rows,
        before,
        |rows, picture| engine.bytes(rows, picture),
        |rows, picture| Second.bytes(rows, picture),
    )
}

/// Makes a call and the same of our own, on copies of the same buffers, which
/// must come out the same.
fn check_filling<R: Item, T: Item>(
    read: &[R],
    before: &[T],
    call: impl Fn(&[R], &mut [T]) -> u32,
    own: impl Fn(&[R], &mut [T]) -> u32,
) -> Filled<T> {
    let lent = Guarded::new(read);
    let mut got = Guarded::new(before);
    let mut expected = before.to_vec();
    let refusal = call(lent.contents(), got.lent());
    let right = own(read, &mut expected);
    if refusal != right {
        return Err(format!("refusal: expected {right}, got {refusal}"));
    }
    compare_list("buffer that is only read", read, &lent)?;
    compare_buffer("filled buffer", &expected, &got)?;
    Ok((refusal, expected))
}

/// What an answer holds before a call, so that each write to it is seen.
pub const UNWRITTEN: u64 = 0x5A5A_5A5A_5A5A_5A5A;

/// The second interpreter's host, what the engine under test left, and demand 3's
/// list while nobody else writes in the buffers. Both sides keep the picture as
/// bytes; the engine is lent the rows that they are.
struct Sides {
    expected: Host,
    got: Buffers<Guarded<u8>>,
    list: Option<PlainList>,
    /// What the last call answered.
    answered: Vec<u64>,
    /// Whether the number of lit spots is the picture's.
    lit_is_true: bool,
}

impl Sides {
    fn write(&mut self, part: Part, at: usize, bytes: &[u8]) {
        write_bytes(self.expected.part_mut(part), at, bytes);
        write_bytes(self.got.part_mut(part).lent(), at, bytes);
        self.list = None;
        self.lit_is_true = lit_is_true(&self.expected);
    }

    fn wear(&mut self, at: usize, bit: u8) {
        wear(&mut self.expected.history, at, bit);
        wear(self.got.history.lent(), at, bit);
        self.list = None;
    }

    /// Makes one call on both sides and compares all that it left.
    fn make(&mut self, engine: &dyn Engine<u64>, call: &Call) -> Result<u32, String> {
        let lists = call.lists();
        let lent = LentLists::new(&lists);
        let mut expected_answer = vec![UNWRITTEN; call.answer_length()];
        let mut answer = Guarded::new(&expected_answer);
        let mut expected_list = call.list().to_vec();
        let mut list = Guarded::new(&expected_list);
        let mut rows = Guarded::new(&rows_of(self.got.picture.contents()));

        let refusal = make(
            engine,
            call,
            lent.lists(),
            Lent {
                image: self.got.image.lent(),
                memory: self.got.memory.lent(),
                picture: rows.lent(),
                history: self.got.history.lent(),
            },
            Told {
                answer: answer.lent(),
                list: list.lent(),
            },
        );
        lent.compare(&lists)?;
        compare_guards("rows", &rows)?;
        let picture = bytes_of(rows.contents());
        self.got.picture.lent().copy_from_slice(&picture);
        let expected = make(
            &Second,
            call,
            lists,
            self.expected.lend(),
            Told {
                answer: &mut expected_answer,
                list: &mut expected_list,
            },
        );

        if expected != refusal {
            return Err(format!("refusal: expected {expected}, got {refusal}"));
        }
        compare_answer(&expected_answer, &answer)?;
        self.answered = expected_answer;
        compare_buffer("list", &expected_list, &list)?;
        for (part, name) in PARTS {
            compare_buffer(name, self.expected.part(*part), self.got.part(*part))?;
        }
        self.follow(call, refusal)?;
        self.look_at_lit(call, refusal)?;
        Ok(refusal)
    }

    /// the plain engine makes a run that was made, on copies of what stood
    /// before it. If the first engine took the state, both leave the same.
    fn run_plainly(&self, before: &Host, call: &Call, refusal: u32) -> Result<u32, String> {
        let spots = spots_of(&before.picture);
        let lent = [&before.image[..], &before.memory, &spots];
        let plain = check_plain(lent, call.lists(), call.answer_length())?;
        let taken = match refusal {
            9 => false,
            10 => self.said_late(call, refusal),
            _ => true,
        };
        if taken {
            let machine = Machine::from_image(&self.expected.image);
            let was = Machine::from_image(&before.image);
            let image = numbered(machine, [was.next, was.kept, was.ahead]).to_image();
            let same = plain.refusal == refusal
                && plain.answer[ACCEPTED] == self.answered[ACCEPTED]
                && plain.image == image
                && plain.memory == self.expected.memory
                && plain.spots == spots_of(&self.expected.picture);
            if !same {
                return Err("the plain engine's run is not that of the first".to_string());
            }
        }
        Ok(plain.refusal)
    }

    /// Keeps the plain list beside the calls. A load begins a new one.
    fn follow(&mut self, call: &Call, refusal: u32) -> Result<(), String> {
        if let Call::Load { .. } = call {
            self.list = PlainList::start(&self.expected);
        } else if let Some(list) = &mut self.list {
            let expected = list.make(call);
            if expected != refusal {
                return Err(format!(
                    "refusal: the plain list expects {expected}, got {refusal}"
                ));
            }
            let (image, memory, picture) = (
                self.got.image.contents(),
                self.got.memory.contents(),
                self.got.picture.contents(),
            );
            if let Some(part) = list.differs_from(image, memory, picture) {
                return Err(format!("the {part} is not that at the plain list's finger"));
            }
        }
        Ok(())
    }

    /// the number of lit spots is true after an accepted load, and every call
    /// that takes a state leaves a true one true and is not refused because of it.
    fn look_at_lit(&mut self, call: &Call, refusal: u32) -> Result<(), String> {
        let must_be_true = match call {
            Call::Load { .. } => refusal == 0,
            _ => self.lit_is_true,
        };
        self.lit_is_true = lit_is_true(&self.expected);
        if must_be_true && !self.lit_is_true {
            return Err("the number of lit spots is not the picture's".to_string());
        }
        if must_be_true && self.said_late(call, refusal) {
            return Err("a true number of lit spots was refused".to_string());
        }
        Ok(())
    }

    /// Whether a call gave 10 because of a change of the number of lit spots. The
    /// state was in order then, and still is, since what was refused left it.
    fn said_late(&self, call: &Call, refusal: u32) -> bool {
        let takes_a_state = !matches!(call, Call::Load { .. });
        takes_a_state
            && refusal == Refusal::Unsound as u32
            && test_state(
                &Machine::from_image(&self.expected.image),
                &self.expected.history,
            )
            .is_ok()
    }
}

/// Whether the number of lit spots in a host's image is that of its picture.
fn lit_is_true(host: &Host) -> bool {
    host.image.len() == IMAGE && Machine::from_image(&host.image).lit == lit_spots(&host.picture)
}

/// The lists lent to the engine under test, which no call may change.
struct LentLists {
    first: Guarded<u8>,
    keys: Guarded<u16>,
    randoms: Guarded<u8>,
}

impl LentLists {
    fn new(lists: &Lists) -> LentLists {
        LentLists {
            first: Guarded::new(lists.first),
            keys: Guarded::new(lists.keys),
            randoms: Guarded::new(lists.randoms),
        }
    }

    fn lists(&self) -> Lists<'_> {
        Lists {
            first: self.first.contents(),
            keys: self.keys.contents(),
            randoms: self.randoms.contents(),
        }
    }

    fn compare(&self, lists: &Lists) -> Result<(), String> {
        compare_list("program, ticks or moves", lists.first, &self.first)?;
        compare_list("keys", lists.keys, &self.keys)?;
        compare_list("random bytes", lists.randoms, &self.randoms)
    }
}

fn compare_guards<T: Item>(name: &str, got: &Guarded<T>) -> Result<(), String> {
    match got.guards_stand() {
        true => Ok(()),
        false => Err(format!("a write outside the {name}")),
    }
}

fn compare_list<T: Item>(name: &str, lent: &[T], got: &Guarded<T>) -> Result<(), String> {
    compare_guards(name, got)?;
    if lent != got.contents() {
        return Err(format!("a write into the {name}"));
    }
    Ok(())
}

fn compare_answer(expected: &[u64], got: &Guarded<u64>) -> Result<(), String> {
    compare_guards("answer", got)?;
    if expected != got.contents() {
        return Err(format!(
            "answer: expected {expected:X?}, got {:X?}",
            got.contents()
        ));
    }
    Ok(())
}

fn compare_buffer<T: Item>(name: &str, expected: &[T], got: &Guarded<T>) -> Result<(), String> {
    compare_guards(name, got)?;
    let contents = got.contents();
    if expected == contents {
        return Ok(());
    }
    let first = (0..expected.len())
        .find(|&at| expected[at] != contents[at])
        .expect("two equally long buffers that differ");
    let end = expected.len().min(first + 16);
    Err(format!(
        "{name} differs first at {first} ({first:04X}): expected {}, got {}",
        hex(&expected[first..end]),
        hex(&contents[first..end])
    ))
}
