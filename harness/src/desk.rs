//! The programs of the measurements, and a loaded machine with an engine and its
//! lists.

use crate::buffers::{Lent, Lists};
use crate::card;
use crate::engine::{Engine, ACCEPTED, ANSWER};
use crate::plain;
use crate::second::{FIRST_EDITION, FULL_END, IMAGE, LIST_MOST, MEMORY, ROWS, SECOND_EDITION};

pub struct Program {
    pub name: &'static str,
    edition: u8,
    code: Code,
}

enum Code {
    /// A loop of our own, with no key down and no tick.
    Loop(&'static [u16]),
    /// A file, with a tick every tenth entry and the keys 4 and 6 down in turn.
    File(&'static [u8]),
}

/// Endless loops of our own, in which no step is ever refused.
pub const PROGRAMS: [Program; 6] = [
    Program {
        name: "arithmetic",
        edition: FIRST_EDITION,
        code: Code::Loop(&[
            0x6001, 0x7103, 0x8014, 0x8125, 0x8231, 0x8302, 0x3400, 0x7405, 0xC5FF, 0x9570, 0x8750,
            0x1200,
        ]),
    },
    Program {
        name: "second edition",
        edition: SECOND_EDITION,
        code: Code::Loop(&[
            0x60A5, 0x8106, 0x8213, 0x8327, 0x843E, 0x8046, 0x8533, 0x8607, 0x876E, 0x7601, 0x1202,
        ]),
    },
    Program {
        name: "drawing",
        edition: FIRST_EDITION,
        code: Code::Loop(&[
            0xA000, 0xDAB5, 0x7A07, 0xDAB8, 0x7B05, 0xDABF, 0xDBA5, 0xDBAA, 0x1202,
        ]),
    },
    Program {
        name: "clearing",
        edition: FIRST_EDITION,
        code: Code::Loop(&[
            0x00E0, 0x6008, 0x610C, 0xA000, 0xD015, 0x7006, 0xA005, 0xD015, 0x7006, 0xA00A, 0xD015,
            0x1200,
        ]),
    },
    Program {
        name: "store and fetch",
        edition: FIRST_EDITION,
        code: Code::Loop(&[
            0xA600, 0xF755, 0xFF65, 0xFF55, 0xF733, 0xF365, 0x7A01, 0x1200,
        ]),
    },
    Program {
        name: "calls",
        edition: FIRST_EDITION,
        code: Code::Loop(&[
            0x2204, 0x1200, 0x2208, 0x00EE, 0x220C, 0x00EE, 0x7001, 0x00EE,
        ]),
    },
];

/// Programs of the folder programs that go on for ever, and in which no step is ever
/// refused.
pub const PLAYED: [Program; 3] = [
    Program {
        name: "digits",
        edition: FIRST_EDITION,
        code: Code::File(include_bytes!("../../programs/digits.ch8")),
    },
    Program {
        name: "mover",
        edition: FIRST_EDITION,
        code: Code::File(include_bytes!("../../programs/mover.ch8")),
    },
    Program {
        name: "squash",
        edition: FIRST_EDITION,
        code: Code::File(include_bytes!("../../programs/squash.ch8")),
    },
];

impl Program {
    fn bytes(&self) -> Vec<u8> {
        match self.code {
            Code::Loop(words) => words.iter().flat_map(|word| word.to_be_bytes()).collect(),
            Code::File(bytes) => bytes.to_vec(),
        }
    }

    fn ticks_at(&self, entry: usize) -> u8 {
        match self.code {
            Code::Loop(_) => 0,
            Code::File(_) => (entry % 10 == 0).into(),
        }
    }

    fn keys_at(&self, entry: usize) -> u16 {
        match self.code {
            Code::Loop(_) => 0,
            Code::File(_) => [1 << 4, 1 << 6][entry / 256 % 2],
        }
    }
}

/// What a host holds that works on rows.
struct Host {
    image: Vec<u8>,
    memory: Vec<u8>,
    rows: Vec<u64>,
    history: Vec<u8>,
}

impl Host {
    fn lend(&mut self) -> Lent<'_, u64> {
        Lent {
            image: &mut self.image,
            memory: &mut self.memory,
            picture: &mut self.rows,
            history: &mut self.history,
        }
    }
}

/// A loaded machine with an engine and its lists.
pub struct Desk<'a, E> {
    engine: &'a E,
    host: Host,
    ticks: Vec<u8>,
    keys: Vec<u16>,
    randoms: Vec<u8>,
}

impl<E: Engine<u64>> Desk<'_, E> {
    pub fn new<'a>(program: &Program, history_length: usize, engine: &'a E) -> Desk<'a, E> {
        let mut desk = Desk {
            engine,
            host: Host {
                image: vec![0; IMAGE],
                memory: vec![0; MEMORY],
                rows: vec![0; ROWS],
                history: vec![0; history_length],
            },
            ticks: (0..LIST_MOST)
                .map(|entry| program.ticks_at(entry))
                .collect(),
            keys: (0..LIST_MOST).map(|entry| program.keys_at(entry)).collect(),
            randoms: (0..LIST_MOST).map(|entry| entry as u8).collect(),
        };
        let bytes = program.bytes();
        let refusal = engine.load(desk.host.lend(), &bytes, program.edition, FULL_END);
        assert_eq!(refusal, 0, "a program of the measurements is loaded");
        desk
    }

    pub fn run(&mut self) {
        let mut answer = [0; ANSWER];
        let lists = Lists {
            first: &self.ticks,
            keys: &self.keys,
            randoms: &self.randoms,
        };
        let refusal = self.engine.run(self.host.lend(), lists, &mut answer);
        assert_eq!((refusal, answer[ACCEPTED]), (0, LIST_MOST as u64));
    }

    pub fn run_plainly(&mut self, spots: &mut [u8]) {
        let mut answer = [0; ANSWER];
        let lists = Lists {
            first: &self.ticks,
            keys: &self.keys,
            randoms: &self.randoms,
        };
        let lent = plain::Lent {
            image: &mut self.host.image,
            memory: &mut self.host.memory,
            spots,
        };
        let refusal = card::plain(lent, lists, &mut answer);
        assert_eq!((refusal, answer[ACCEPTED]), (0, LIST_MOST as u64));
    }

    /// Goes back over every record that is kept, a call each, and answers how many.
    pub fn backs(&mut self) -> usize {
        let mut made = 0;
        while self.engine.back(self.host.lend()) == 0 {
            made += 1;
        }
        made
    }

    /// Goes forward over all that is ahead, a call each, and answers how many.
    pub fn forwards(&mut self) -> usize {
        let mut made = 0;
        while self.engine.forward(self.host.lend()) == 0 {
            made += 1;
        }
        made
    }

    pub fn steps(&mut self) {
        let mut answer = [0; ANSWER];
        for entry in 0..LIST_MOST {
            let (keys, random) = (self.keys[entry], self.randoms[entry]);
            let refusal = self
                .engine
                .step(self.host.lend(), keys, random, &mut answer);
            assert_eq!((refusal, answer[ACCEPTED]), (0, 1));
        }
    }
}
