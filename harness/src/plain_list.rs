//! Demand 3's plain list of states, with a finger. A back moves the finger down
//! and strikes nothing, a forward moves it up. Each new step or tick that is
//! accepted strikes what stands above the finger and adds there the state that
//! the rules define, with the finger on it. The machine always equals the state
//! at the finger.

use std::collections::VecDeque;

use crate::buffers::Host;
use crate::case::Call;
use crate::engine::ANSWER;
use crate::second::{
    self, Lent, Machine, Refusal, IMAGE, LIST_MOST, MEMORY, MOVE_BACK, MOVE_FORWARD, MOVE_STEP,
    MOVE_TICK, PICTURE, PLACE,
};

pub struct PlainList {
    places: usize,
    /// States older than the places reach are left out; no back gets there.
    states: VecDeque<State>,
    /// Which of them it is on. So kept is how many stand below it, and ahead how
    /// many above it.
    finger: usize,
}

#[derive(Clone)]
struct State {
    /// Its next, kept and ahead are not used: the list has its own counts. Its
    /// number of lit spots may even be false: what an action adds to it, the back
    /// over that action takes away again.
    machine: Machine,
    memory: Vec<u8>,
    picture: Vec<u8>,
}

impl State {
    /// Makes an action with a history of one place, which is thrown away. So
    /// no history has a part in what the list holds.
    fn after(
        &self,
        action: impl FnOnce(&mut Machine, &mut Lent) -> Result<(), Refusal>,
    ) -> Result<State, Refusal> {
        let mut state = self.clone();
        let mut lent = Lent {
            memory: &mut state.memory,
            picture: &mut state.picture,
            history: &mut [0; PLACE],
        };
        action(&mut state.machine, &mut lent)?;
        forget_numbers(&mut state.machine);
        Ok(state)
    }
}

impl PlainList {
    /// A list begins with a sound state, right sizes and an empty history.
    pub fn start(host: &Host) -> Option<PlainList> {
        let sizes = host.image.len() == IMAGE
            && host.memory.len() == MEMORY
            && host.picture.len() == PICTURE
            && (PLACE..=second::HISTORY_MOST).contains(&host.history.len());
        if !sizes {
            return None;
        }
        let mut machine = Machine::from_image(&host.image);
        let places = second::places(&host.history);
        let empty = machine.kept == 0 && machine.ahead == 0;
        if !machine.is_sound() || usize::from(machine.next) >= places || !empty {
            return None;
        }
        forget_numbers(&mut machine);
        let first = State {
            machine,
            memory: host.memory.clone(),
            picture: host.picture.clone(),
        };
        Some(PlainList {
            places,
            states: VecDeque::from([first]),
            finger: 0,
        })
    }

    /// Makes a call on the list and answers the refusal it must give.
    pub fn make(&mut self, call: &Call) -> u32 {
        match call {
            Call::Step {
                keys,
                random,
                answer_length,
            } => match *answer_length {
                ANSWER => self.step(*keys, *random),
                _ => Refusal::Length as u32,
            },
            Call::Tick => self.tick(),
            Call::Back => self.back(),
            Call::Forward => self.forward(),
            Call::Run {
                ticks,
                keys,
                randoms,
                answer_length,
            } => {
                if *answer_length != ANSWER || !fit(ticks, keys, randoms) {
                    return Refusal::Length as u32;
                }
                for entry in 0..ticks.len() {
                    for _ in 0..ticks[entry] {
                        self.tick();
                    }
                    let refusal = self.step(keys[entry], randoms[entry]);
                    if refusal != 0 {
                        return refusal;
                    }
                }
                0
            }
            Call::Play {
                moves,
                keys,
                randoms,
            } => {
                if !fit(moves, keys, randoms) || moves.iter().any(|&m| m > MOVE_FORWARD) {
                    return Refusal::Length as u32;
                }
                let mut refusal = 0;
                for entry in 0..moves.len() {
                    refusal = match moves[entry] {
                        MOVE_STEP => self.step(keys[entry], randoms[entry]),
                        MOVE_TICK => self.tick(),
                        MOVE_BACK => self.back(),
                        _ => self.forward(),
                    };
                }
                refusal
            }
            Call::Salvage {
                list,
                answer_length,
            } => {
                if *answer_length != ANSWER || list.len() < 2 * self.places {
                    return Refusal::Length as u32;
                }
                // Nothing has worn, so only what is ahead goes.
                self.states.truncate(self.finger + 1);
                0
            }
            Call::Load { .. } | Call::Write { .. } | Call::Wear { .. } => {
                unreachable!("each ends a list")
            }
            Call::Rows { .. } | Call::Bytes { .. } => unreachable!("no call on a machine"),
        }
    }

    fn step(&mut self, keys: u16, random: u8) -> u32 {
        let stepped = self
            .at_finger()
            .after(|machine, lent| second::step(machine, lent, keys, random).map(drop));
        self.add(stepped)
    }

    fn tick(&mut self) -> u32 {
        let ticked = self
            .at_finger()
            .after(|machine, lent| second::tick(machine, lent.history));
        self.add(ticked)
    }

    fn back(&mut self) -> u32 {
        if self.kept() == 0 {
            return Refusal::NothingKept as u32;
        }
        self.finger -= 1;
        0
    }

    fn forward(&mut self) -> u32 {
        if self.ahead() == 0 {
            return Refusal::NothingAhead as u32;
        }
        self.finger += 1;
        0
    }

    fn at_finger(&self) -> &State {
        &self.states[self.finger]
    }

    fn kept(&self) -> usize {
        self.finger
    }

    fn ahead(&self) -> usize {
        self.states.len() - 1 - self.finger
    }

    fn add(&mut self, state: Result<State, Refusal>) -> u32 {
        match state {
            Err(refusal) => refusal as u32,
            Ok(state) => {
                self.states.truncate(self.finger + 1);
                self.states.push_back(state);
                if self.states.len() > self.places + 1 {
                    self.states.pop_front();
                }
                self.finger = self.states.len() - 1;
                0
            }
        }
    }

    /// What of the machine does not equal the state at the finger, if anything.
    pub fn differs_from(
        &self,
        image: &[u8],
        memory: &[u8],
        picture: &[u8],
    ) -> Option<&'static str> {
        let state = self.at_finger();
        let mut machine = Machine::from_image(image);
        let (kept, ahead) = (usize::from(machine.kept), usize::from(machine.ahead));
        forget_numbers(&mut machine);
        if machine != state.machine {
            Some("state")
        } else if memory != state.memory {
            Some("memory")
        } else if picture != state.picture {
            Some("picture")
        } else if kept != self.kept() {
            Some("kept number")
        } else if ahead != self.ahead() {
            Some("ahead number")
        } else {
            None
        }
    }
}

fn forget_numbers(machine: &mut Machine) {
    (machine.next, machine.kept, machine.ahead) = (0, 0, 0);
}

fn fit(first: &[u8], keys: &[u16], randoms: &[u8]) -> bool {
    first.len() <= LIST_MOST && keys.len() == first.len() && randoms.len() == first.len()
}
