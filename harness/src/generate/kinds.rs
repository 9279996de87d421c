//! The kinds of cases.

use super::{calls, hosts, instructions, programs, records};
use crate::buffers::{Host, Part};
use crate::case::{write_bytes, Call, Case};
use crate::random::Random;
use crate::second::{
    places, Machine, FIRST_EDITION, FULL_END, HISTORY_MOST, LIST_MOST, MEMORY, MOVE_BACK,
    MOVE_FORWARD, MOVE_STEP, PICTURE, PLACE, START,
};

/// A new machine for a picture, and an instruction to stand at its PC, with
/// operands at the edges.
fn before_an_instruction(places: usize, picture: &[u8], random: &Random) -> (Machine, u16) {
    let mut machine = hosts::machine(places, picture, random);
    let word = match random.within(0..=5) {
        0 | 1 => instructions::using_memory(random),
        2 => instructions::using_the_flag(machine.edition, random),
        _ => instructions::any(machine.edition, random),
    };
    machine.i = instructions::i_for(word, machine.end, random);
    if word >> 12 == 0xD && random.once_in(2) {
        machine.lit = hosts::lit_near_a_limit(usize::from(word & 15), random);
    }
    instructions::bring_near(word, &mut machine.v, random);
    hosts::set_reach(&mut machine, places, random);
    (machine, word)
}

/// Again and again a new machine and picture and an instruction at PC; then a
/// step, and sometimes the way back and forward again.
pub fn one_instruction_at_a_time(random: &Random) -> Case {
    let start = hosts::sound(random);
    let places = places(&start.history);
    let mut made = Vec::new();
    for _ in 0..random.within(1..=24) {
        let picture = hosts::picture(random);
        let (machine, word) = before_an_instruction(places, &picture, random);
        made.push(calls::write_picture(picture));
        made.push(calls::write_memory(machine.pc, word));
        made.push(calls::write_image(&machine));
        made.push(match random.within(0..=5) {
            0 => calls::run(random.within(0..=4), random),
            1 => calls::play(random.within(0..=4), random),
            _ => calls::step(random),
        });
        made.extend(calls::to_and_fro(3, random));
    }
    Case { start, calls: made }
}

/// A back onto a record that is whole, barely whole or damaged.
pub fn back_onto_a_record(random: &Random) -> Case {
    let start = hosts::sound(random);
    let places = places(&start.history);
    let mut made = Vec::new();
    for _ in 0..random.within(1..=12) {
        let picture = hosts::picture(random);
        let mut machine = hosts::machine(places, &picture, random);
        hosts::set_reach(&mut machine, places, random);
        if machine.kept == 0 {
            (machine.kept, machine.ahead) = (1, 0);
        }
        let mut record = records::whole(machine.end, machine.depth, random);
        if record.starts_with(b"DI") && random.once_in(2) {
            machine.lit = hosts::lit_near_a_limit(records::count(&record), random);
        }
        for _ in 0..random.within(0..=2) {
            records::spoil(&mut record, machine.end, machine.depth, random);
        }
        let before_next = (usize::from(machine.next) + places - 1) % places;
        made.push(calls::write_picture(picture));
        made.push(Call::Write {
            part: Part::History,
            at: PLACE * before_next,
            bytes: record,
        });
        made.push(calls::write_image(&machine));
        made.push(match random.within(0..=3) {
            0 => calls::play(random.within(1..=3), random),
            _ => Call::Back,
        });
        if random.once_in(3) {
            made.push(Call::Forward);
        }
        if random.once_in(3) {
            made.push(calls::any(random));
        }
    }
    Case { start, calls: made }
}

/// A forward onto a record of any hand: a step with inputs of its own, a tick, or
/// neither. What is made again is the instruction that stands at PC now.
pub fn forward_onto_a_record(random: &Random) -> Case {
    let start = hosts::sound(random);
    let places = places(&start.history);
    let mut made = Vec::new();
    for _ in 0..random.within(1..=12) {
        let picture = hosts::picture(random);
        let (mut machine, word) = before_an_instruction(places, &picture, random);
        if machine.ahead == 0 && !random.once_in(8) {
            machine.ahead = 1;
            machine.kept = machine.kept.min(places as u16 - 1);
        }
        let mut record = records::whole(machine.end, machine.depth, random);
        for _ in 0..random.within(0..=2) {
            records::spoil(&mut record, machine.end, machine.depth, random);
        }
        made.push(calls::write_picture(picture));
        made.push(Call::Write {
            part: Part::History,
            at: PLACE * usize::from(machine.next),
            bytes: record,
        });
        made.push(calls::write_memory(machine.pc, word));
        made.push(calls::write_image(&machine));
        made.push(match random.within(0..=3) {
            0 => calls::play(random.within(1..=3), random),
            _ => Call::Forward,
        });
        made.extend(calls::to_and_fro(2, random));
    }
    Case { start, calls: made }
}

/// States that are unsound, or numbers that are out of range, before any call.
pub fn unsound(random: &Random) -> Case {
    let mut start = hosts::sound(random);
    let places = places(&start.history);
    let mut made = Vec::new();
    for _ in 0..random.within(1..=8) {
        let machine = hosts::machine(places, &start.picture, random);
        let mut image = machine.to_image();
        hosts::spoil_image(&mut image, places, random);
        made.push(Call::Write {
            part: Part::Image,
            at: 0,
            bytes: image.to_vec(),
        });
        made.push(calls::any(random));
    }
    if random.once_in(4) {
        hosts::spoil_lengths(&mut start, random);
    }
    Case { start, calls: made }
}

/// Buffers around every limit; sometimes more than one thing is wrong at once,
/// which shows the order of the refusals.
pub fn wrong_lengths(random: &Random) -> Case {
    let mut start = hosts::sound(random);
    if random.once_in(4) {
        let places = places(&start.history);
        hosts::spoil_image(&mut start.image, places, random);
    }
    for _ in 0..random.pick(&[1, 1, 1, 2, 3]) {
        hosts::spoil_lengths(&mut start, random);
    }
    let made = (0..random.within(2..=8))
        .map(|_| calls::any(random))
        .collect();
    Case { start, calls: made }
}

/// Loads onto buffers full of other things, and a few calls after them.
pub fn loads(random: &Random) -> Case {
    let start = hosts::sound(random);
    let mut made = Vec::new();
    for _ in 0..random.within(1..=3) {
        made.push(calls::load(random));
        for _ in 0..random.within(0..=6) {
            made.push(calls::any(random));
        }
    }
    Case { start, calls: made }
}

/// Turnings between bytes and rows, beside a machine that they leave.
pub fn turnings(random: &Random) -> Case {
    let made = (0..random.within(1..=8))
        .map(|_| match random.once_in(4) {
            true => calls::any(random),
            false => calls::turning(random),
        })
        .collect();
    Case {
        start: hosts::sound(random),
        calls: made,
    }
}

/// FX0A after FX0A, while few keys go up and down.
pub fn key_waits(random: &Random) -> Case {
    let mut start = hosts::sound(random);
    let mut machine = hosts::machine(places(&start.history), &start.picture, random);
    machine.pc = START;
    for at in 0..20 {
        let x = u16::from(random.byte() & 15) << 8;
        let word = match random.within(0..=3) {
            0 => instructions::listed(machine.edition, random),
            _ => 0xF00A | x,
        };
        let at = usize::from(START) + 2 * at;
        write_bytes(&mut start.memory, at, &word.to_be_bytes());
    }
    start.image = machine.to_image().to_vec();
    let few = [0, 1 << random.within(0..=15), 1 << random.within(0..=15)];
    let made = (0..random.within(10..=60))
        .map(|_| match random.within(0..=11) {
            0 | 1 => Call::Back,
            2 => Call::Forward,
            3 => Call::Tick,
            4 => calls::run(random.within(1..=4), random),
            _ => Call::Step {
                keys: random.pick(&few) | random.pick(&few),
                random: random.byte(),
                answer_length: 4,
            },
        })
        .collect();
    Case { start, calls: made }
}

/// Calls past depth 12 and returns past depth 0, and all the way back.
pub fn deep_calls(random: &Random) -> Case {
    let mut start = hosts::sound(random);
    let mut machine = hosts::machine(places(&start.history), &start.picture, random);
    machine.pc = START;
    hosts::set_depth(&mut machine, random);
    start.image = machine.to_image().to_vec();
    for at in (0..MEMORY).step_by(2) {
        let word = match random.within(0..=4) {
            0 | 1 => 0x2000 | random.word() % machine.end & 0x0FFE,
            2 | 3 => 0x00EE,
            _ => 0x6000 | random.word() & 0x0FFF,
        };
        write_bytes(&mut start.memory, at, &word.to_be_bytes());
    }
    let made = walk(40, places(&start.history), random);
    Case { start, calls: made }
}

/// A long sequence of calls on a program that runs for long.
pub fn walk_of_a_program(random: &Random) -> Case {
    let mut made = vec![load_of_a_ring(random)];
    let start = empty_host(hosts::walk_history_length(random));
    let most = random.pick(&[60, 200, 200, 1000]);
    made.extend(walk(most, places(&start.history), random));
    Case { start, calls: made }
}

/// The same on a program of any instructions, from any sound state.
pub fn walk_of_wild_bytes(random: &Random) -> Case {
    let mut start = hosts::sound(random);
    let machine = Machine {
        pc: START,
        ..Machine::from_image(&start.image)
    };
    let program = programs::wild(machine.edition, random);
    start.image = machine.to_image().to_vec();
    write_bytes(&mut start.memory, usize::from(START), &program);
    let made = walk(100, places(&start.history), random);
    Case { start, calls: made }
}

/// A program that runs for long, while the host writes a number of lit spots near
/// a limit now and then. So drawings are refused in the middle of runs and plays.
pub fn false_numbers(random: &Random) -> Case {
    let mut made = vec![load_of_a_ring(random)];
    for _ in 0..random.within(4..=20) {
        match random.within(0..=5) {
            0 | 1 => {
                let lit = hosts::lit_near_a_limit(random.within(1..=15), random);
                made.push(calls::write_lit(lit));
            }
            2 | 3 => made.push(calls::run(random.within(1..=40), random)),
            4 => made.push(calls::play(random.within(1..=40), random)),
            _ => made.extend(calls::to_and_fro(6, random)),
        }
    }
    Case {
        start: empty_host(hosts::walk_history_length(random)),
        calls: made,
    }
}

/// A program runs, single bits of the history wear out, and it is salvaged: once,
/// once more on what that gave, and as far back as it goes.
pub fn worn_history(random: &Random) -> Case {
    let length = PLACE * random.pick(&[1, 2, 3, 5, 8, 13, 40]) + random.pick(&[0, 0, 1, 291]);
    let start = empty_host(length);
    let places = places(&start.history);
    let mut made = vec![load_of_a_ring(random)];
    for _ in 0..random.within(1..=4) {
        made.push(calls::run(random.within(1..=2 * places), random));
        made.extend(calls::to_and_fro(places, random));
        for _ in 0..random.pick(&[0, 1, 1, 1, 1, 2, 4]) {
            made.push(calls::wear(places, random));
        }
        made.extend(salvaged(places, random));
    }
    Case { start, calls: made }
}

/// Records of any hand in every place, each fitting the next newer one or nearly
/// so, and numbers of any reach; then the same.
pub fn planted_history(random: &Random) -> Case {
    let start = hosts::sound(random);
    let places = places(&start.history);
    let mut made = Vec::new();
    for _ in 0..random.within(1..=4) {
        let mut machine = hosts::machine(places, &start.picture, random);
        hosts::set_reach(&mut machine, places, random);
        let mut depth = machine.depth;
        for back in 1..=places {
            let mut record = records::whole(machine.end, depth, random);
            if random.once_in(places + 1) {
                records::spoil(&mut record, machine.end, depth, random);
            }
            depth = record[22].min(12);
            made.push(Call::Write {
                part: Part::History,
                at: PLACE * ((usize::from(machine.next) + places - back) % places),
                bytes: record,
            });
        }
        made.push(calls::write_image(&machine));
        made.extend(salvaged(places, random));
    }
    Case { start, calls: made }
}

/// A salvage, a second one on what it gave, and more backs than it can have kept.
fn salvaged(places: usize, random: &Random) -> Vec<Call> {
    let mut made = vec![
        calls::salvage(places, random),
        calls::salvage(places, random),
    ];
    if random.once_in(2) {
        made.extend(std::iter::repeat_n(Call::Back, places + 1));
        made.push(Call::Forward);
    }
    made
}

/// A program that runs for long, in the edition and the memory that it is written
/// for.
fn load_of_a_ring(random: &Random) -> Call {
    let edition = hosts::edition(random);
    let end = hosts::end(random);
    Call::Load {
        program: programs::ring(edition, end, random),
        edition,
        end,
    }
}

/// Steps, ticks, runs and plays, with backs in rows now and then, sometimes as
/// far as the places reach and once more, and forwards after them.
fn walk(most: usize, places: usize, random: &Random) -> Vec<Call> {
    let mut made = Vec::new();
    let length = random.within(10..=most);
    while made.len() < length {
        match random.within(0..=30) {
            0..=3 => made.push(Call::Tick),
            4..=6 => made.push(Call::Back),
            7 => {
                let row = random.pick(&[2, 3, 5, 20, places, places + 1]);
                made.extend(std::iter::repeat_n(Call::Back, row));
                let again = random.pick(&[0, 1, row - 1, row, row + 1]).min(places + 1);
                made.extend(std::iter::repeat_n(Call::Forward, again));
            }
            8 => made.extend(calls::to_and_fro(8, random)),
            9 => made.push(calls::run(random.within(0..=12), random)),
            10 => made.push(calls::play(random.within(0..=12), random)),
            11 => made.push(Call::Forward),
            12 if random.once_in(8) => {
                let mut call = calls::run(random.within(0..=4), random);
                calls::spoil_lists(&mut call, random);
                made.push(call);
            }
            13 if random.once_in(8) => made.push(calls::salvage(places, random)),
            _ => made.push(calls::step(random)),
        }
    }
    made
}

/// Lists of a few dozen entries, on histories that come round in them.
pub fn short_lists(random: &Random) -> Case {
    let mut made = vec![load_of_a_ring(random)];
    for _ in 0..random.within(1..=6) {
        let entries = random.within(1..=80);
        made.push(calls::run(entries, random));
        made.push(calls::play(entries, random));
    }
    Case {
        start: empty_host(hosts::walk_history_length(random)),
        calls: made,
    }
}

/// Lists up to the limit, and now and then runs with many ticks.
pub fn long_lists(random: &Random) -> Case {
    let start = empty_host(match random.once_in(3) {
        true => HISTORY_MOST,
        false => hosts::walk_history_length(random),
    });
    let mut made = vec![load_of_a_ring(random)];
    let entries = random.pick(&[LIST_MOST - 1, LIST_MOST, random.within(100..=900)]);
    let mut run = calls::run(entries, random);
    if let Call::Run { ticks, .. } = &mut run {
        let at = random.within(0..=ticks.len() - 1);
        ticks[at] = random.pick(&[0, 3, 254, 255]);
    }
    made.push(run);
    made.push(calls::play(entries, random));
    let reach = places(&start.history);
    for end in [MOVE_BACK, MOVE_FORWARD] {
        let mut all_the_way = calls::play(reach + 1, random);
        if let Call::Play { moves, .. } = &mut all_the_way {
            moves.fill(end);
            moves[reach] = random.pick(&[end, end, MOVE_STEP]);
        }
        made.push(all_the_way);
    }
    made.extend(walk(20, 2, random));
    Case { start, calls: made }
}

fn empty_host(history_length: usize) -> Host {
    Host {
        image: Machine::fresh(FIRST_EDITION, FULL_END).to_image().to_vec(),
        memory: vec![0; MEMORY],
        picture: vec![0; PICTURE],
        history: vec![0; history_length],
    }
}
