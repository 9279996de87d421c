//! Steps a second of the card's archive, beside the hand-tuned engine and
//! beside the floor: only clearing the 292 bytes of each action's record. Then steps
//! back and forward a second, bytes a second of the panel, beside copying as many
//! bytes, and steps a second of the plain engine.
//!
//! Everything is measured in turns, and in several rounds over all programs. So
//! what else the computer does, or another that shares its processor, meets all of
//! them alike, and a busy second spoils no program's best.

use std::fmt;
use std::hint::black_box;
use std::time::{Duration, Instant};

use harness::card::{self, Archive};
use harness::desk::{Desk, Program, PLAYED, PROGRAMS};
use harness::dots::PANEL;
use harness::engine::Engine;
use harness::plain::SPOTS;
use harness::second::{HISTORY_MOST, LIST_MOST, PICTURE, PLACE};
use harness::tuned::Tuned;

const ROUNDS: usize = 8;
const TURNS: usize = 25;
const LISTS_A_TURN: usize = 10;
const PANELS_A_TURN: usize = 20_000;
/// The longest history, and a short one.
const HISTORIES: [usize; 2] = [HISTORY_MOST, 8 * PLACE];

fn main() {
    println!(
        "Millions of steps a second: the best of {ROUNDS} rounds of {TURNS} turns, the median in brackets"
    );
    let mut turns: [[Turns; PROGRAMS.len()]; HISTORIES.len()] = Default::default();
    let mut played: [Turns; PLAYED.len()] = Default::default();
    let mut pressed: [Presses; PROGRAMS.len()] = Default::default();
    for _ in 0..ROUNDS {
        for (history_length, turns) in HISTORIES.into_iter().zip(&mut turns) {
            for (program, turns) in PROGRAMS.iter().zip(turns) {
                measure(program, history_length, turns);
            }
        }
        for (program, turns) in PLAYED.iter().zip(&mut played) {
            measure(program, HISTORY_MOST, turns);
        }
        for (program, presses) in PROGRAMS.iter().zip(&mut pressed) {
            measure_button(program, presses);
        }
    }
    for (history_length, turns) in HISTORIES.into_iter().zip(turns) {
        println!("\nA history of {history_length} bytes");
        let measured = measured(&PROGRAMS, turns);
        print_runs(&measured);
        print_steps(&measured);
    }
    println!("\nPrograms of the folder programs, with keys and a tick every tenth step");
    print_runs(&measured(&PLAYED, played));
    print_button(pressed);
    print_panel();
    print_plain();
}

fn measured<const N: usize>(programs: &[Program; N], turns: [Turns; N]) -> Vec<(&str, Measured)> {
    let names = programs.iter().map(|program| program.name);
    names.zip(turns.map(Measured::of)).collect()
}

fn print_runs(measured: &[(&str, Measured)]) {
    println!(
        "{:<15} | {:<15} | {:<15} | {:<15} | {:<11} | floor/card",
        "a run", "card_run", "tuned", "floor", "card/tuned"
    );
    for (name, m) in measured {
        let to_tuned = m.card_run.to(&m.tuned_run);
        let to_floor = m.floor.best / m.card_run.best;
        println!(
            "{name:<15} | {} | {} | {} | {to_tuned} | {to_floor:>10.2}",
            m.card_run, m.tuned_run, m.floor
        );
    }
}

fn print_steps(measured: &[(&str, Measured)]) {
    println!(
        "{:<15} | {:<15} | {:<15} | {:<15} | {:<11} |",
        "one by one", "card_step", "tuned", "", "card/tuned"
    );
    for (name, m) in measured {
        let to_tuned = m.card_step.to(&m.tuned_step);
        println!(
            "{name:<15} | {} | {} | {:<15} | {to_tuned} |",
            m.card_step, m.tuned_step, ""
        );
    }
}

/// Both ends of the button, over all that a history of the greatest length keeps.
fn print_button(pressed: [Presses; PROGRAMS.len()]) {
    println!("\nThe button, a call a press: millions of presses a second");
    println!(
        "{:<15} | {:<15} | {:<15} | {:<11} | {:<15} | {:<15} | card/tuned",
        "after a run", "card_back", "tuned", "card/tuned", "card_forward", "tuned"
    );
    for (program, presses) in PROGRAMS.iter().zip(pressed) {
        let [card_back, card_forward] = presses.card.map(best_and_median);
        let [tuned_back, tuned_forward] = presses.tuned.map(best_and_median);
        println!(
            "{:<15} | {card_back} | {tuned_back} | {} | {card_forward} | {tuned_forward} | {}",
            program.name,
            card_back.to(&tuned_back),
            card_forward.to(&tuned_forward)
        );
    }
}

/// The panel's line: a picture is turned again and again, with another byte
/// changed each time.
fn print_panel() {
    let mut picture: Vec<u8> = (0..PICTURE).map(|at| (37 * at) as u8).collect();
    let mut panel = vec![0; PANEL];
    let given: Vec<u8> = (0..PANEL).map(|at| at as u8).collect();
    let mut speeds: [Vec<f64>; 2] = Default::default();
    for _ in 0..TURNS {
        speeds[0].push(panels(|turn| {
            picture[turn % PICTURE] ^= 1;
            assert_eq!(card::panel(black_box(&picture), black_box(&mut panel)), 0);
        }));
        speeds[1].push(panels(|_| {
            black_box(&mut panel).copy_from_slice(black_box(&given));
        }));
    }
    let [turned, copied] = speeds.map(best_and_median);
    println!("\nThe panel: millions of bytes a second");
    println!("{:<16} | {:<16} | copy/card", "card_panel", "a copy");
    let to_copy = copied.best / turned.best;
    println!(
        "{:>7.0} ({:>6.0}) | {:>7.0} ({:>6.0}) | {to_copy:>9.1}",
        turned.best, turned.median, copied.best, copied.median
    );
}

/// The plain engine on the same programs, a list a turn. It is there to be read,
/// and the figures say what that costs.
fn print_plain() {
    println!("\nThe plain engine, which keeps no history");
    println!("{:<15} | card_plain", "a run");
    for program in &PROGRAMS {
        let mut desk = Desk::new(program, PLACE, &Archive);
        let mut spots = vec![0; SPOTS];
        let mut turn = || {
            let start = Instant::now();
            desk.run_plainly(&mut spots);
            LIST_MOST as f64 / start.elapsed().as_secs_f64() / 1e6
        };
        let Speed { best, median } = best_and_median((0..TURNS).map(|_| turn()).collect());
        println!("{:<15} | {best:>6.2} ({median:>6.2})", program.name);
    }
}

/// The speed of one turn of a function that writes a panel.
fn panels(mut write: impl FnMut(usize)) -> f64 {
    let start = Instant::now();
    for turn in 0..PANELS_A_TURN {
        write(turn);
    }
    (PANELS_A_TURN * PANEL) as f64 / start.elapsed().as_secs_f64() / 1e6
}

/// Millions of steps a second.
struct Speed {
    best: f64,
    median: f64,
}

impl Speed {
    /// What it is to another, by the best turns and by the medians. A best turn alone
    /// says nothing of an engine whose turns are seldom so good.
    fn to(&self, other: &Speed) -> String {
        let best = self.best / other.best;
        let median = self.median / other.median;
        format!("{best:.2} ({median:.2})")
    }
}

impl fmt::Display for Speed {
    fn fmt(&self, f: &mut fmt::Formatter) -> fmt::Result {
        write!(f, "{:>6.1} ({:>6.1})", self.best, self.median)
    }
}

/// What each turn came to: a run and steps of either engine, and the floor.
#[derive(Default)]
struct Turns {
    card_run: Vec<f64>,
    tuned_run: Vec<f64>,
    floor: Vec<f64>,
    card_step: Vec<f64>,
    tuned_step: Vec<f64>,
}

struct Measured {
    card_run: Speed,
    tuned_run: Speed,
    floor: Speed,
    card_step: Speed,
    tuned_step: Speed,
}

impl Measured {
    fn of(turns: Turns) -> Measured {
        Measured {
            card_run: best_and_median(turns.card_run),
            tuned_run: best_and_median(turns.tuned_run),
            floor: best_and_median(turns.floor),
            card_step: best_and_median(turns.card_step),
            tuned_step: best_and_median(turns.tuned_step),
        }
    }
}

/// One round on one program: takes all five in turns.
fn measure(program: &Program, history_length: usize, turns: &mut Turns) {
    let mut card = Desk::new(program, history_length, &Archive);
    let mut tuned = Desk::new(program, history_length, &Tuned);
    let mut cleared = vec![1; history_length];
    for _ in 0..TURNS {
        turns.card_run.push(speed(|| card.run()));
        turns.tuned_run.push(speed(|| tuned.run()));
        turns.floor.push(speed(|| clear_places(&mut cleared)));
        turns.card_step.push(speed(|| card.steps()));
        turns.tuned_step.push(speed(|| tuned.steps()));
    }
}

/// What each turn at the button came to, back and forward, of either engine.
#[derive(Default)]
struct Presses {
    card: [Vec<f64>; 2],
    tuned: [Vec<f64>; 2],
}

/// One round at the button: takes the two engines in turns.
fn measure_button(program: &Program, presses: &mut Presses) {
    let mut card = Desk::new(program, HISTORY_MOST, &Archive);
    let mut tuned = Desk::new(program, HISTORY_MOST, &Tuned);
    card.run();
    tuned.run();
    for _ in 0..TURNS {
        press(&mut card, &mut presses.card);
        press(&mut tuned, &mut presses.tuned);
    }
}

/// One turn: all the way back and forward again, some times.
fn press<E: Engine<u64>>(desk: &mut Desk<E>, [backs, forwards]: &mut [Vec<f64>; 2]) {
    let mut took = [Duration::ZERO; 2];
    let mut made = 0;
    for _ in 0..LISTS_A_TURN {
        let start = Instant::now();
        let back = desk.backs();
        let turned = Instant::now();
        let forward = desk.forwards();
        took[0] += turned - start;
        took[1] += turned.elapsed();
        assert_eq!((back, forward), (HISTORY_MOST / PLACE, back));
        made += back;
    }
    for (speeds, took) in [backs, forwards].into_iter().zip(took) {
        speeds.push(made as f64 / took.as_secs_f64() / 1e6);
    }
}

/// The speed of one turn of a function that makes a list of steps.
fn speed(mut make_list: impl FnMut()) -> f64 {
    let start = Instant::now();
    for _ in 0..LISTS_A_TURN {
        make_list();
    }
    let steps = (LISTS_A_TURN * LIST_MOST) as f64;
    steps / start.elapsed().as_secs_f64() / 1e6
}

fn best_and_median(mut speeds: Vec<f64>) -> Speed {
    speeds.sort_by(f64::total_cmp);
    Speed {
        best: speeds[speeds.len() - 1],
        median: speeds[speeds.len() / 2],
    }
}

/// What every engine of this contract must do at the least.
fn clear_places(history: &mut [u8]) {
    let places = history.as_chunks_mut::<PLACE>().0;
    let mut next = 0;
    for _ in 0..LIST_MOST {
        black_box(&mut places[next]).fill(0);
        next += 1;
        if next == places.len() {
            next = 0;
        }
    }
    black_box(history);
}
