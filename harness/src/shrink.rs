//! Cuts a failing case short: it drops calls, shortens lists and clears bytes
//! for as long as some mismatch stays.

use std::time::{Duration, Instant};

use crate::buffers::{Host, Told, PARTS};
use crate::case::{wear, write_bytes, Call, Case};
use crate::check::make;
use crate::engine::Second;
use crate::second::{FIRST_EDITION, FULL_END, PLACE};

/// Tries changes of a case and keeps those after which it still fails.
struct Shrinker<'a> {
    case: Case,
    fails: &'a dyn Fn(&Case) -> bool,
    until: Instant,
    better: bool,
}

pub fn shrink(case: Case, time: Duration, fails: &dyn Fn(&Case) -> bool) -> Case {
    let mut shrinker = Shrinker {
        case,
        fails,
        until: Instant::now() + time,
        better: true,
    };
    while shrinker.better && Instant::now() < shrinker.until {
        shrinker.better = false;
        shrinker.drop_calls();
        shrinker.start_later();
        shrinker.simplify_calls();
        shrinker.shorten_history();
        shrinker.clear_start();
    }
    shrinker.case
}

impl Shrinker<'_> {
    /// Answers whether the changed case still fails; then it is kept.
    fn try_case(&mut self, change: impl FnOnce(&mut Case)) -> bool {
        if Instant::now() >= self.until {
            return false;
        }
        let mut changed = self.case.clone();
        change(&mut changed);
        if changed == self.case || !(self.fails)(&changed) {
            return false;
        }
        self.case = changed;
        self.better = true;
        true
    }

    /// Drops rows of calls, long rows first, from the end to the front.
    fn drop_calls(&mut self) {
        let mut row = self.case.calls.len();
        while row > 0 {
            let mut end = self.case.calls.len();
            while end > 0 {
                let first = end.saturating_sub(row);
                self.try_case(|case| drop(case.calls.drain(first..end)));
                end = first;
            }
            row /= 2;
        }
    }

    /// Starts with what the first calls leave, and drops these calls.
    fn start_later(&mut self) {
        for first in (1..self.case.calls.len()).rev() {
            let later = self.try_case(|case| {
                for call in case.calls.drain(..first) {
                    make_on(&mut case.start, &call);
                }
            });
            if later {
                return;
            }
        }
    }

    fn simplify_calls(&mut self) {
        for number in 0..self.case.calls.len() {
            self.simplify_call(number);
        }
    }

    fn simplify_call(&mut self, number: usize) {
        match &self.case.calls[number] {
            Call::Step { .. } => {
                self.try_case(|case| {
                    if let Call::Step { keys, .. } = &mut case.calls[number] {
                        *keys = 0;
                    }
                });
                self.try_case(|case| {
                    if let Call::Step { random, .. } = &mut case.calls[number] {
                        *random = 0;
                    }
                });
            }
            Call::Load { program, .. } => {
                let length = program.len();
                self.try_case(|case| {
                    if let Call::Load { edition, .. } = &mut case.calls[number] {
                        *edition = FIRST_EDITION;
                    }
                });
                self.try_case(|case| {
                    if let Call::Load { end, .. } = &mut case.calls[number] {
                        *end = FULL_END;
                    }
                });
                self.drop_entries(number, length);
                self.clear(length, move |case| match &mut case.calls[number] {
                    Call::Load { program, .. } => program,
                    _ => unreachable!("the call stays a load"),
                });
            }
            Call::Run { ticks, keys, .. } => {
                let length = ticks.len().max(keys.len());
                self.drop_entries(number, length);
                self.clear_lists(number);
            }
            Call::Play { moves, keys, .. } => {
                let length = moves.len().max(keys.len());
                self.drop_entries(number, length);
                self.clear_lists(number);
            }
            Call::Rows { picture, rows } | Call::Bytes { rows, picture } => {
                let (bytes, numbers) = (picture.len(), rows.len());
                self.clear(bytes, move |case| turned(&mut case.calls[number]).0);
                self.clear(numbers, move |case| turned(&mut case.calls[number]).1);
            }
            Call::Write { bytes, .. } => {
                let length = bytes.len();
                self.clear(length, move |case| match &mut case.calls[number] {
                    Call::Write { bytes, .. } => bytes,
                    _ => unreachable!("the call stays a write"),
                });
            }
            Call::Salvage { list, .. } => {
                let length = list.len();
                self.clear(length, move |case| match &mut case.calls[number] {
                    Call::Salvage { list, .. } => list,
                    _ => unreachable!("the call stays a salvage"),
                });
            }
            Call::Tick | Call::Back | Call::Forward | Call::Wear { .. } => {}
        }
    }

    /// Drops rows of entries of a call's lists, or of bytes of its program.
    fn drop_entries(&mut self, number: usize, length: usize) {
        let mut row = length;
        while row > 0 {
            let mut end = length;
            while end > 0 {
                let first = end.saturating_sub(row);
                self.try_case(|case| match &mut case.calls[number] {
                    Call::Load { program, .. } => drop_row(program, first, end),
                    Call::Run {
                        ticks: list,
                        keys,
                        randoms,
                        ..
                    }
                    | Call::Play {
                        moves: list,
                        keys,
                        randoms,
                    } => {
                        drop_row(list, first, end);
                        drop_row(keys, first, end);
                        drop_row(randoms, first, end);
                    }
                    _ => {}
                });
                end = first;
            }
            row /= 2;
        }
    }

    /// Sets each list of a call to 0, as a whole and then in single entries.
    fn clear_lists(&mut self, number: usize) {
        self.try_case(|case| {
            if let Some((first, _, _)) = lists(&mut case.calls[number]) {
                first.fill(0);
            }
        });
        self.try_case(|case| {
            if let Some((_, keys, _)) = lists(&mut case.calls[number]) {
                keys.fill(0);
            }
        });
        self.try_case(|case| {
            if let Some((_, _, randoms)) = lists(&mut case.calls[number]) {
                randoms.fill(0);
            }
        });
        let length = lists(&mut self.case.calls[number]).map_or(0, |(first, _, _)| first.len());
        for at in 0..length.min(64) {
            self.try_case(|case| {
                if let Some((first, keys, randoms)) = lists(&mut case.calls[number]) {
                    first[at] = 0;
                    if let (Some(key), Some(random)) = (keys.get_mut(at), randoms.get_mut(at)) {
                        (*key, *random) = (0, 0);
                    }
                }
            });
        }
    }

    fn shorten_history(&mut self) {
        let length = self.case.start.history.len();
        for shorter in [PLACE, 2 * PLACE, 3 * PLACE, length / PLACE * PLACE] {
            if shorter < self.case.start.history.len() {
                self.try_case(|case| case.start.history.truncate(shorter));
            }
        }
    }

    fn clear_start(&mut self) {
        // The image last: its bytes mean the most.
        for &(part, _) in PARTS.iter().rev() {
            let length = self.case.start.part(part).len();
            self.clear(length, move |case| case.start.part_mut(part));
        }
    }

    /// Clears ever smaller rows of some bytes or numbers of the case.
    fn clear<T, F>(&mut self, length: usize, list: F)
    where
        T: Clone + Default,
        F: Fn(&mut Case) -> &mut Vec<T> + Copy,
    {
        let mut row = length.min(list(&mut self.case).len());
        while row > 0 {
            for first in (0..length).step_by(row) {
                self.try_case(|case| {
                    let list = list(case);
                    let end = list.len().min(first + row);
                    if first < end {
                        list[first..end].fill(T::default());
                    }
                });
            }
            row /= 2;
        }
    }
}

/// A call as the second interpreter makes it.
fn make_on(host: &mut Host, call: &Call) {
    match call {
        Call::Write { part, at, bytes } => write_bytes(host.part_mut(*part), *at, bytes),
        Call::Wear { at, bit } => wear(&mut host.history, *at, *bit),
        // They leave the host's machine.
        Call::Rows { .. } | Call::Bytes { .. } => {}
        _ => {
            let told = Told {
                answer: &mut vec![0; call.answer_length()],
                list: &mut call.list().to_vec(),
            };
            make(&Second, call, call.lists(), host.lend(), told);
        }
    }
}

fn drop_row<T>(list: &mut Vec<T>, first: usize, end: usize) {
    let end = end.min(list.len());
    if first < end {
        list.drain(first..end);
    }
}

/// The two forms of a picture in a call that turns one into the other.
fn turned(call: &mut Call) -> (&mut Vec<u8>, &mut Vec<u64>) {
    match call {
        Call::Rows { picture, rows } | Call::Bytes { rows, picture } => (picture, rows),
        _ => unreachable!("the call stays a turning"),
    }
}

type ThreeLists<'a> = (&'a mut Vec<u8>, &'a mut Vec<u16>, &'a mut Vec<u8>);

fn lists(call: &mut Call) -> Option<ThreeLists<'_>> {
    match call {
        Call::Run {
            ticks: first,
            keys,
            randoms,
            ..
        }
        | Call::Play {
            moves: first,
            keys,
            randoms,
        } => Some((first, keys, randoms)),
        _ => None,
    }
}
