//! Random events on a state: valid ones, refused ones and damaged records.

use crate::layout::Image;
use crate::moods::{Mood, weights};
use crate::random::Random;
use crate::records::{self, Call, Record, Vector};
use crate::state::{Affinity, State, kind};

/// An event on a state. One of thirty records is damaged.
pub fn event(random: &mut Random, image: &Image, mood: Mood) -> Record {
    let record = well_formed(random, State(image), mood);
    if random.chance(3) {
        damaged(random, record)
    } else {
        record
    }
}

/// An event without damage: what it gives is never 108.
pub fn well_formed(random: &mut Random, state: State, mood: Mood) -> Record {
    let weights = weights(state, mood);
    let caller = caller(random, state);
    let entry = random.entry();
    let good = random.chance(92);
    match Call::ALL[random.weighted(&weights)] {
        Call::On => records::on(caller, target(random, state), entry, good, answer(random)),
        Call::Off => records::off(caller, answer(random)),
        Call::Suspend => records::suspend(caller, random.chance(8), entry, request(random, state)),
        Call::Finish => records::finish(one_of(
            random,
            state,
            state.cpus_where(State::is_suspended),
            85,
        )),
        Call::Boot => records::boot(one_of(random, state, state.cpus_where(State::boots), 85)),
        Call::SystemSuspend => {
            let flags = [random.chance(92), random.chance(8), good];
            records::system_suspend(caller, flags, entry, system_request(random, state))
        }
        _ => {
            let os_initiated = if state.os_initiated() {
                random.chance(25)
            } else {
                random.chance(40)
            };
            records::set_mode(caller, random.chance(90), os_initiated)
        }
    }
}

fn answer(random: &mut Random) -> i8 {
    if random.chance(80) {
        0
    } else {
        -(random.within(1, 9) as i8)
    }
}

/// A number that may be no CPU's.
fn any_cpu(random: &mut Random, state: State) -> u8 {
    match random.below(12) {
        0 => random.byte(),
        1 => state.cpus() as u8,
        _ => random.below(state.cpus()) as u8,
    }
}

/// Mostly one of some CPUs, where there is one.
fn one_of(random: &mut Random, state: State, such: Vec<u8>, percent: usize) -> u8 {
    if such.is_empty() || !random.chance(percent) {
        any_cpu(random, state)
    } else {
        random.pick(&such)
    }
}

fn caller(random: &mut Random, state: State) -> u8 {
    one_of(random, state, state.cpus_where(State::is_running), 93)
}

fn target(random: &mut Random, state: State) -> u8 {
    let off = state.cpus_where(|state, cpu| state.affinity(cpu) == Affinity::Off);
    one_of(random, state, off, 70)
}

/// The states of a suspend: mostly a valid request, ordered by number or by kind alone.
fn request(random: &mut Random, state: State) -> Vector {
    if random.chance(10) {
        return any_states(random, state);
    }
    let by_number = random.chance(75);
    let highest = random.below(state.max() + 1);
    let mut states = [0; 4];
    let last = state.states() - 1;
    states[0] = if random.chance(30) {
        last
    } else {
        random.within(1, last as usize) as u8
    };
    for level in 1..=highest {
        states[level] = above(random, state, states[level - 1], by_number);
    }
    states
}

/// A state that may stand above another in a request.
pub fn above(random: &mut Random, state: State, below: u8, by_number: bool) -> u8 {
    let last = state.states() - 1;
    let deepest = match kind(state.down(), below) {
        0 => 0,
        _ if by_number => below,
        1 => state.down() - 1,
        _ => last,
    };
    if random.chance(30) {
        deepest
    } else {
        random.below(deepest as usize + 1) as u8
    }
}

/// States of which one may be out of range.
fn any_states(random: &mut Random, state: State) -> Vector {
    let mut states = [0; 4];
    for place in states.iter_mut().take(state.max() + 1) {
        *place = random.below(state.states() as usize + 1) as u8;
    }
    if random.chance(10) {
        states[random.below(state.max() + 1)] = random.byte();
    }
    states
}

/// The states of a system suspend: mostly power-down at all levels.
fn system_request(random: &mut Random, state: State) -> Vector {
    match random.below(10) {
        0 => any_states(random, state),
        1 => request(random, state),
        _ => {
            let (down, last) = (state.down() as usize, state.states() as usize - 1);
            let mut states = [0; 4];
            for place in states.iter_mut().take(state.max() + 1) {
                *place = random.within(down, last) as u8;
            }
            if random.chance(75) {
                states[..=state.max()].sort_by(|a, b| b.cmp(a));
            }
            states
        }
    }
}

/// A record with a byte or two changed, most of which are refused with 108.
fn damaged(random: &mut Random, mut record: Record) -> Record {
    let length = record[0] as usize;
    for _ in 0..random.within(1, 2) {
        match random.below(6) {
            0 => record[0] = random.below(32) as u8,
            1 => record[random.below(4)] = random.byte(),
            2 => record[2] = random.below(18) as u8,
            3 => record[length - 1] = random.byte(),
            4 => record[5] = random.byte(),
            _ => record[random.below(length)] = random.byte(),
        }
    }
    record
}
