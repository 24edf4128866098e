//! Phase exhaustive: on boards of two CPUs every state that can be reached, under every call.

use crate::comparer::{Comparer, Going};
use crate::explain;
use crate::layout::{Board, Image};
use crate::oracle::Oracle;
use crate::records::{self, Entry, Record, Vector};
use crate::state::State;
use std::collections::{HashSet, VecDeque};

/// Topologies, and the platforms (states, d) on which they are gone through.
fn boards() -> Vec<Board> {
    let platforms = [(2, 1), (3, 2), (3, 1), (4, 3), (4, 2), (4, 1)];
    let some: &[(&[u8], usize)] = &[
        (&[1, 2], 6),
        (&[2, 1, 1], 6),
        (&[1, 1, 2], 2),
        (&[1, 2, 1, 1], 3),
        (&[2, 1, 1, 1, 1], 2),
        (&[1, 1, 1, 2], 1),
        (&[1, 1, 2, 1, 1], 2),
        (&[1, 2, 1, 1, 1, 1], 1),
        (&[2, 1, 1, 1, 1, 1, 1], 1),
    ];
    let mut list = Vec::new();
    for (topology, count) in some {
        for (states, down) in &platforms[..*count] {
            let max = levels(topology);
            list.push(Board {
                max,
                states: *states,
                down: *down,
                primary: 0,
                topology: topology.to_vec(),
            });
        }
    }
    list
}

/// MAX of a topology with two CPUs.
fn levels(topology: &[u8]) -> u8 {
    let mut levels = 0;
    let mut place = 0;
    let mut width = 1;
    while place < topology.len() {
        let next = topology[place..place + width].iter().sum::<u8>() as usize;
        place += width;
        width = next;
        levels += 1;
    }
    levels - 1
}

/// Goes through the boards, and stops early where that would be more events than `limit`.
pub fn run(comparer: &mut Comparer, limit: u64) -> Going<()> {
    comparer.phase("exhaustive");
    let (before, mut states, mut whole) = (comparer.events, 0, 0);
    let end = before + limit;
    let list = boards();
    for board in &list {
        let (found, finished) = reach(comparer, board, end)?;
        states += found;
        whole += usize::from(finished);
    }
    let events = comparer.events - before;
    let cut = if whole < list.len() {
        "; the rest was cut short by --events"
    } else {
        ""
    };
    comparer.say(format!(
        "exhaustive: {states} states, {events} events, {whole} of {} boards{cut}",
        list.len()
    ));
    Ok(())
}

/// Every state of a board, breadth first: how many, and whether these are all.
fn reach(comparer: &mut Comparer, board: &Board, end: u64) -> Going<(usize, bool)> {
    let before = comparer.events;
    let Some((_, fresh)) = comparer.start(board)? else {
        return Ok((0, false));
    };
    // asked alone whether a state is in it, so that its order does not matter
    let mut seen = HashSet::from([fresh]);
    let mut waiting = VecDeque::from([fresh]);
    while let Some(image) = waiting.pop_front() {
        if comparer.events >= end {
            return Ok((seen.len() - waiting.len(), false));
        }
        let mut oracle = Oracle::load(&image);
        for record in calls(&image) {
            let mut after = image;
            comparer.event(&mut oracle, &mut after, &record)?;
            if after == image {
                continue;
            }
            if seen.insert(after) {
                waiting.push_back(after);
            }
            oracle = Oracle::load(&image);
        }
    }
    let (states, events) = (seen.len(), comparer.events - before);
    comparer.say(format!(
        "  {}: {states} states, {events} events",
        explain::board_words(board)
    ));
    Ok((states, true))
}

/// The entry of a CPU: always the same, so that the states are finitely many.
fn entry(cpu: u8) -> Entry {
    (0x1000 + cpu as u64, 0x2000 + cpu as u64)
}

/// Every call. A caller that does not run is refused before anything else is looked at, and makes each call once.
fn calls(image: &Image) -> Vec<Record> {
    let state = State(image);
    let vectors = vectors(state);
    let mut list = Vec::new();
    for cpu in 0..=state.cpus() as u8 {
        if (cpu as usize) < state.cpus() && state.is_running(cpu as usize) {
            every_call(&mut list, state, cpu, &vectors);
        } else {
            each_call_once(&mut list, state, cpu);
        }
        list.extend([records::finish(cpu), records::boot(cpu)]);
    }
    list
}

fn each_call_once(list: &mut Vec<Record>, state: State, caller: u8) {
    let last = state.states() - 1;
    list.push(records::on(caller, 1, entry(1), true, 0));
    list.push(records::off(caller, 0));
    list.push(records::suspend(
        caller,
        false,
        entry(caller),
        [last, 0, 0, 0],
    ));
    list.push(records::system_suspend(
        caller,
        [true, false, true],
        entry(caller),
        all_at(state, last),
    ));
    list.push(records::set_mode(caller, true, !state.os_initiated()));
}

fn every_call(list: &mut Vec<Record>, state: State, caller: u8, vectors: &[Vector]) {
    let both = [true, false];
    for target in 0..=state.cpus() as u8 {
        for answer in -9..=0 {
            for good in both {
                list.push(records::on(caller, target, entry(target), good, answer));
            }
        }
    }
    for answer in -9..=0 {
        list.push(records::off(caller, answer));
    }
    for pending in both {
        for states in vectors {
            list.push(records::suspend(caller, pending, entry(caller), *states));
        }
    }
    for flags in 0..8 {
        let flags = [flags & 4 == 0, flags & 2 == 0, flags & 1 == 0];
        let few = [
            all_at(state, 0),
            all_at(state, state.states() - 1),
            all_at(state, state.states()),
        ];
        // without the feature, or with a bad address, the states are not looked at
        let some = if flags[0] && flags[2] { vectors } else { &few };
        for states in some {
            list.push(records::system_suspend(
                caller,
                flags,
                entry(caller),
                *states,
            ));
        }
    }
    for feature in both {
        for os_initiated in both {
            list.push(records::set_mode(caller, feature, os_initiated));
        }
    }
}

/// One state at all levels up to MAX.
fn all_at(state: State, one: u8) -> Vector {
    let mut states = [0; 4];
    states[..=state.max()].fill(one);
    states
}

/// Every vector of states, one of them out of range.
fn vectors(state: State) -> Vec<Vector> {
    let mut list = vec![[0; 4]];
    for level in 0..=state.max() {
        let shorter = std::mem::take(&mut list);
        for one in 0..=state.states() {
            list.extend(shorter.iter().map(|states| {
                let mut states = *states;
                states[level] = one;
                states
            }));
        }
    }
    list
}
