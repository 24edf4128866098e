//! The four queries on a state, asked of the Rust where the rules give them an answer below 101.

use super::image::slot;
use super::notes::Notes;
use super::ran::{Ran, caught, unequal};
use super::{Oracle, allowed};
use crate::layout::image::*;
use crate::layout::*;
use std::sync::atomic::{AtomicUsize, Ordering::Relaxed};

/// A panic is slow, so of the tests that end in one each state is asked those of one CPU, all in turn.
static TURNS: AtomicUsize = AtomicUsize::new(0);

/// What the queries give: the bytes of a reply behind its image.
pub fn ask(oracle: &Oracle, image: &Image, notes: &mut Notes) -> Box<Reply> {
    let mut reply = Box::new([0; reply::SIZE]);
    if holds_suspend_state(image) {
        refuse_tests(image, &mut reply);
    } else {
        ask_tests(oracle, image, &mut reply, notes);
    }
    for domain in 0..image[DOMAIN_COUNT].into() {
        allowed::ask(oracle, image, domain, &mut reply, notes);
    }
    reply
}

/// Whether a state has a suspend state. No call that is compared sets one, and a state with one is not sound.
fn holds_suspend_state(image: &Image) -> bool {
    (1..=image[MAX].into()).any(|level| {
        let row = &image[SUSPENDS + slot(level, 0)..][..image[CPU_COUNT].into()];
        row.iter().any(|&state| state != NO_SUSPEND_STATE)
    })
}

/// A test is asked of sound states alone: 102, which is the first of its checks.
fn refuse_tests(image: &Image, reply: &mut Reply) {
    let cpus = usize::from(image[CPU_COUNT]);
    reply[reply::ALL_ON] = 102;
    reply[reply::IS_LAST..][..cpus].fill(102);
    reply[reply::LAST_TO_IDLE..][..cpus * (LEVELS + 1)].fill(102);
}

fn ask_tests(oracle: &Oracle, image: &Image, reply: &mut Reply, notes: &mut Notes) {
    reply[reply::ALL_ON] = oracle.calls.are_all_cpus_on().into();
    let cpus = usize::from(image[CPU_COUNT]);
    let turn = TURNS.fetch_add(1, Relaxed) % cpus.max(1);
    for cpu in 0..cpus {
        reply[reply::IS_LAST + cpu] = is_last(oracle, image, cpu, turn == cpu, notes);
        for level in 0..=LEVELS {
            let at = reply::LAST_TO_IDLE + cpu * (LEVELS + 1) + level;
            reply[at] = last_to_idle(oracle, cpu, level, turn == cpu, notes);
        }
    }
}

fn affinity(image: &Image, cpu: usize) -> u8 {
    image[CPU_ROW + cpu * CPU + CPU_AFFINITY]
}

fn is_last(oracle: &Oracle, image: &Image, cpu: usize, turn: bool, notes: &mut Notes) -> u8 {
    if affinity(image, cpu) == 0 {
        return match caught(|| oracle.calls.is_last_cpu(cpu as u8)) {
            Ran::Returned(last) => last.into(),
            other => notes.failed("is_last_cpu", other),
        };
    }
    let all_below_off = (0..cpu).all(|below| affinity(image, below) == 1);
    if turn || !all_below_off {
        let not_on = ["On", "Off", "OnPending"][usize::from(affinity(image, cpu))];
        let held = match caught(|| oracle.calls.is_last_cpu(cpu as u8)) {
            Ran::Returned(last) => !last && !all_below_off,
            end => end.stopped_at(&unequal(not_on, "On")) && all_below_off,
        };
        notes.rule("is-last-of-cpu-not-on", held);
    }
    104
}

fn last_to_idle(oracle: &Oracle, cpu: usize, level: usize, turn: bool, notes: &mut Notes) -> u8 {
    if level <= oracle.levels.max {
        return match caught(|| oracle.calls.last_to_idle(cpu as u8, level)) {
            Ran::Returned(last) => last.into(),
            other => notes.failed("is_last_cpu_to_idle_at_power_level", other),
        };
    }
    if turn {
        // the domain below that level is looked up first, then the one at it; the lowest stands at 0
        let max = oracle.levels.max;
        let index = max.max(level - 2);
        let words = format!("index out of bounds: the len is {max} but the index is {index}");
        let end = caught(|| oracle.calls.last_to_idle(cpu as u8, level));
        notes.rule("level-above-max", end.stopped_at(&words));
    }
    109
}
