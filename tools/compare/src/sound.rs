//! Phase sound: random sound states, most of which no script reaches, and a few events on each.

use crate::board_maker;
use crate::comparer::{Comparer, Going};
use crate::generate;
use crate::layout::{image::*, *};
use crate::moods::Mood;
use crate::oracle::Oracle;
use crate::random::Random;
use crate::state::State;

/// Until there are `end` events in all.
pub fn run(comparer: &mut Comparer, end: u64) -> Going<()> {
    comparer.phase("sound");
    let random = &mut Random::new(comparer.seed, 3);
    let (before, mut states) = (comparer.events, 0);
    while comparer.events < end {
        let Some((_, fresh)) = comparer.start(&board_maker::acceptable(random))? else {
            continue;
        };
        for _ in 0..8 {
            let mut image = sound(random, &fresh);
            let mut oracle = Oracle::load(&image);
            for _ in 0..random.within(1, 4) {
                let mood = Mood::any(random);
                let record = generate::event(random, &image, mood);
                comparer.event(&mut oracle, &mut image, &record)?;
            }
            states += 1;
        }
    }
    let events = comparer.events - before;
    comparer.say(format!("sound: {states} sound states, {events} events"));
    Ok(())
}

/// A sound state on the tree of a fresh one.
pub fn sound(random: &mut Random, fresh: &Image) -> Image {
    let mut image = *fresh;
    let weights = [
        random.below(4),
        random.below(3),
        random.below(4),
        1 + random.below(6),
    ];
    for cpu in 0..State(fresh).cpus() {
        let path = State(fresh).path(cpu);
        let states = cpu_states(random, &mut image, cpu, &weights);
        for level in 1..=path.len() {
            image[REQUESTS + (level - 1) * CPUS + cpu] = states[level];
        }
    }
    for domain in 0..State(fresh).domains() {
        image[DOMAIN_STATES + domain] = minimum(&image, domain);
        if image[PARENTS + domain] != NO_PARENT {
            image[COPIES + domain] = random.below(State(fresh).states() as usize) as u8;
        }
    }
    image[MODE] = u8::from(random.chance(15));
    image
}

/// Sets a CPU's affinity, state and entry, and gives its states: its own, then its requests.
fn cpu_states(random: &mut Random, image: &mut Image, cpu: usize, weights: &[usize]) -> [u8; 4] {
    let last = image[STATES] - 1;
    let (affinity, states) = match random.weighted(weights) {
        0 => (1, [last; 4]),
        1 => (2, [last; 4]),
        2 => (0, [0; 4]),
        _ => (0, suspended(random, image)),
    };
    let held = affinity == 2 || affinity == 0 && states[0] >= image[DOWN];
    let row = &mut image[CPU_ROW + CPU * cpu..][..CPU];
    row[CPU_AFFINITY] = affinity;
    row[CPU_STATE] = states[0];
    row[CPU_HELD..].fill(0);
    if held {
        let (address, context) = random.entry();
        row[CPU_HELD] = 1;
        row[CPU_ADDRESS..CPU_CONTEXT].copy_from_slice(&address.to_le_bytes());
        row[CPU_CONTEXT..].copy_from_slice(&context.to_le_bytes());
    }
    states
}

/// States that never deepen in kind, the first of them not RUN.
fn suspended(random: &mut Random, image: &Image) -> [u8; 4] {
    let state = State(image);
    let mut states = [0; 4];
    states[0] = random.within(1, state.states() as usize - 1) as u8;
    for level in 1..=state.max() {
        states[level] = generate::above(random, state, states[level - 1], false);
    }
    states
}

/// The minimum of the requests of a domain's CPUs, at its level.
fn minimum(image: &Image, domain: usize) -> u8 {
    let level = State(image).level(domain);
    let cpus = image[CPU_STARTS + domain] as usize..image[CPU_ENDS + domain] as usize;
    cpus.map(|cpu| image[REQUESTS + (level - 1) * CPUS + cpu])
        .min()
        .unwrap()
}
