//! Phase node records: the minimal allowed state, asked of the records of domains on states that are not sound.

use crate::board_maker;
use crate::comparer::{Comparer, Going};
use crate::layout::{image::*, *};
use crate::random::Random;
use crate::sound;
use crate::state::State;

const RECORDS: usize = 20_000;
const ON_A_BOARD: usize = 8;

pub fn run(comparer: &mut Comparer) -> Going<()> {
    comparer.phase("node records");
    let random = &mut Random::new(comparer.seed, 6);
    let mut asked = Asked::default();
    let mut records = 0;
    while records < RECORDS {
        let Some((_, fresh)) = comparer.start(&board_maker::acceptable(random))? else {
            continue;
        };
        for _ in 0..ON_A_BOARD {
            let image = unsound(random, &fresh);
            let reply = comparer.node_records(&image)?;
            asked.count(State(&image), &reply);
            records += 1;
        }
    }
    let Asked {
        questions,
        outside,
        beside,
        left_out,
    } = asked;
    comparer.say(format!(
        "node records: {records} records, {questions} questions; {outside} are 109, {beside} are 111, \
         and {left_out} leave out the only CPU at fault"
    ));
    Ok(())
}

/// The questions, and how many were answered in a way of note.
#[derive(Default)]
struct Asked {
    questions: u64,
    outside: u64,
    beside: u64,
    left_out: u64,
}

impl Asked {
    fn count(&mut self, state: State, reply: &Reply) {
        for domain in 0..state.domains() {
            self.row(state, domain, &reply[reply::ALLOWED + domain * CPUS..]);
            let parent = state.0[PARENTS + domain];
            if parent != NO_PARENT {
                let row = &reply[reply::ALLOWED_BESIDE_CHILD + domain * CPUS..];
                self.row(state, parent.into(), row);
            }
        }
    }

    /// The answers of a domain by CPU left out.
    fn row(&mut self, state: State, domain: usize, answers: &[u8]) {
        for (cpu, answer) in answers.iter().enumerate().take(state.cpus()) {
            self.questions += 1;
            match answer {
                109 => self.outside += 1,
                111 => self.beside += 1,
                _ => self.left_out += u64::from(at_fault(state, state.level(domain), cpu)),
            }
        }
    }
}

/// Whether a suspend state stands beside a request that is not RUN.
fn at_fault(state: State, level: usize, cpu: usize) -> bool {
    let slot = (level - 1) * CPUS + cpu;
    state.0[REQUESTS + slot] != 0 && state.0[SUSPENDS + slot] != NO_SUSPEND_STATE
}

/// The states that a record takes: most from a lowest one on, so that the minimum is not mostly RUN.
struct States {
    lowest: usize,
    last: usize,
}

impl States {
    fn any(&self, random: &mut Random) -> u8 {
        let lowest = if random.chance(80) { self.lowest } else { 0 };
        random.within(lowest, self.last) as u8
    }
}

/// A state on the tree of a fresh one with any states in its domains, and with a suspend state, so that it is not sound.
fn unsound(random: &mut Random, fresh: &Image) -> Image {
    let mut image = sound::sound(random, fresh);
    let state = State(fresh);
    let last = state.states() as usize - 1;
    let lowest = random.within(0, last);
    let states = States { lowest, last };
    // at times the suspend states are all that is not sound
    if random.chance(80) {
        domains(random, &mut image, &states);
    }
    suspends(random, &mut image, &states);
    if !has_suspend_state(&image) {
        let slot = random.below(state.max()) * CPUS + random.below(state.cpus());
        image[SUSPENDS + slot] = states.any(random);
    }
    image
}

/// Any requests, states and child copies.
fn domains(random: &mut Random, image: &mut Image, states: &States) {
    let running = random.pick(&[0, 20, 60]);
    for slot in slots(image) {
        image[REQUESTS + slot] = match random.chance(running) {
            true => 0,
            false => states.any(random),
        };
    }
    for domain in 0..State(image).domains() {
        image[DOMAIN_STATES + domain] = states.any(random);
        if image[PARENTS + domain] != NO_PARENT {
            image[COPIES + domain] = states.any(random);
        }
    }
}

/// Suspend states: in half of the records beside requests for RUN alone, but for one CPU at times.
fn suspends(random: &mut Random, image: &mut Image, states: &States) {
    let (beside_run, beside_others) = random.pick(&[(70, 0), (70, 0), (10, 10), (50, 50)]);
    let one = random
        .chance(60)
        .then_some(random.below(State(image).cpus()));
    for slot in slots(image) {
        let percent = match image[REQUESTS + slot] {
            _ if Some(slot % CPUS) == one => 80,
            0 => beside_run,
            _ => beside_others,
        };
        if random.chance(percent) {
            image[SUSPENDS + slot] = states.any(random);
        }
    }
}

fn has_suspend_state(image: &Image) -> bool {
    let mut slots = slots(image).into_iter();
    slots.any(|slot| image[SUSPENDS + slot] != NO_SUSPEND_STATE)
}

/// Where the requests of the CPUs stand in their row, and their suspend states too.
fn slots(image: &Image) -> Vec<usize> {
    let state = State(image);
    let levels = 0..state.max();
    levels
        .flat_map(|level| (0..state.cpus()).map(move |cpu| level * CPUS + cpu))
        .collect()
}
