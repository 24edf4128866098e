//! Which calls a random script makes, and how often.

use crate::layout::Image;
use crate::random::Random;
use crate::state::{Affinity, State};

/// What a script is about for a while, so that it gets to states that few events would reach by chance.
#[derive(Clone, Copy)]
pub enum Mood {
    Mixed,
    /// CPUs are turned on.
    Gather,
    /// CPUs are suspended.
    Idle,
    /// CPUs are turned off, and the last one suspends the system.
    Shrink,
}

impl Mood {
    pub fn any(random: &mut Random) -> Mood {
        random.pick(&[
            Mood::Mixed,
            Mood::Mixed,
            Mood::Gather,
            Mood::Idle,
            Mood::Shrink,
        ])
    }

    /// The weights of `Call::ALL`.
    fn weights(self) -> [usize; 7] {
        match self {
            Mood::Mixed => [16, 7, 30, 13, 15, 7, 6],
            Mood::Gather => [40, 1, 6, 12, 30, 2, 6],
            Mood::Idle => [6, 2, 60, 9, 9, 4, 2],
            Mood::Shrink => [3, 34, 6, 12, 16, 22, 7],
        }
    }
}

/// Whether every CPU is Off, so that no event is ever accepted again.
pub fn is_over(image: &Image) -> bool {
    let state = State(image);
    (0..state.cpus()).all(|cpu| state.affinity(cpu) == Affinity::Off)
}

/// The weights of the calls on a state: what can't be accepted there comes less often.
pub fn weights(state: State, mood: Mood) -> [usize; 7] {
    let running = state.cpus_where(State::is_running).len();
    if running == 0 {
        return [1, 1, 2, 30, 40, 1, 1];
    }
    let [
        mut on,
        mut off,
        mut suspend,
        mut finish,
        mut boot,
        mut system,
        mut mode,
    ] = mood.weights();
    let are_off = state
        .cpus_where(|state, cpu| state.affinity(cpu) == Affinity::Off)
        .len();
    if are_off == 0 {
        on = on.min(4);
    }
    if state.cpus_where(State::is_suspended).is_empty() {
        finish = 1;
    }
    if state.cpus_where(State::boots).is_empty() {
        boot = 1;
    }
    if are_off + 1 == state.cpus() {
        off = 1;
        system *= 2;
        mode *= 2;
    } else {
        system = system.min(2);
    }
    if state.os_initiated() {
        off *= 2;
        suspend /= 3;
    }
    [on, off, suspend, finish, boot, system, mode]
}
