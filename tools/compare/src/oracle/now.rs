//! What the stand-ins answer in the call that runs, and what they were handed.

use super::board::Levels;
use arm_psci::{EntryPoint, ErrorCode, PowerState};
use firmware::services::psci::{PlatformPowerStateInterface, PowerStateType};
use std::sync::atomic::{AtomicU8, Ordering::Relaxed};
use std::sync::{Mutex, MutexGuard, PoisonError};

/// A notice's kind and the 16 bytes that it carries, states in the board's numbers.
pub type Notice = (u8, [u8; 16]);

/// What the stand-ins answer now, and what they were handed since the call began.
#[derive(Clone, Debug)]
pub struct Now {
    pub levels: Levels,
    pub cpus: usize,
    pub topology: &'static [usize],
    pub cpu: usize,
    pub pending: bool,
    pub address_good: bool,
    pub answer: i8,
    pub system_suspend: bool,
    pub os_initiated: bool,
    pub system_states: [u8; 4],
    pub notices: Vec<Notice>,
    /// The states that the early question of off was put with.
    pub early: Option<[u8; 4]>,
    pub standby: Option<u8>,
    /// The power state word that the SPM was told.
    pub told: Option<PowerState>,
}

static NOW: Mutex<Now> = Mutex::new(Now::new(
    Levels {
        max: 1,
        states: 2,
        down: 1,
    },
    0,
));

/// The Rust asks a state for its kind without a platform at hand.
static DOWN: AtomicU8 = AtomicU8::new(1);

impl Now {
    /// The platform has every feature, good addresses and nothing pending unless the event says otherwise.
    pub const fn new(levels: Levels, cpus: usize) -> Self {
        Self {
            levels,
            cpus,
            topology: &[],
            cpu: 0,
            pending: false,
            address_good: true,
            answer: 0,
            system_suspend: true,
            os_initiated: true,
            system_states: [0; 4],
            notices: Vec::new(),
            early: None,
            standby: None,
            told: None,
        }
    }

    pub fn answered(&self) -> Result<(), ErrorCode> {
        use ErrorCode::*;
        const ERRORS: [ErrorCode; 9] = [
            NotSupported,
            InvalidParameters,
            Denied,
            AlreadyOn,
            OnPending,
            InternalFailure,
            NotPresent,
            Disabled,
            InvalidAddress,
        ];
        match self.answer {
            0 => Ok(()),
            number => Err(ERRORS[usize::from(number.unsigned_abs()) - 1]),
        }
    }

    pub fn handed(&mut self, kind: u8, states: &[State]) {
        self.notices.push((kind, bytes(&self.board_states(states))));
    }

    pub fn board_states(&self, states: &[State]) -> [u8; 4] {
        std::array::from_fn(|level| {
            states
                .get(level)
                .map_or(0, |state| self.levels.from_rust(state.0))
        })
    }
}

pub fn now() -> MutexGuard<'static, Now> {
    NOW.lock().unwrap_or_else(PoisonError::into_inner)
}

/// Begins a call: new answers, and nothing handed over yet.
pub fn begin(next: Now) {
    DOWN.store(next.levels.down, Relaxed);
    *now() = next;
}

pub fn bytes(states: &[u8]) -> [u8; 16] {
    std::array::from_fn(|at| states.get(at).copied().unwrap_or(0))
}

pub fn entry_bytes(entry: EntryPoint) -> [u8; 16] {
    (u128::from(entry.address) | u128::from(entry.context) << 64).to_le_bytes()
}

/// A state in the Rust's numbers: the last one is 15.
#[derive(Clone, Copy, Debug, PartialEq, Eq, PartialOrd, Ord)]
pub struct State(pub u8);

impl From<u8> for State {
    fn from(state: u8) -> Self {
        Self(state)
    }
}

impl From<State> for usize {
    fn from(state: State) -> usize {
        state.0.into()
    }
}

impl PlatformPowerStateInterface for State {
    const OFF: Self = Self(15);
    const RUN: Self = Self(0);

    fn power_state_type(&self) -> PowerStateType {
        match self.0 {
            0 => PowerStateType::Run,
            state if state < DOWN.load(Relaxed) => PowerStateType::StandbyOrRetention,
            _ => PowerStateType::PowerDown,
        }
    }
}
