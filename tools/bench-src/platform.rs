//! Lean stand-ins for a platform and its SPM: they keep their argument alive for the compiler, and do nothing.

use crate::boards::{FIRST_POWER_DOWN, OFF};
use arm_psci::{EntryPoint, ErrorCode, Function, Mpidr, PowerState, ReturnCode};
use arm_sysregs::el1::registers::MpidrEl1;
use firmware::context::CoreIndex;
use firmware::cpu::PlatformCpuOps;
use firmware::platform::Platform;
use firmware::services::psci::*;
use std::hint::black_box;
use std::sync::atomic::{AtomicBool, AtomicU32, AtomicUsize, Ordering::Relaxed};

/// What a CPU would read from a register, and how many there are.
pub static CPU: AtomicUsize = AtomicUsize::new(0);
pub static CPUS: AtomicUsize = AtomicUsize::new(0);
/// What the platform answers: whether an address is good, whether an optional feature is there, and the states of a system
/// suspend, level 0 in the lowest byte.
pub static ADDRESS_GOOD: AtomicBool = AtomicBool::new(true);
pub static FEATURE: AtomicBool = AtomicBool::new(true);
pub static SYSTEM_STATES: AtomicU32 = AtomicU32::new(0);

pub struct Core;

impl CoreIndex for Core {
    fn local_index() -> usize {
        CPU.load(Relaxed)
    }
    fn is_valid_mpidr(mpidr: MpidrEl1) -> bool {
        mpidr.0 < CPUS.load(Relaxed) as u64
    }
    fn mpidr_to_index(mpidr: MpidrEl1) -> usize {
        mpidr.0 as usize
    }
}

pub struct Firmware;

impl Platform for Firmware {
    type CoreIndexImpl = Core;
}

impl PlatformCpuOps for Firmware {
    fn power_down(level: usize) {
        black_box(level);
    }
}

pub struct Spm;

pub static SPM: Spm = Spm;

impl PsciSpmInterface for Spm {
    fn forward_psci_request(&self, function: Function) -> ReturnCode {
        black_box(&function);
        ReturnCode::Success
    }
    fn notify_cpu_off(&self) {}
    fn notify_cpu_suspend_powerdown_abandoned(&self) {}
}

#[derive(Clone, Copy, Debug, PartialEq, Eq, PartialOrd, Ord)]
pub struct State(pub u8);

impl From<u8> for State {
    fn from(state: u8) -> Self {
        Self(state)
    }
}

impl From<State> for usize {
    fn from(state: State) -> usize {
        state.0.into()
    }
}

impl PlatformPowerStateInterface for State {
    const OFF: Self = Self(OFF);
    const RUN: Self = Self(0);
    fn power_state_type(&self) -> PowerStateType {
        match self.0 {
            0 => PowerStateType::Run,
            state if state < FIRST_POWER_DOWN => PowerStateType::StandbyOrRetention,
            _ => PowerStateType::PowerDown,
        }
    }
}

/// A suspend's states as the Rust takes them: level 0 in the lowest byte.
pub fn power_state(states: [u8; 4]) -> PowerState {
    let word = u32::from_le_bytes(states);
    if states[0] < FIRST_POWER_DOWN {
        PowerState::StandbyOrRetention(word)
    } else {
        PowerState::PowerDown(word)
    }
}

/// The platform of a board, which has its topology.
pub struct StandIn<const C: usize>(pub &'static [usize]);

type Composite<const N: usize, const MAX: usize, const C: usize, const D: usize> =
    PsciCompositePowerState<N, MAX, C, D, u8, State>;

fn composite<const N: usize, const MAX: usize, const C: usize, const D: usize>(
    word: u32,
) -> Composite<N, MAX, C, D> {
    let states = word.to_le_bytes();
    PsciCompositePowerState::new(std::array::from_fn(|level| State(states[level])))
}

impl<const N: usize, const MAX: usize, const C: usize, const D: usize>
    PsciPlatformInterface<N, MAX, C, D> for StandIn<C>
{
    const POWER_DOMAIN_COUNT: usize = C + D;
    const FEATURES: PsciPlatformOptionalFeatures = PsciPlatformOptionalFeatures::empty();
    type PlatformPowerState = State;
    type NodeIndex = u8;

    fn topology(&self) -> &'static [usize] {
        self.0
    }
    fn try_parse_power_state(power_state: PowerState) -> Option<Composite<N, MAX, C, D>> {
        let (PowerState::StandbyOrRetention(word) | PowerState::PowerDown(word)) = power_state;
        Some(composite(word))
    }
    fn cpu_standby(&self, cpu_state: State) {
        black_box(cpu_state);
    }
    fn power_domain_suspend(&self, target: &Composite<N, MAX, C, D>) {
        black_box(target);
    }
    fn power_domain_suspend_finish(&self, previous: &Composite<N, MAX, C, D>) {
        black_box(previous);
    }
    fn power_domain_off_early(&self, target: &Composite<N, MAX, C, D>) -> Result<(), ErrorCode> {
        black_box(target);
        Ok(())
    }
    fn power_domain_off(&self, target: &Composite<N, MAX, C, D>) {
        black_box(target);
    }
    fn power_domain_power_down(&self, target: &Composite<N, MAX, C, D>) {
        black_box(target);
    }
    fn power_domain_on(&self, target: Mpidr) -> Result<(), ErrorCode> {
        black_box(target);
        Ok(())
    }
    fn power_domain_on_finish(&self, previous: &Composite<N, MAX, C, D>) {
        black_box(previous);
    }
    fn system_off(&self) -> ! {
        unimplemented!("system_off is not timed")
    }
    fn system_reset(&self) -> ! {
        unimplemented!("system_reset is not timed")
    }
    fn sys_suspend_power_state(&self) -> Composite<N, MAX, C, D> {
        composite(SYSTEM_STATES.load(Relaxed))
    }
    fn is_valid_ns_entrypoint(&self, _: &EntryPoint) -> bool {
        ADDRESS_GOOD.load(Relaxed)
    }
    fn has_pending_interrupts(&self) -> bool {
        black_box(false)
    }
    fn is_feature_supported(&self, _: PsciPlatformOptionalFeatures) -> bool {
        FEATURE.load(Relaxed)
    }
}
