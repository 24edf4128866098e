//! The Rust's side: its calls, each in a function that is not inlined, as ours are not.

use crate::boards::Board;
use crate::leave::left;
use crate::platform::{CPU, Firmware, SPM, SYSTEM_STATES, Spm, StandIn, power_state};
use crate::rust_script::Run;
use crate::side::{ADDRESS, CONTEXT, Ran, Side, Stored};
use arm_psci::{EntryPoint, ErrorCode, Mpidr, SuspendMode};
use firmware::services::psci::Psci;
use firmware::services::psci::view_calls::Calls;
use std::sync::atomic::Ordering::Relaxed;

type Inner<const N: usize, const MAX: usize, const C: usize, const D: usize> =
    Psci<N, MAX, C, D, Firmware, StandIn<C>, Spm>;

pub struct Rust<const N: usize, const MAX: usize, const C: usize, const D: usize>(
    Inner<N, MAX, C, D>,
);

/// The numbers that we give a code and a mode.
pub fn number(answer: Result<(), ErrorCode>) -> i32 {
    answer.err().map_or(0, |error| error as i32)
}

pub fn suspend_mode(mode: u8) -> SuspendMode {
    if mode == 0 {
        SuspendMode::PlatformCoordinated
    } else {
        SuspendMode::OsInitiated
    }
}

pub fn running(cpu: u8) {
    CPU.store(cpu.into(), Relaxed);
}

/// What a call that is left has given: had it been refused, it would have returned, and its code would stand here.
fn left_or_refused(mut call: impl FnMut() -> i32) -> i32 {
    let mut code = 0;
    left(|| code = call());
    code
}

impl<const N: usize, const MAX: usize, const C: usize, const D: usize> Rust<N, MAX, C, D> {
    pub fn new(topology: &'static [usize]) -> Self {
        running(0);
        Self(Inner::made(StandIn(topology), || &SPM))
    }

    #[inline(never)]
    pub fn entry_on(&self, target: u8, entry: EntryPoint) -> i32 {
        number(self.0.cpu_on(Mpidr(target.into()), entry))
    }
    #[inline(never)]
    pub fn entry_off(&self) -> i32 {
        number(self.0.cpu_off())
    }
    #[inline(never)]
    pub fn entry_suspend(&self, states: [u8; 4], entry: EntryPoint) -> i32 {
        number(self.0.cpu_suspend(power_state(states), entry))
    }
    #[inline(never)]
    pub fn entry_boot(&self) -> i32 {
        std::hint::black_box(self.0.handle_cpu_boot());
        0
    }
    #[inline(never)]
    pub fn entry_system_suspend(&self, entry: EntryPoint) -> i32 {
        number(self.0.system_suspend(entry))
    }
    #[inline(never)]
    pub fn entry_set_mode(&self, mode: u8) -> i32 {
        number(self.0.set_suspend_mode(suspend_mode(mode)))
    }

    /// The stored states along a CPU's path, 0 above the top.
    pub fn path(&self, cpu: u8) -> [u8; 4] {
        self.0.stored(cpu)
    }
}

const ENTRY: EntryPoint = EntryPoint {
    address: ADDRESS,
    context: CONTEXT,
};

impl<const N: usize, const MAX: usize, const C: usize, const D: usize> Side for Rust<N, MAX, C, D> {
    fn fresh(board: &Board) -> Self {
        Self::new(board.topology)
    }

    #[inline(always)]
    fn cpu_on(&mut self, caller: u8, target: u8) -> i32 {
        running(caller);
        self.entry_on(target, ENTRY)
    }
    #[inline(always)]
    fn cpu_off(&mut self, caller: u8) -> i32 {
        running(caller);
        left_or_refused(|| self.entry_off())
    }
    #[inline(always)]
    fn suspend_and_finish(&mut self, caller: u8, states: [u8; 4]) -> i32 {
        running(caller);
        self.entry_suspend(states, ENTRY)
    }
    #[inline(always)]
    fn power_down(&mut self, caller: u8, states: [u8; 4]) -> i32 {
        running(caller);
        left_or_refused(|| self.entry_suspend(states, ENTRY))
    }
    #[inline(always)]
    fn boot(&mut self, cpu: u8) -> i32 {
        running(cpu);
        self.entry_boot()
    }
    #[inline(always)]
    fn system_suspend(&mut self, caller: u8, states: [u8; 4]) -> i32 {
        running(caller);
        SYSTEM_STATES.store(u32::from_le_bytes(states), Relaxed);
        left_or_refused(|| self.entry_system_suspend(ENTRY))
    }
    #[inline(always)]
    fn set_mode(&mut self, caller: u8, mode: u8) -> i32 {
        running(caller);
        self.entry_set_mode(mode)
    }
    fn script(board: &Board, events: &[u8], out: &mut [u8]) -> Ran {
        Run::of(&Self::new(board.topology), events, out)
    }

    fn stored(&self) -> Stored {
        let fields = self.0.fields();
        let cpus = || fields.cpus.iter();
        Stored {
            affinities: cpus().map(|cpu| cpu.affinity as u8).collect(),
            cpu_states: cpus().map(|cpu| cpu.state).collect(),
            entries: cpus()
                .map(|cpu| cpu.entry.map(|entry| (entry.address, entry.context)))
                .collect(),
            domain_states: fields.domains.iter().map(|domain| domain.state).collect(),
            mode: (self.0.mode() == SuspendMode::OsInitiated) as u8,
        }
    }
}
