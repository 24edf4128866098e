//! Appended to the copy of the call file: its private functions and fields, whatever the top level is.

use super::*;

pub use super::power_domain_tree::view_tree::{Cpu, Domain, Fields};

type Answer = Result<(), ErrorCode>;

pub trait Calls: Send + Sync {
    fn cpu_on(&self, target: Mpidr, entry: EntryPoint) -> Answer;
    fn cpu_off(&self) -> Answer;
    fn cpu_suspend(&self, power_state: PowerState, entry: EntryPoint) -> Answer;
    /// `states` are from level 0 up; those above the top level are not looked at.
    fn cpu_suspend_start(
        &self,
        cpu: u8,
        power_state: Option<PowerState>,
        entry: EntryPoint,
        highest_affected_level: usize,
        states: [u8; 4],
        is_power_down_state: bool,
    ) -> Answer;
    fn system_suspend(&self, entry: EntryPoint) -> Answer;
    fn set_suspend_mode(&self, mode: SuspendMode) -> Answer;
    fn handle_cpu_boot(&self) -> WakeUpReason;

    fn mode(&self) -> SuspendMode;
    fn set_mode(&self, mode: SuspendMode);
    fn fields(&self) -> Fields;
    /// The states along a CPU's path, as the Rust itself reads them: under its locks, 0 above the top level.
    fn stored(&self, cpu: u8) -> [u8; 4];
    fn set_fields(&self, fields: &Fields);

    fn are_all_cpus_on(&self) -> bool;
    fn is_last_cpu(&self, cpu: u8) -> bool;
    fn last_to_idle(&self, cpu: u8, level: usize) -> bool;
    fn allowed(&self, domain: usize, cpu: u8, child: Option<u8>) -> u8;
}

impl<const N: usize, const MAX: usize, const C: usize, const D: usize, P, Q, Spm>
    Psci<N, MAX, C, D, P, Q, Spm>
where
    P: Platform + PlatformCpuOps,
    Q: PsciPlatformInterface<N, MAX, C, D>,
    Spm: PsciSpmInterface,
{
    pub fn made(platform: Q, spm: fn() -> &'static Spm) -> Self {
        Self::new(platform, spm)
    }
}

impl<const N: usize, const MAX: usize, const C: usize, const D: usize, P, Q, Spm> Calls
    for Psci<N, MAX, C, D, P, Q, Spm>
where
    P: Platform + PlatformCpuOps,
    Q: PsciPlatformInterface<N, MAX, C, D, NodeIndex = u8>,
    Q::PlatformPowerState: From<u8>,
    Spm: PsciSpmInterface,
{
    fn cpu_on(&self, target: Mpidr, entry: EntryPoint) -> Answer {
        Psci::cpu_on(self, target, entry)
    }
    fn cpu_off(&self) -> Answer {
        Psci::cpu_off(self)
    }
    fn cpu_suspend(&self, power_state: PowerState, entry: EntryPoint) -> Answer {
        Psci::cpu_suspend(self, power_state, entry)
    }
    fn cpu_suspend_start(
        &self,
        cpu: u8,
        power_state: Option<PowerState>,
        entry: EntryPoint,
        highest_affected_level: usize,
        states: [u8; 4],
        is_power_down_state: bool,
    ) -> Answer {
        let states =
            PsciCompositePowerState::new(core::array::from_fn(|level| states[level].into()));
        Psci::cpu_suspend_start(
            self,
            cpu,
            power_state,
            entry,
            highest_affected_level,
            states,
            is_power_down_state,
        )
    }
    fn system_suspend(&self, entry: EntryPoint) -> Answer {
        Psci::system_suspend(self, entry)
    }
    fn set_suspend_mode(&self, mode: SuspendMode) -> Answer {
        Psci::set_suspend_mode(self, mode).map(|_| ())
    }
    fn handle_cpu_boot(&self) -> WakeUpReason {
        Psci::handle_cpu_boot(self)
    }

    fn mode(&self) -> SuspendMode {
        *self.suspend_mode.lock()
    }
    fn set_mode(&self, mode: SuspendMode) {
        *self.suspend_mode.lock() = mode;
    }
    fn fields(&self) -> Fields {
        self.power_domain_tree.fields()
    }
    fn stored(&self, cpu: u8) -> [u8; 4] {
        let mut path = PsciCompositePowerState::<N, MAX, C, D, _, _>::RUN;
        let mut node = self.power_domain_tree.locked_cpu_node(cpu);
        self.power_domain_tree
            .with_ancestors_locked(&mut node, |cpu, ancestors| {
                path.set_local_states_from_nodes(cpu, &ancestors)
            });
        core::array::from_fn(|level| {
            path.states
                .get(level)
                .map_or(0, |&state| state.into() as u8)
        })
    }
    fn set_fields(&self, fields: &Fields) {
        self.power_domain_tree.set_fields(fields)
    }

    fn are_all_cpus_on(&self) -> bool {
        self.power_domain_tree.are_all_cpus_on()
    }
    fn is_last_cpu(&self, cpu: u8) -> bool {
        self.power_domain_tree.is_last_cpu(cpu)
    }
    fn last_to_idle(&self, cpu: u8, level: usize) -> bool {
        self.power_domain_tree.last_to_idle(cpu, level)
    }
    fn allowed(&self, domain: usize, cpu: u8, child: Option<u8>) -> u8 {
        self.power_domain_tree.allowed(domain, cpu, child)
    }
}
