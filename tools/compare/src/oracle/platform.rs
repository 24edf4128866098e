//! The stand-in for a platform and its SPM: it answers as the event says, and keeps what it is handed.

use super::board::Levels;
use super::now::{State, bytes, entry_bytes, now};
use super::ran::Unusable;
use crate::layout::{CPUS, DOMAINS, notice};
use arm_psci::{EntryPoint, ErrorCode, Function, Mpidr, PowerState, ReturnCode};
use arm_sysregs::el1::registers::MpidrEl1;
use firmware::context::CoreIndex;
use firmware::cpu::PlatformCpuOps;
use firmware::platform::Platform;
use firmware::services::psci::*;

pub struct Core;

impl CoreIndex for Core {
    fn local_index() -> usize {
        now().cpu
    }
    fn is_valid_mpidr(mpidr: MpidrEl1) -> bool {
        mpidr.0 < now().cpus as u64
    }
    fn mpidr_to_index(mpidr: MpidrEl1) -> usize {
        mpidr.0 as usize
    }
}

pub struct Firmware;

impl Platform for Firmware {
    type CoreIndexImpl = Core;
}

impl PlatformCpuOps for Firmware {
    fn power_down(level: usize) {
        now()
            .notices
            .push((notice::CORE_POWER_DOWN, bytes(&[level as u8])));
    }
}

pub struct Spm;

pub static SPM: Spm = Spm;

impl PsciSpmInterface for Spm {
    fn forward_psci_request(&self, function: Function) -> ReturnCode {
        let mut now = now();
        let told = match function {
            Function::CpuOff => (notice::SPM_TOLD_OFF, [0; 16]),
            Function::CpuSuspend { state, entry } => {
                now.told = Some(state);
                (notice::SPM_TOLD_SUSPEND, entry_bytes(entry))
            }
            Function::SystemSuspend { entry } => {
                (notice::SPM_TOLD_SYSTEM_SUSPEND, entry_bytes(entry))
            }
            _ => (notice::NOTHING, [255; 16]),
        };
        now.notices.push(told);
        // The SPM's answer is not part of the port, and changes nothing upstream.
        ReturnCode::Success
    }
    fn notify_cpu_off(&self) {
        now().notices.push((notice::SPM_NOTIFIED_OFF, [0; 16]));
    }
    fn notify_cpu_suspend_powerdown_abandoned(&self) {
        now().notices.push((notice::SPM_ABANDON, [0; 16]));
    }
}

pub struct StandIn;

type Composite<const N: usize, const MAX: usize> =
    PsciCompositePowerState<N, MAX, CPUS, DOMAINS, u8, State>;

impl<const N: usize, const MAX: usize> PsciPlatformInterface<N, MAX, CPUS, DOMAINS> for StandIn {
    const POWER_DOMAIN_COUNT: usize = CPUS + DOMAINS;
    const FEATURES: PsciPlatformOptionalFeatures = PsciPlatformOptionalFeatures::empty();
    type PlatformPowerState = State;
    type NodeIndex = u8;

    fn topology(&self) -> &'static [usize] {
        now().topology
    }
    fn try_parse_power_state(power_state: PowerState) -> Option<Composite<N, MAX>> {
        let (PowerState::StandbyOrRetention(word) | PowerState::PowerDown(word)) = power_state;
        let (levels, states) = (now().levels, word.to_le_bytes());
        levels.in_range(states).then(|| composite(levels, states))
    }
    fn cpu_standby(&self, cpu_state: State) {
        let mut now = now();
        now.standby = Some(now.levels.from_rust(cpu_state.0));
    }
    fn power_domain_suspend(&self, target: &Composite<N, MAX>) {
        now().handed(notice::PLATFORM_SUSPEND, &target.states);
    }
    fn power_domain_suspend_finish(&self, previous: &Composite<N, MAX>) {
        now().handed(notice::SUSPEND_FINISH, &previous.states);
    }
    fn power_domain_off_early(&self, target: &Composite<N, MAX>) -> Result<(), ErrorCode> {
        let mut now = now();
        now.early = Some(now.board_states(&target.states));
        now.answered()
    }
    fn power_domain_off(&self, target: &Composite<N, MAX>) {
        now().handed(notice::PLATFORM_OFF, &target.states);
    }
    fn power_domain_power_down(&self, target: &Composite<N, MAX>) {
        now().handed(notice::PLATFORM_POWER_DOWN, &target.states);
    }
    fn power_domain_on(&self, _: Mpidr) -> Result<(), ErrorCode> {
        now().answered()
    }
    fn power_domain_on_finish(&self, previous: &Composite<N, MAX>) {
        now().handed(notice::ON_FINISH, &previous.states);
    }
    fn system_off(&self) -> ! {
        unimplemented!("system_off is not compared")
    }
    fn system_reset(&self) -> ! {
        unimplemented!("system_reset is not compared")
    }
    /// A state out of range can't be written in the Rust: the call is left here, after the checks that stand before it.
    fn sys_suspend_power_state(&self) -> Composite<N, MAX> {
        let (levels, states) = {
            let now = now();
            (now.levels, now.system_states)
        };
        if !levels.in_range(states) {
            std::panic::resume_unwind(Box::new(Unusable));
        }
        composite(levels, states)
    }
    fn is_valid_ns_entrypoint(&self, _: &EntryPoint) -> bool {
        now().address_good
    }
    fn has_pending_interrupts(&self) -> bool {
        now().pending
    }
    fn is_feature_supported(&self, feature: PsciPlatformOptionalFeatures) -> bool {
        let now = now();
        (feature == PsciPlatformOptionalFeatures::SYSTEM_SUSPEND && now.system_suspend)
            || (feature == PsciPlatformOptionalFeatures::OS_INITIATED_MODE && now.os_initiated)
    }
}

fn composite<const N: usize, const MAX: usize>(
    levels: Levels,
    states: [u8; 4],
) -> Composite<N, MAX> {
    PsciCompositePowerState::new(std::array::from_fn(|level| {
        State(levels.to_rust(states[level]))
    }))
}
