//! Stand-ins for the firmware's own modules. The upstream files stand in `services`, as they do there.

pub mod aarch64 {
    use std::sync::OnceLock;

    /// What waits: nothing wakes a CPU here but the one who compares.
    pub static WAIT: OnceLock<fn()> = OnceLock::new();

    pub fn dsb_sy() {}

    pub fn wfi() {
        WAIT.get().expect("someone waits")()
    }
}

pub mod context {
    use arm_sysregs::el1::registers::MpidrEl1;

    pub trait CoreIndex {
        fn local_index() -> usize;
        fn is_valid_mpidr(mpidr: MpidrEl1) -> bool;
        fn mpidr_to_index(mpidr: MpidrEl1) -> usize;
    }

    pub enum World {
        NonSecure,
    }
}

pub mod cpu {
    pub trait PlatformCpuOps {
        fn power_down(level: usize);
    }

    pub fn cpu_power_down<P: PlatformCpuOps>(level: usize) {
        P::power_down(level)
    }

    pub fn cpu_handle_power_down_abandon<P: PlatformCpuOps>() {}
}

pub mod platform {
    use super::context::CoreIndex;

    pub trait Platform: Send + Sync {
        type CoreIndexImpl: CoreIndex;
        const CPU_EXTENSIONS: &'static [Extension] = &[];
    }

    pub struct Extension;

    impl Extension {
        pub fn save_context_before_suspend_to_powerdown(&self) {}
    }
}

pub mod services {
    use super::{context::World, smccc::SmcReturn};

    pub mod psci;

    pub trait Service {
        fn handle_non_secure_smc(&self, regs: &mut SmcReturn) -> World;
    }

    macro_rules! owns {
        ($owner:expr, $functions:expr) => {};
    }
    pub(crate) use owns;
}

pub mod smccc {
    pub struct FunctionId(pub u32);

    impl FunctionId {
        pub fn clear_sve_hint(&mut self) {}
    }

    pub struct OwningEntityNumber;

    pub struct SmcReturn([u64; 4]);

    impl SmcReturn {
        pub fn values_mut(&mut self) -> &mut [u64] {
            &mut self.0
        }
    }

    pub trait SetFrom<T> {
        fn set_from(&mut self, value: T);
    }

    impl SetFrom<u64> for SmcReturn {
        fn set_from(&mut self, value: u64) {
            self.0 = [value, 0, 0, 0];
        }
    }
}
