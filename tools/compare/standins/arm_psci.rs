//! A stand-in for the crate `arm_psci`: the names that the call file uses, with DEN0022's numbers where they matter.

#[derive(Clone, Copy, Debug, PartialEq, Eq)]
pub enum AffinityInfo {
    On = 0,
    Off = 1,
    OnPending = 2,
}

#[derive(Clone, Copy, Debug, PartialEq, Eq)]
pub enum ErrorCode {
    NotSupported = -1,
    InvalidParameters = -2,
    Denied = -3,
    AlreadyOn = -4,
    OnPending = -5,
    InternalFailure = -6,
    NotPresent = -7,
    Disabled = -8,
    InvalidAddress = -9,
}

impl From<ErrorCode> for u64 {
    fn from(code: ErrorCode) -> u64 {
        code as i64 as u64
    }
}

#[derive(Clone, Copy, Debug, PartialEq, Eq)]
pub struct EntryPoint {
    pub address: u64,
    pub context: u64,
}

#[derive(Clone, Copy, Debug, PartialEq, Eq)]
pub struct Mpidr(pub u64);

impl From<Mpidr> for u64 {
    fn from(mpidr: Mpidr) -> u64 {
        mpidr.0
    }
}

/// The word has a state for each level, level 0 in the lowest byte.
#[derive(Clone, Copy, Debug, PartialEq, Eq)]
pub enum PowerState {
    StandbyOrRetention(u32),
    PowerDown(u32),
}

#[derive(Clone, Copy, Debug, PartialEq, Eq)]
pub enum SuspendMode {
    PlatformCoordinated,
    OsInitiated,
}

pub enum ReturnCode {
    Success,
    Error(ErrorCode),
}

/// What only SMC handling uses, which nobody calls here.
#[derive(Clone, Copy, Debug, PartialEq, Eq)]
pub struct Unused;
pub type Cookie = Unused;
pub type MemProtectRange = Unused;
pub type ResetType = Unused;
pub type SystemOff2Type = Unused;
pub type HwState = Unused;

impl From<Unused> for u32 {
    fn from(_: Unused) -> u32 {
        0
    }
}

impl From<AffinityInfo> for u32 {
    fn from(affinity: AffinityInfo) -> u32 {
        affinity as u32
    }
}

pub enum MigrateInfoType {
    MigrationNotRequired = 2,
}

impl From<MigrateInfoType> for u32 {
    fn from(kind: MigrateInfoType) -> u32 {
        kind as u32
    }
}

pub struct Version {
    pub major: u32,
    pub minor: u32,
}

impl From<Version> for u32 {
    fn from(version: Version) -> u32 {
        version.major << 16 | version.minor
    }
}

pub struct FeatureFlagsCpuSuspend(u32);

impl FeatureFlagsCpuSuspend {
    pub const OS_INITIATED_MODE: Self = Self(1);
    pub const EXTENDED_POWER_STATE: Self = Self(2);
    pub fn empty() -> Self {
        Self(0)
    }
}

impl core::ops::BitOr for FeatureFlagsCpuSuspend {
    type Output = Self;
    fn bitor(self, other: Self) -> Self {
        Self(self.0 | other.0)
    }
}

impl From<FeatureFlagsCpuSuspend> for u32 {
    fn from(flags: FeatureFlagsCpuSuspend) -> u32 {
        flags.0
    }
}

pub struct FeatureFlagsSystemOff2;

impl FeatureFlagsSystemOff2 {
    pub const HIBERNATE_OFF: Self = Self;
}

impl From<FeatureFlagsSystemOff2> for u32 {
    fn from(_: FeatureFlagsSystemOff2) -> u32 {
        1
    }
}

#[derive(Clone, Copy, Debug, PartialEq, Eq)]
pub enum PsciFeature {
    PsciFunction(FunctionId),
    SmcccVersion,
}

#[derive(Clone, Copy, Debug, PartialEq, Eq)]
pub enum Function {
    Version,
    CpuSuspend {
        state: PowerState,
        entry: EntryPoint,
    },
    CpuOff,
    CpuOn {
        target_cpu: Mpidr,
        entry: EntryPoint,
    },
    AffinityInfo {
        mpidr: Mpidr,
        lowest_affinity_level: u32,
    },
    Migrate {
        target_cpu: Mpidr,
    },
    MigrateInfoType,
    MigrateInfoUpCpu {
        target_cpu: Mpidr,
    },
    SystemOff,
    SystemOff2 {
        off_type: SystemOff2Type,
        cookie: Cookie,
    },
    SystemReset,
    SystemReset2 {
        reset_type: ResetType,
        cookie: Cookie,
    },
    MemProtect {
        enabled: bool,
    },
    MemProtectCheckRange {
        range: MemProtectRange,
    },
    Features {
        psci_func_id: PsciFeature,
    },
    CpuFreeze,
    CpuDefaultSuspend {
        entry: EntryPoint,
    },
    NodeHwState {
        target_cpu: Mpidr,
        power_level: u32,
    },
    SystemSuspend {
        entry: EntryPoint,
    },
    SetSuspendMode {
        mode: SuspendMode,
    },
    StatResidency {
        target_cpu: Mpidr,
    },
    StatCount {
        target_cpu: Mpidr,
    },
}

impl TryFrom<&[u64; 4]> for Function {
    type Error = ErrorCode;
    fn try_from(_: &[u64; 4]) -> Result<Self, ErrorCode> {
        Err(ErrorCode::NotSupported)
    }
}

#[derive(Clone, Copy, Debug, PartialEq, Eq)]
#[rustfmt::skip]
pub enum FunctionId {
    PsciVersion, CpuSuspend32, CpuSuspend64, CpuOff, CpuOn32, CpuOn64, AffinityInfo32, AffinityInfo64, Migrate32, Migrate64,
    MigrateInfoType, MigrateInfoUpCpu32, MigrateInfoUpCpu64, SystemOff, SystemOff232, SystemOff264, SystemReset,
    SystemReset232, SystemReset264, MemProtect, MemProtectCheckRange32, MemProtectCheckRange64, PsciFeatures, CpuFreeze,
    CpuDefaultSuspend32, CpuDefaultSuspend64, NodeHwState32, NodeHwState64, SystemSuspend32, SystemSuspend64,
    PsciSetSuspendMode, PsciStatResidency32, PsciStatResidency64, PsciStatCount32, PsciStatCount64,
}
