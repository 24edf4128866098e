//! The bytes that the two sides exchange: what our program `trace` takes and gives, as docs/REFERENCE.md lists them.
//! Numbers are little-endian.

/// The limits of a board.
pub const CPUS: usize = 16;
pub const DOMAINS: usize = 16;
pub const ENTRIES: usize = DOMAINS + 1;
pub const LEVELS: usize = 3;

/// The bytes that stand for none.
pub const NO_PARENT: u8 = 255;
pub const NO_SUSPEND_STATE: u8 = 255;

/// A state: every field, the tree's too.
pub mod image {
    use super::*;

    pub const MAX: usize = 0;
    pub const STATES: usize = 1;
    pub const DOWN: usize = 2;
    pub const PRIMARY: usize = 3;
    pub const TOPOLOGY: usize = 4;
    pub const DOMAIN_COUNT: usize = TOPOLOGY + ENTRIES;
    pub const CPU_COUNT: usize = DOMAIN_COUNT + 1;
    pub const PARENTS: usize = CPU_COUNT + 1;
    pub const CPU_STARTS: usize = PARENTS + DOMAINS;
    pub const CPU_ENDS: usize = CPU_STARTS + DOMAINS;
    pub const CHILD_STARTS: usize = CPU_ENDS + DOMAINS;
    pub const CHILD_ENDS: usize = CHILD_STARTS + DOMAINS;
    /// By CPU: parent, affinity (0 On, 1 Off, 2 OnPending), state, whether an entry is held, its address and context.
    pub const CPU_ROW: usize = CHILD_ENDS + DOMAINS;
    pub const CPU: usize = 20;
    pub const CPU_PARENT: usize = 0;
    pub const CPU_AFFINITY: usize = 1;
    pub const CPU_STATE: usize = 2;
    pub const CPU_HELD: usize = 3;
    pub const CPU_ADDRESS: usize = 4;
    pub const CPU_CONTEXT: usize = 12;
    pub const DOMAIN_STATES: usize = CPU_ROW + CPUS * CPU;
    /// By level and CPU, level 1 first.
    pub const REQUESTS: usize = DOMAIN_STATES + DOMAINS;
    pub const SUSPENDS: usize = REQUESTS + LEVELS * CPUS;
    /// By domain: the copy of its state that its parent holds.
    pub const COPIES: usize = SUSPENDS + LEVELS * CPUS;
    pub const MODE: usize = COPIES + DOMAINS;
    pub const SIZE: usize = MODE + 1;
}

/// What our program is asked: the kind, a script's record, and for an event the state before it.
pub mod request {
    pub const KIND: usize = 0;
    pub const EVENT: u8 = 1;
    pub const START: u8 = 2;
    pub const RECORD: usize = 1;
    pub const RECORD_SIZE: usize = 28;
    pub const IMAGE: usize = RECORD + RECORD_SIZE;
    pub const SIZE: usize = IMAGE + super::image::SIZE;
}

/// What it answers.
pub mod reply {
    use super::*;

    pub const CODE: usize = 0;
    pub const NOT_ENTERED: usize = 1;
    /// 0 none, 1 CPU-on, 2 suspend-finished.
    pub const WAKE: usize = 2;
    /// Whether an entry is handed out, its address and context.
    pub const ENTRY: usize = 3;
    pub const STATES: usize = ENTRY + 17;
    /// Five notices, each a kind and 16 bytes: states in the first four, a level in the first, or address and context.
    pub const NOTICES: usize = STATES + 4;
    pub const NOTICE_COUNT: usize = 5;
    pub const NOTICE: usize = 17;
    /// The state after the event.
    pub const IMAGE: usize = NOTICES + NOTICE_COUNT * NOTICE;
    /// The queries. A test is 0 or 1, a state is itself, a refusal its number; 0 where there is no such CPU or domain.
    pub const ALL_ON: usize = IMAGE + image::SIZE;
    /// By CPU.
    pub const IS_LAST: usize = ALL_ON + 1;
    /// By CPU and level, levels 0 to 3.
    pub const LAST_TO_IDLE: usize = IS_LAST + CPUS;
    /// By domain and CPU left out, with no child given.
    pub const ALLOWED: usize = LAST_TO_IDLE + CPUS * (LEVELS + 1);
    /// By child and CPU left out, asked of the child's parent with that child given.
    pub const ALLOWED_BESIDE_CHILD: usize = ALLOWED + DOMAINS * CPUS;
    pub const SIZE: usize = ALLOWED_BESIDE_CHILD + DOMAINS * CPUS;
}

/// The kinds of notices.
pub mod notice {
    pub const NOTHING: u8 = 0;
    pub const SPM_TOLD_OFF: u8 = 1;
    pub const SPM_TOLD_SUSPEND: u8 = 2;
    pub const SPM_TOLD_SYSTEM_SUSPEND: u8 = 3;
    pub const SPM_NOTIFIED_OFF: u8 = 4;
    pub const SPM_ABANDON: u8 = 5;
    pub const CORE_POWER_DOWN: u8 = 6;
    pub const PLATFORM_OFF: u8 = 7;
    pub const PLATFORM_SUSPEND: u8 = 8;
    pub const PLATFORM_POWER_DOWN: u8 = 9;
    pub const SUSPEND_FINISH: u8 = 10;
    pub const ON_FINISH: u8 = 11;
}

pub type Image = [u8; image::SIZE];
pub type Request = [u8; request::SIZE];
pub type Reply = [u8; reply::SIZE];

/// A board as its record gives it.
#[derive(Clone, Debug, PartialEq, Eq)]
pub struct Board {
    pub max: u8,
    pub states: u8,
    pub down: u8,
    pub primary: u8,
    pub topology: Vec<u8>,
}
