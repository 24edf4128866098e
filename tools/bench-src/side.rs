//! What both sides can do. The driver is compiled for each side apart, so that each call is made directly: one call instruction
//! on either side, which is not inlined.

use crate::boards::Board;

/// The entry that every on and suspend is given.
pub const ADDRESS: u64 = 0x8000;
pub const CONTEXT: u64 = 7;

/// What is stored, as far as it is compared before anything is timed.
#[derive(Clone, Debug, PartialEq, Eq)]
pub struct Stored {
    pub affinities: Vec<u8>,
    pub cpu_states: Vec<u8>,
    pub entries: Vec<Option<(u64, u64)>>,
    pub domain_states: Vec<u8>,
    pub mode: u8,
}

/// What a run of a script did.
pub struct Ran {
    pub events: u32,
    /// Calls that were left, and waits that were returned from: their cost is the driver's, and is subtracted.
    pub left: u32,
    pub waits: u32,
}

pub trait Side {
    fn fresh(board: &Board) -> Self;
    fn cpu_on(&mut self, caller: u8, target: u8) -> i32;
    fn cpu_off(&mut self, caller: u8) -> i32;
    fn suspend_and_finish(&mut self, caller: u8, states: [u8; 4]) -> i32;
    /// A suspend whose state is power-down, so that a boot follows.
    fn power_down(&mut self, caller: u8, states: [u8; 4]) -> i32;
    fn boot(&mut self, cpu: u8) -> i32;
    fn system_suspend(&mut self, caller: u8, states: [u8; 4]) -> i32;
    fn set_mode(&mut self, caller: u8, mode: u8) -> i32;
    fn script(board: &Board, events: &[u8], out: &mut [u8]) -> Ran;

    fn stored(&self) -> Stored;
}
