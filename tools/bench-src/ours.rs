//! Our side: the exported functions, and the rows that a board's state stands in.

use crate::boards::{Board, FIRST_POWER_DOWN, STATES};
use crate::side::{ADDRESS, CONTEXT, Ran, Side, Stored};

/// The most domains and CPUs that a board has, and its tables by level and CPU.
const MOST: usize = 16;
const TABLE: usize = 3 * MOST;

/// A board's state, as the exported functions take it: each row by its address.
pub struct Ours {
    /// MAX, states, first power-down state, CPUs, mode.
    board: [u8; 5],
    parents: [u8; MOST],
    starts: [u8; MOST],
    ends: [u8; MOST],
    firsts: [u8; MOST],
    states: [u8; MOST],
    requests: [u8; TABLE],
    suspends: [u8; TABLE],
    copies: [u8; MOST],
    affinities: [u8; MOST],
    locals: [u8; MOST],
    helds: [u8; MOST],
    addresses: [u64; MOST],
    contexts: [u64; MOST],
    /// The states that go to the platform: an answer, not a part of the state.
    handed: [u8; 4],
    domains: usize,
}

/// What a state takes: the sum of its rows, without what is handed out.
pub const STATE_BYTES: usize = 5 + 9 * MOST + 2 * TABLE + 2 * 8 * MOST;

/// How many arguments each function takes. Those that find no register are on the caller's stack, and are counted.
pub const ARGUMENTS: [(&str, usize); 9] = [
    ("psci_start", 20),
    ("psci_cpu_on", 13),
    ("psci_cpu_off", 17),
    ("psci_cpu_suspend_start", 23),
    ("psci_cpu_suspend_finish", 16),
    ("psci_handle_cpu_boot", 16),
    ("psci_system_suspend", 25),
    ("psci_set_suspend_mode", 10),
    ("psci_script", 8),
];

type Row = *mut u8;
type Fixed = *const u8;
type Wide = *mut u64;

#[rustfmt::skip]
unsafe extern "C" {
    fn psci_start(topology: Fixed, length: usize, max: u8, state_count: u8, down: u8, primary: u8,
        board: Row, parents: Row, starts: Row, ends: Row, states: Row, requests: Row, suspends: Row, copies: Row, firsts: Row,
        affinities: Row, locals: Row, helds: Row, addresses: Wide, contexts: Wide) -> i32;
    fn psci_cpu_on(board: Row, firsts: Fixed, affinities: Row, locals: Row, helds: Row, addresses: Wide, contexts: Wide,
        caller: u8, target: u8, address: u64, context: u64, address_good: bool, answer: u8) -> i32;
    fn psci_cpu_off(board: Row, parents: Fixed, starts: Fixed, ends: Fixed, states: Row, requests: Row,
        suspends: Row, copies: Row, firsts: Fixed, affinities: Row, locals: Row, helds: Row, addresses: Wide, contexts: Wide, handed: Row,
        caller: u8, early_answer: u8) -> i32;
    fn psci_cpu_suspend_start(board: Row, parents: Fixed, starts: Fixed, ends: Fixed, states: Row, requests: Row,
        suspends: Row, copies: Row, firsts: Fixed, affinities: Row, locals: Row, helds: Row, addresses: Wide, contexts: Wide, handed: Row,
        caller: u8, pending: bool, address: u64, context: u64, level0: u8, level1: u8, level2: u8, level3: u8) -> i32;
    fn psci_cpu_suspend_finish(board: Row, parents: Fixed, starts: Fixed, ends: Fixed, states: Row, requests: Row,
        suspends: Row, copies: Row, firsts: Fixed, affinities: Row, locals: Row, helds: Row, addresses: Wide, contexts: Wide, handed: Row,
        cpu: u8) -> i32;
    fn psci_handle_cpu_boot(board: Row, parents: Fixed, starts: Fixed, ends: Fixed, states: Row, requests: Row,
        suspends: Row, copies: Row, firsts: Fixed, affinities: Row, locals: Row, helds: Row, addresses: Wide, contexts: Wide, handed: Row,
        cpu: u8) -> i32;
    fn psci_system_suspend(board: Row, parents: Fixed, starts: Fixed, ends: Fixed, states: Row, requests: Row,
        suspends: Row, copies: Row, firsts: Fixed, affinities: Row, locals: Row, helds: Row, addresses: Wide, contexts: Wide, handed: Row,
        caller: u8, feature: bool, pending: bool, address_good: bool, address: u64, context: u64,
        level0: u8, level1: u8, level2: u8, level3: u8) -> i32;
    fn psci_set_suspend_mode(board: Row, firsts: Fixed, affinities: Fixed, locals: Fixed, helds: Fixed, addresses: *const u64,
        contexts: *const u64, caller: u8, feature: bool, mode: u8) -> i32;
    fn psci_script(board: Fixed, board_length: usize, events: Fixed, events_length: usize, out: Row, out_length: usize,
        taken: *mut u32, budget: u32) -> i32;
}

/// A call on all rows: their addresses in order, then the call's own arguments.
macro_rules! on_rows {
    ($call:ident, $ours:ident $(, $argument:expr)*) => {
        // every row is as long as the function takes it to be, and none is lent elsewhere
        unsafe {
            $call($ours.board.as_mut_ptr(), $ours.parents.as_ptr(), $ours.starts.as_ptr(), $ours.ends.as_ptr(),
                $ours.states.as_mut_ptr(), $ours.requests.as_mut_ptr(), $ours.suspends.as_mut_ptr(), $ours.copies.as_mut_ptr(),
                $ours.firsts.as_ptr(), $ours.affinities.as_mut_ptr(), $ours.locals.as_mut_ptr(), $ours.helds.as_mut_ptr(),
                $ours.addresses.as_mut_ptr(), $ours.contexts.as_mut_ptr(), $ours.handed.as_mut_ptr() $(, $argument)*)
        }
    };
}

impl Side for Ours {
    fn fresh(board: &Board) -> Self {
        // rows of numbers, of which zeros are values
        let mut o: Self = unsafe { std::mem::zeroed() };
        o.domains = board.domains;
        let topology: Vec<u8> = board.topology.iter().map(|&entry| entry as u8).collect();
        let max = board.max as u8;
        #[rustfmt::skip]
        let code = unsafe {
            psci_start(topology.as_ptr(), topology.len(), max, STATES, FIRST_POWER_DOWN, 0, o.board.as_mut_ptr(),
                o.parents.as_mut_ptr(), o.starts.as_mut_ptr(), o.ends.as_mut_ptr(), o.states.as_mut_ptr(),
                o.requests.as_mut_ptr(), o.suspends.as_mut_ptr(), o.copies.as_mut_ptr(), o.firsts.as_mut_ptr(), o.affinities.as_mut_ptr(),
                o.locals.as_mut_ptr(), o.helds.as_mut_ptr(), o.addresses.as_mut_ptr(), o.contexts.as_mut_ptr())
        };
        assert_eq!(code, 0, "our start refuses {}", board.name());
        o
    }

    #[inline(always)]
    fn cpu_on(&mut self, caller: u8, target: u8) -> i32 {
        #[rustfmt::skip]
        let code = unsafe {
            psci_cpu_on(self.board.as_mut_ptr(), self.firsts.as_ptr(), self.affinities.as_mut_ptr(), self.locals.as_mut_ptr(), self.helds.as_mut_ptr(),
                self.addresses.as_mut_ptr(), self.contexts.as_mut_ptr(), caller, target, ADDRESS, CONTEXT, true, 0)
        };
        code
    }
    #[inline(always)]
    fn cpu_off(&mut self, caller: u8) -> i32 {
        on_rows!(psci_cpu_off, self, caller, 0)
    }
    #[inline(always)]
    fn suspend_and_finish(&mut self, caller: u8, states: [u8; 4]) -> i32 {
        self.power_down(caller, states) | on_rows!(psci_cpu_suspend_finish, self, caller)
    }
    #[inline(always)]
    fn power_down(&mut self, caller: u8, [l0, l1, l2, l3]: [u8; 4]) -> i32 {
        on_rows!(
            psci_cpu_suspend_start,
            self,
            caller,
            false,
            ADDRESS,
            CONTEXT,
            l0,
            l1,
            l2,
            l3
        )
    }
    #[inline(always)]
    fn boot(&mut self, cpu: u8) -> i32 {
        on_rows!(psci_handle_cpu_boot, self, cpu)
    }
    #[inline(always)]
    fn system_suspend(&mut self, caller: u8, [l0, l1, l2, l3]: [u8; 4]) -> i32 {
        on_rows!(
            psci_system_suspend,
            self,
            caller,
            true,
            false,
            true,
            ADDRESS,
            CONTEXT,
            l0,
            l1,
            l2,
            l3
        )
    }
    #[inline(always)]
    fn set_mode(&mut self, caller: u8, mode: u8) -> i32 {
        #[rustfmt::skip]
        let code = unsafe {
            psci_set_suspend_mode(self.board.as_mut_ptr(), self.firsts.as_ptr(), self.affinities.as_ptr(), self.locals.as_ptr(),
                self.helds.as_ptr(), self.addresses.as_ptr(), self.contexts.as_ptr(), caller, true, mode)
        };
        code
    }
    fn script(board: &Board, events_bytes: &[u8], out: &mut [u8]) -> Ran {
        let (record, length) = (board.record.as_ptr(), board.record.len());
        let (out, room) = (out.as_mut_ptr(), out.len());
        let mut events = 0;
        let closing = unsafe {
            psci_script(
                record,
                length,
                events_bytes.as_ptr(),
                events_bytes.len(),
                out,
                room,
                &mut events,
                u32::MAX,
            )
        };
        assert_eq!(closing, 0, "our script ends otherwise on {}", board.name());
        Ran {
            events,
            left: 0,
            waits: 0,
        }
    }

    fn stored(&self) -> Stored {
        let cpus = self.board[3] as usize;
        let entry = |cpu| (self.helds[cpu] != 0).then(|| (self.addresses[cpu], self.contexts[cpu]));
        Stored {
            affinities: self.affinities[..cpus].to_vec(),
            cpu_states: self.locals[..cpus].to_vec(),
            entries: (0..cpus).map(entry).collect(),
            domain_states: self.states[..self.domains].to_vec(),
            mode: self.board[4],
        }
    }
}
