//! The rows of the table: which calls are made, from where, and how they are timed.

use crate::boards::{Board, OFF, POWER_DOWN, RETENTION};
use crate::script::Script;
use crate::side::Side;
use crate::timing::{alone, repetition};
use std::time::Instant;

#[derive(Clone, Copy, Debug, PartialEq, Eq)]
pub enum Row {
    OnRefused,
    OnAccepted,
    OnBoot,
    Off,
    SuspendFinish,
    SuspendBoot,
    SystemSuspendBoot,
    SetMode,
    Event,
}

pub const ROWS: [Row; 9] = [
    Row::OnRefused,
    Row::OnAccepted,
    Row::OnBoot,
    Row::Off,
    Row::SuspendFinish,
    Row::SuspendBoot,
    Row::SystemSuspendBoot,
    Row::SetMode,
    Row::Event,
];

impl Row {
    pub fn name(self) -> &'static str {
        match self {
            Row::OnRefused => "on refused",
            Row::OnAccepted => "on accepted",
            Row::OnBoot => "on + boot",
            Row::Off => "off",
            Row::SuspendFinish => "suspend + finish",
            Row::SuspendBoot => "suspend + boot",
            Row::SystemSuspendBoot => "system suspend + boot",
            Row::SetMode => "set mode",
            Row::Event => "an event of a script",
        }
    }

    /// How many times the Rust's time ours may take.
    pub fn target(self) -> f64 {
        match self {
            Row::OnRefused => 2.0,
            Row::Event => 0.5,
            _ => 1.0,
        }
    }

    pub fn possible(self, board: &Board) -> bool {
        board.cpus > 1 || !matches!(self, Row::OnAccepted | Row::OnBoot | Row::Off)
    }

    /// The functions of ours and of the Rust that the row calls; the deepest counts for its stack.
    pub fn functions(self) -> (&'static [&'static str], &'static [&'static str]) {
        match self {
            Row::OnRefused | Row::OnAccepted => (&["psci_cpu_on"], &["entry_on"]),
            Row::OnBoot => (
                &["psci_cpu_on", "psci_handle_cpu_boot"],
                &["entry_on", "entry_boot"],
            ),
            Row::Off => (&["psci_cpu_off"], &["entry_off"]),
            Row::SuspendFinish => (
                &["psci_cpu_suspend_start", "psci_cpu_suspend_finish"],
                &["entry_suspend"],
            ),
            Row::SuspendBoot => (
                &["psci_cpu_suspend_start", "psci_handle_cpu_boot"],
                &["entry_suspend", "entry_boot"],
            ),
            Row::SystemSuspendBoot => (
                &["psci_system_suspend", "psci_handle_cpu_boot"],
                &["entry_system_suspend", "entry_boot"],
            ),
            Row::SetMode => (&["psci_set_suspend_mode"], &["entry_set_mode"]),
            Row::Event => (&["psci_script"], &[]),
        }
    }

    /// One repetition on one side, of any row but the event's. CPU 0 runs and all others are off before
    /// each round and after it.
    pub fn time<S: Side>(self, sides: &mut [S], board: &Board) -> f64 {
        let last = board.last();
        let [retention, down, off] =
            [RETENTION, POWER_DOWN, OFF].map(|state| board.everywhere(state));
        let nothing = |_: &mut S| {};
        let turn_on = |side: &mut S| _ = side.cpu_on(0, last) | side.boot(last);
        let turn_off = |side: &mut S| _ = side.cpu_off(last);
        let boot_and_turn_off = |side: &mut S| _ = side.boot(last) | side.cpu_off(last);
        match self {
            Row::OnRefused => alone(sides, -4, |side, _| side.cpu_on(0, 0)),
            Row::OnAccepted => repetition(
                sides,
                0,
                nothing,
                |side, _| side.cpu_on(0, last),
                boot_and_turn_off,
            ),
            Row::OnBoot => repetition(
                sides,
                0,
                nothing,
                |side, _| side.cpu_on(0, last) | side.boot(last),
                turn_off,
            ),
            Row::Off => repetition(sides, 0, turn_on, |side, _| side.cpu_off(last), nothing),
            Row::SuspendFinish => alone(sides, 0, |side, _| side.suspend_and_finish(0, retention)),
            Row::SuspendBoot => alone(sides, 0, |side, _| side.power_down(0, down) | side.boot(0)),
            Row::SystemSuspendBoot => alone(sides, 0, |side, _| {
                side.system_suspend(0, off) | side.boot(0)
            }),
            Row::SetMode => alone(sides, 0, |side, round| {
                side.set_mode(0, 1 - (round & 1) as u8)
            }),
            Row::Event => unreachable!("a script is timed as a whole"),
        }
    }
}

/// Runs in one repetition of a script.
const RUNS: u32 = 4;

/// One repetition of a script: nanoseconds an event, less a run with no event.
pub fn time_script<S: Side>(board: &Board, script: &Script, out: &mut [u8]) -> f64 {
    let mut run = |events: &[u8]| {
        let began = Instant::now();
        for _ in 0..RUNS {
            std::hint::black_box(S::script(board, std::hint::black_box(events), out));
        }
        began.elapsed().as_nanos() as f64
    };
    (run(&script.bytes) - run(&[])) / (RUNS as usize * script.events) as f64
}
