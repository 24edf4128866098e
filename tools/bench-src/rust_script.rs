//! A script run on the Rust, which has none: its records are read, its calls made and their answers written, in the bytes
//! that our run takes and gives.

use crate::boards::FIRST_POWER_DOWN;
use crate::leave::{go_on, left, set_on_wait};
use crate::platform::{ADDRESS_GOOD, CPUS, FEATURE, SYSTEM_STATES};
use crate::rust_side::{Rust, running};
use crate::script::*;
use crate::side::Ran;
use arm_psci::EntryPoint;
use std::sync::atomic::{AtomicPtr, Ordering::Relaxed};

/// The run whose suspend waits.
static WAITING: AtomicPtr<()> = AtomicPtr::new(std::ptr::null_mut());

pub struct Run<'a, const N: usize, const MAX: usize, const C: usize, const D: usize> {
    rust: &'a Rust<N, MAX, C, D>,
    events: &'a [u8],
    out: &'a mut [u8],
    written: usize,
    /// The CPU whose suspend waits.
    waiter: u8,
    ran: Ran,
}

fn entry(bytes: &[u8]) -> EntryPoint {
    let number = |at: usize| u64::from_le_bytes(bytes[at..at + 8].try_into().unwrap());
    EntryPoint {
        address: number(0),
        context: number(8),
    }
}

fn states(bytes: &[u8]) -> [u8; 4] {
    bytes.try_into().unwrap()
}

/// A flag, or a stop: the scripts that are timed are well formed.
fn flag(byte: u8) -> bool {
    assert!(byte < 2);
    byte == 1
}

impl<'a, const N: usize, const MAX: usize, const C: usize, const D: usize> Run<'a, N, MAX, C, D> {
    pub fn of(rust: &'a Rust<N, MAX, C, D>, events: &'a [u8], out: &'a mut [u8]) -> Ran {
        let ran = Ran {
            events: 0,
            left: 0,
            waits: 0,
        };
        let mut run = Self {
            rust,
            events,
            out,
            written: 0,
            waiter: 0,
            ran,
        };
        let finish = run.take_events();
        assert!(finish.is_none(), "a finish is not due");
        run.ran
    }

    /// Takes events to the end, or to a finish, whose CPU is given.
    fn take_events(&mut self) -> Option<u8> {
        while let [low, high, rest @ ..] = self.events {
            let length = u16::from_le_bytes([*low, *high]) as usize;
            let (record, rest) = rest.split_at(length - 2);
            self.events = rest;
            let kind = u16::from_le_bytes([record[0], record[1]]);
            if kind == FINISH {
                assert_eq!(length, 5);
                return Some(record[2]);
            }
            self.event(kind, length, &record[2..]);
        }
        None
    }

    fn event(&mut self, kind: u16, length: usize, payload: &[u8]) {
        let rust = self.rust;
        let caller = payload[0];
        running(caller);
        match (kind, length) {
            (CPU_ON, 24) => {
                ADDRESS_GOOD.store(flag(payload[18]), Relaxed);
                assert_eq!(payload[19], 0, "the platform answers 0");
                let target = payload[1];
                let code = rust.entry_on(target, entry(&payload[2..18]));
                self.answer(target, code);
            }
            (CPU_OFF, 6) => {
                assert_eq!(payload[1], 0, "the platform answers 0");
                self.leave(caller, || rust.entry_off());
            }
            (SUSPEND, 26) => {
                assert!(!flag(payload[1]), "no interrupt is pending");
                let (entry, states) = (entry(&payload[2..18]), states(&payload[18..]));
                if states[0] < FIRST_POWER_DOWN {
                    self.wait(caller, || rust.entry_suspend(states, entry));
                } else {
                    self.leave(caller, || rust.entry_suspend(states, entry));
                }
            }
            (BOOT, 5) => {
                let code = rust.entry_boot();
                self.answer(caller, code);
            }
            (SYSTEM_SUSPEND, 28) => {
                FEATURE.store(flag(payload[1]), Relaxed);
                assert!(!flag(payload[2]), "no interrupt is pending");
                ADDRESS_GOOD.store(flag(payload[3]), Relaxed);
                SYSTEM_STATES.store(u32::from_le_bytes(states(&payload[20..])), Relaxed);
                let entry = entry(&payload[4..20]);
                self.leave(caller, || rust.entry_system_suspend(entry));
            }
            (SET_MODE, 7) => {
                FEATURE.store(flag(payload[1]), Relaxed);
                let code = rust.entry_set_mode(flag(payload[2]) as u8);
                self.answer(caller, code);
            }
            _ => panic!("a malformed record"),
        }
    }

    /// A call that does not return where it is accepted.
    fn leave(&mut self, caller: u8, call: impl Fn() -> i32) {
        let mut code = 0;
        left(|| code = call());
        self.ran.left += 1;
        self.answer(caller, code);
    }

    /// A call that waits and returns: its own answer is written in the wait, and that of the finish once it has returned.
    fn wait(&mut self, caller: u8, call: impl Fn() -> i32) {
        let outer = std::mem::replace(&mut self.waiter, caller);
        let run: *mut Self = self;
        WAITING.store(run.cast(), Relaxed);
        set_on_wait(Self::on_wait);
        let code = call();
        set_on_wait(go_on);
        self.waiter = outer;
        self.ran.waits += 1;
        self.answer(caller, code);
    }

    /// In the wait the run goes on, up to the finish of the CPU that waits.
    fn on_wait() {
        // the run stands still in `wait` while this goes on with it
        let run = unsafe { &mut *WAITING.load(Relaxed).cast::<Self>() };
        let waiter = run.waiter;
        run.answer(waiter, 0);
        assert_eq!(
            run.take_events(),
            Some(waiter),
            "the finish of another CPU is not due"
        );
    }

    fn answer(&mut self, cpu: u8, code: i32) {
        self.ran.events += 1;
        let path = if usize::from(cpu) < CPUS.load(Relaxed) {
            self.rust.path(cpu)
        } else {
            [255; 4]
        };
        let record = &mut self.out[self.written..][..ANSWER_BYTES];
        record[..2].copy_from_slice(&(ANSWER_BYTES as u16).to_le_bytes());
        record[2..4].copy_from_slice(&ANSWER.to_le_bytes());
        record[4..8].copy_from_slice(&self.ran.events.to_le_bytes());
        record[8] = code as u8;
        record[9..].copy_from_slice(&path);
        self.written += ANSWER_BYTES;
    }
}
