//! The events, with the checks in the rules' order. What the Rust can't answer is still run where it can be, and held to a rule.

use super::notes::Notes;
use super::now::{Now, begin, now};
use super::outcome::{Answer, driver, error, rust};
use super::ran::{Ran, caught, unequal};
use super::record::{self, Event};
use super::suspends::Request;
use super::{Oracle, Outcome, threads};
use crate::layout::Image;
use crate::layout::image::*;
use arm_psci::{ErrorCode, Mpidr, SuspendMode};

pub struct Call<'a> {
    pub oracle: &'a mut Oracle,
    pub before: Image,
    pub notes: Notes,
}

pub fn event(oracle: &mut Oracle, record: &[u8]) -> Outcome {
    let before = oracle.image();
    let event = record::read(record, oracle.levels.max);
    let mut call = Call {
        oracle,
        before,
        notes: Notes::new(),
    };
    begin(call.usual(0));
    let answer = event.map_or_else(|| driver(108), |event| call.made(event));
    call.outcome(answer)
}

impl Call<'_> {
    fn made(&mut self, event: Event) -> Answer {
        let (cpu, has_to_run) = event.cpu();
        if cpu >= self.before[CPU_COUNT] {
            return driver(103);
        }
        if has_to_run && !(self.affinity(cpu) == 0 && self.state(cpu) == 0) {
            return driver(104);
        }
        match event {
            Event::On {
                caller,
                target,
                entry,
                address_good,
                answer,
            } => {
                begin(Now {
                    address_good,
                    answer,
                    ..self.usual(caller)
                });
                let end = caught(|| self.oracle.calls.cpu_on(Mpidr(target.into()), entry));
                self.returned("cpu_on", end)
            }
            Event::Off { caller, early } => self.off(caller, early),
            Event::Suspend {
                caller,
                pending,
                entry,
                states,
            } => self.suspend(Request {
                cpu: caller,
                pending,
                entry,
                states,
            }),
            Event::Finish { cpu } => self.finish(cpu),
            Event::Boot { cpu } => self.boot(cpu),
            Event::SystemSuspend {
                caller,
                feature,
                pending,
                address_good,
                entry,
                states,
            } => {
                let asked = Now {
                    address_good,
                    system_suspend: feature,
                    system_states: states,
                    ..self.usual(caller)
                };
                self.system_suspend(
                    asked,
                    Request {
                        cpu: caller,
                        pending,
                        entry,
                        states,
                    },
                )
            }
            Event::Mode {
                caller,
                feature,
                os_initiated,
            } => {
                begin(Now {
                    os_initiated: feature,
                    ..self.usual(caller)
                });
                let mode = if os_initiated {
                    SuspendMode::OsInitiated
                } else {
                    SuspendMode::PlatformCoordinated
                };
                let end = caught(|| self.oracle.calls.set_suspend_mode(mode));
                self.returned("set_suspend_mode", end)
            }
        }
    }

    fn off(&mut self, cpu: u8, early: i8) -> Answer {
        begin(Now {
            answer: early,
            ..self.usual(cpu)
        });
        let end = caught(|| self.oracle.calls.cpu_off());
        let levels = self.oracle.levels;
        let off = std::array::from_fn(|level| {
            if level <= levels.max {
                levels.states - 1
            } else {
                0
            }
        });
        if now().early != Some(off) {
            self.notes
                .breaks("the early question of off was not put with OFF at all levels".into());
        }
        match end {
            Ran::Waited => rust(0),
            Ran::Returned(Err(code)) => error(code),
            other => self.failed("cpu_off", other),
        }
    }

    fn finish(&mut self, cpu: u8) -> Answer {
        let parked = self.oracle.parked[usize::from(cpu)].take();
        if !(self.affinity(cpu) == 0 && self.state(cpu) != 0) {
            self.idle_rule("finish-not-due", parked.is_none());
            return driver(105);
        }
        begin(self.usual(cpu));
        let end = parked.and_then(|ticket| threads::go_on(cpu.into(), ticket));
        let end = end.unwrap_or_else(|| self.finished_on_the_spot(cpu));
        self.returned("cpu_suspend_start", end)
    }

    /// A thread that waits for that CPU is left, and unwound when the CPU's thread has its next call.
    fn boot(&mut self, cpu: u8) -> Answer {
        let powered_down = self.oracle.levels.kind(self.state(cpu)) == 2;
        let due = self.affinity(cpu) == 2 || self.affinity(cpu) == 0 && powered_down;
        begin(self.usual(cpu));
        let end = caught(|| self.oracle.calls.handle_cpu_boot());
        if !due {
            let words = match (self.affinity(cpu), self.state(cpu)) {
                (1, _) => "Unexpected affinity info state".into(),
                (_, 0) => unequal("Run", "PowerDown"),
                _ => unequal("StandbyOrRetention", "PowerDown"),
            };
            self.idle_rule("boot-not-due", end.stopped_at(&words));
            return driver(105);
        }
        self.oracle.parked[usize::from(cpu)] = None;
        match end {
            Ran::Returned(reason) => Answer {
                wake: Some(reason),
                ..rust(0)
            },
            other => self.failed("handle_cpu_boot", other),
        }
    }

    pub fn usual(&self, cpu: u8) -> Now {
        Now {
            cpu: cpu.into(),
            ..Now::new(self.oracle.levels, self.before[CPU_COUNT].into())
        }
    }

    fn affinity(&self, cpu: u8) -> u8 {
        self.before[CPU_ROW + usize::from(cpu) * CPU + CPU_AFFINITY]
    }

    pub fn state(&self, cpu: u8) -> u8 {
        self.before[CPU_ROW + usize::from(cpu) * CPU + CPU_STATE]
    }

    pub fn os_initiated(&self) -> bool {
        self.before[MODE] != 0
    }

    fn returned(&mut self, what: &str, end: Ran<Result<(), ErrorCode>>) -> Answer {
        match end {
            Ran::Returned(Ok(())) => rust(0),
            Ran::Returned(Err(code)) => error(code),
            other => self.failed(what, other),
        }
    }

    pub fn failed<T>(&mut self, what: &str, end: Ran<T>) -> Answer {
        self.oracle.restore(&self.before);
        now().notices.clear();
        rust(self.notes.failed(what, end))
    }

    /// A rule that also says that nothing changed and nothing went out.
    pub fn idle_rule(&mut self, name: &'static str, held: bool) {
        let idle = self.oracle.image() == self.before && now().notices.is_empty();
        self.notes.rule(name, held && idle);
        if !idle {
            self.oracle.restore(&self.before);
            now().notices.clear();
        }
    }
}
