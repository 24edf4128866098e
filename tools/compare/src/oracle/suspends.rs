//! Suspends, up to their wait, and the finish of one that nobody waits in.

use super::calls::Call;
use super::now::{Now, begin, now};
use super::outcome::{Answer, driver, error, rust};
use super::ran::{Ran, caught};
use super::threads::{self, Stopped, Wait, caught_with};
use arm_psci::{EntryPoint, ErrorCode, PowerState, SuspendMode};

/// The two calls that wait.
#[derive(Clone, Copy)]
pub struct Request {
    pub cpu: u8,
    pub pending: bool,
    pub entry: EntryPoint,
    pub states: [u8; 4],
}

/// The words of the assert that a request is valid.
const NOT_VALID: &str =
    "assertion failed: composite_state.is_valid_suspend_request(is_power_down_state)";

pub type Job = Box<dyn FnOnce() -> Result<(), ErrorCode> + Send>;

impl Call<'_> {
    pub fn suspend(&mut self, request: Request) -> Answer {
        let Request {
            cpu,
            pending,
            states,
            entry,
        } = request;
        let levels = self.oracle.levels;
        let down = levels.kind(states[0]) == 2;
        let word = u32::from_le_bytes(states);
        let power_state = if down {
            PowerState::PowerDown(word)
        } else {
            PowerState::StandbyOrRetention(word)
        };
        let asked = Now {
            pending,
            ..self.usual(cpu)
        };
        let calls = self.oracle.calls.clone();
        let whole = move || calls.cpu_suspend(power_state, entry);

        if !levels.valid(states) {
            begin(asked);
            let held = match caught(whole) {
                Ran::Returned(Err(ErrorCode::InvalidParameters)) => !levels.in_range(states),
                end => end.stopped_at(NOT_VALID) && levels.in_range(states),
            };
            self.idle_rule("suspend-not-valid", held);
            return driver(-2i8 as u8);
        }
        let by_number = levels.ordered_by_number(states);
        let standby = !down && levels.highest_affected_level(states) == 0;
        let start = self.start(request, Some(power_state));
        let through: Job = if by_number && !standby {
            Box::new(whole.clone())
        } else {
            start
        };
        if self.os_initiated() {
            return self.not_ported(asked, pending, through);
        }
        if !by_number {
            begin(asked.clone());
            let end = caught(whole);
            self.idle_rule("suspend-ordered-by-kind", end.stopped_at(NOT_VALID));
        } else if standby {
            begin(asked.clone());
            let end = caught(whole);
            let stood_by = now().standby == Some(states[0]);
            self.idle_rule("standby", matches!(end, Ran::Returned(Ok(()))) && stood_by);
        }
        begin(asked);
        let answer = self.entered("cpu_suspend", request, through);
        if now().told.is_some_and(|told| told != power_state) {
            self.notes
                .breaks("the SPM was told another power state than was asked for".into());
        }
        answer
    }

    /// `cpu_suspend_start` called directly.
    pub fn start(&self, request: Request, power_state: Option<PowerState>) -> Job {
        let levels = self.oracle.levels;
        let calls = self.oracle.calls.clone();
        let states = request.states.map(|state| levels.to_rust(state));
        let highest = levels.highest_affected_level(request.states);
        let down = levels.kind(request.states[0]) == 2;
        Box::new(move || {
            calls.cpu_suspend_start(
                request.cpu,
                power_state,
                request.entry,
                highest,
                states,
                down,
            )
        })
    }

    /// A suspend in OS-initiated mode: with an interrupt pending the Rust changes nothing, and else it is not run.
    fn not_ported(&mut self, asked: Now, pending: bool, job: Job) -> Answer {
        if pending {
            begin(asked);
            let end = caught(job);
            self.idle_rule("107-before-pending", matches!(end, Ran::Returned(Ok(()))));
        } else {
            self.notes.rule("107-not-ported", true);
        }
        driver(107)
    }

    /// A suspend up to its wait, on the CPU's own thread. With an interrupt pending it does not come so far.
    pub fn entered(&mut self, what: &str, request: Request, job: Job) -> Answer {
        let end = if request.pending {
            Stopped::Done(caught(job))
        } else {
            threads::run(request.cpu.into(), job)
        };
        self.stopped(what, request.cpu, end)
    }

    pub fn stopped(&mut self, what: &str, cpu: u8, end: Stopped) -> Answer {
        match end {
            Stopped::Parked(ticket) => {
                self.oracle.parked[usize::from(cpu)] = Some(ticket);
                rust(0)
            }
            Stopped::Done(Ran::Waited) => rust(0),
            Stopped::Done(Ran::Returned(Ok(()))) => Answer {
                not_entered: true,
                ..rust(0)
            },
            Stopped::Done(Ran::Returned(Err(code))) => error(code),
            Stopped::Done(other) => self.failed(what, other),
        }
    }

    /// Nobody waits in a state that was loaded. So the CPU is made running and suspends; when it waits, the true state is put back.
    /// Behind its wait the Rust reads the states anew, and knows from before only whether it was a power-down.
    pub fn finished_on_the_spot(&self, cpu: u8) -> Ran<Result<(), ErrorCode>> {
        let calls = &self.oracle.calls;
        let (aside, mode) = (calls.fields(), calls.mode());
        let mut running = aside.clone();
        running.cpus[usize::from(cpu)].state = 0;
        running.cpus[usize::from(cpu)].entry = None;
        calls.set_fields(&running);
        calls.set_mode(SuspendMode::PlatformCoordinated);
        let states = [self.state(cpu), 0, 0, 0];
        let entry = EntryPoint {
            address: 0,
            context: 0,
        };
        let start = self.start(
            Request {
                cpu,
                pending: false,
                entry,
                states,
            },
            None,
        );
        caught_with(Wait::PutBack(calls.clone(), Box::new(aside), mode), start)
    }
}
