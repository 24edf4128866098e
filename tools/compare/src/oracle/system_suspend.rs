//! System suspend, up to its wait.

use super::calls::Call;
use super::now::{Now, begin};
use super::outcome::{Answer, driver, error};
use super::ran::{Ran, caught, unequal};
use super::suspends::{Job, Request};
use super::threads::{self, Stopped};

/// The words of the assert that the platform's states are valid; another is that the top level powers down.
const NOT_VALID: &str = "assertion failed: state.is_valid_suspend_request(true)";

impl Call<'_> {
    /// In OS-initiated mode the Rust is run as if an interrupt were pending: its refusals are its own, and it changes nothing.
    pub fn system_suspend(&mut self, asked: Now, request: Request) -> Answer {
        let levels = self.oracle.levels;
        let os_initiated = self.os_initiated();
        let not_ported = if request.pending {
            "107-before-pending"
        } else {
            "107-not-ported"
        };
        let asked = Now {
            pending: request.pending || os_initiated,
            ..asked
        };
        let request = Request {
            pending: asked.pending,
            ..request
        };
        let calls = self.oracle.calls.clone();
        let whole: Job = Box::new(move || calls.system_suspend(request.entry));
        let all_down = levels.valid(request.states) && levels.kind(request.states[levels.max]) == 2;
        let by_number = levels.ordered_by_number(request.states);
        let on_thread = !asked.pending && all_down && by_number;
        begin(asked.clone());
        let end = if on_thread {
            threads::run(request.cpu.into(), whole)
        } else {
            Stopped::Done(caught(whole))
        };
        let answer = match end {
            Stopped::Done(Ran::Returned(Err(code))) => return error(code),
            Stopped::Done(Ran::Unusable) => {
                self.idle_rule("system-suspend-unusable", !levels.in_range(request.states));
                return driver(106);
            }
            Stopped::Done(end @ Ran::Panicked(_)) if !all_down => {
                let held = if by_number && levels.kind(request.states[0]) == 2 {
                    end.stopped_at(&unequal("StandbyOrRetention", "PowerDown"))
                } else {
                    end.stopped_at(NOT_VALID)
                };
                self.idle_rule("system-suspend-unusable", held);
                return driver(106);
            }
            Stopped::Done(end @ Ran::Panicked(_)) => {
                self.idle_rule(
                    "system-suspend-ordered-by-kind",
                    !by_number && end.stopped_at(NOT_VALID),
                );
                begin(asked);
                let start = self.start(request, None);
                self.entered("cpu_suspend_start", request, start)
            }
            other => self.stopped("system_suspend", request.cpu, other),
        };
        if !os_initiated {
            return answer;
        }
        self.idle_rule(not_ported, answer.not_entered);
        driver(107)
    }
}
