//! `get_osi_minimal_allowed_state_without_core`, asked of a domain's record, whether the state is sound or not.

use super::Oracle;
use super::image::{level, parent, slot};
use super::notes::Notes;
use super::ran::{Ran, caught};
use crate::layout::image::*;
use crate::layout::*;
use std::ops::Range;

/// The words of the assert that no suspend state stands beside a request that is not RUN.
const BESIDE: &str = "assertion failed: suspend_state.is_none()";

/// The state that a domain is allowed without each CPU, and the one that its parent is allowed without it as a child.
pub fn ask(oracle: &Oracle, image: &Image, domain: usize, reply: &mut Reply, notes: &mut Notes) {
    let without = Asked::of(oracle, image, domain, None);
    without.answers(&mut reply[reply::ALLOWED + domain * CPUS..][..CPUS], notes);
    if let Some(parent) = parent(image, domain) {
        let beside = Asked::of(oracle, image, parent.into(), Some(domain));
        let bytes = &mut reply[reply::ALLOWED_BESIDE_CHILD + domain * CPUS..][..CPUS];
        beside.answers(bytes, notes);
    }
}

/// A domain asked with or without a child.
struct Asked<'a> {
    oracle: &'a Oracle,
    image: &'a Image,
    domain: usize,
    child: Option<usize>,
    span: Range<usize>,
    level: Option<usize>,
}

impl<'a> Asked<'a> {
    fn of(oracle: &'a Oracle, image: &'a Image, domain: usize, child: Option<usize>) -> Self {
        let span = image[CPU_STARTS + domain].into()..image[CPU_ENDS + domain].into();
        let level = level(oracle.levels.max, |at| parent(image, at), domain);
        Self {
            oracle,
            image,
            domain,
            child,
            span,
            level,
        }
    }

    fn answers(&self, bytes: &mut [u8], notes: &mut Notes) {
        let stored = || self.span.clone().zip(self.stored());
        let faults = stored().filter(|(_, (request, suspend))| *request != 0 && suspend.is_some());
        let faults: Vec<usize> = faults.map(|(cpu, _)| cpu).collect();
        let minimum = self.minimum();
        for cpu in 0..self.image[CPU_COUNT].into() {
            let fault = faults.iter().any(|&other| other != cpu);
            bytes[cpu] = self.answer(cpu, fault, minimum, notes);
        }
    }

    /// `fault` says whether the assert is to stop it, `minimum` what it gives for a CPU outside the span if not.
    fn answer(&self, cpu: usize, fault: bool, minimum: u8, notes: &mut Notes) -> u8 {
        let child = self.child.map(|child| child as u8);
        let end = caught(|| self.oracle.calls.allowed(self.domain, cpu as u8, child));
        let levels = self.oracle.levels;
        if !self.span.contains(&cpu) {
            let held = match end {
                Ran::Returned(state) => !fault && levels.from_rust(state) == minimum,
                end => fault && end.stopped_at(BESIDE),
            };
            notes.rule("cpu-outside-span", held);
            return 109;
        }
        match end {
            end if end.stopped_at(BESIDE) => {
                notes.rule("suspend-beside-request", fault);
                111
            }
            Ran::Returned(state) => {
                if fault {
                    notes.rule("suspend-beside-request", false);
                }
                levels.from_rust(state)
            }
            other => notes.failed("get_osi_minimal_allowed_state_without_core", other),
        }
    }

    /// By CPU of the span, as far as the table goes: its request, and its suspend state.
    fn stored(&self) -> impl Iterator<Item = (u8, Option<u8>)> {
        let cpus = self.span.clone().take_while(|&cpu| cpu < CPUS);
        cpus.filter_map(|cpu| {
            let slot = slot(self.level?, cpu);
            let suspend = self.image[SUSPENDS + slot];
            let suspend = (suspend != NO_SUSPEND_STATE).then_some(suspend);
            Some((self.image[REQUESTS + slot], suspend))
        })
    }

    /// The minimum with no CPU left out, which is what the Rust gives for a CPU outside the span.
    fn minimum(&self) -> u8 {
        let states = self.stored().map(|(request, suspend)| match request {
            0 => suspend.unwrap_or(0),
            _ => request,
        });
        let (start, end) = (
            self.image[CHILD_STARTS + self.domain],
            self.image[CHILD_ENDS + self.domain],
        );
        let children = self.child.map_or(0..0, |_| start.into()..end.into());
        let others = children.filter(|&other| other < DOMAINS && Some(other) != self.child);
        let copies = others.map(|other| self.image[COPIES + other]);
        let off = self.oracle.levels.states - 1;
        states.chain(copies).min().unwrap_or(off)
    }
}
