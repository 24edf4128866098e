//! Waits: a suspend that waits is a thread parked in `wfi`, one thread for each CPU.

use super::now::now;
use super::ran::{Ran, Waited, caught, silence};
use crate::layout::CPUS;
use arm_psci::{ErrorCode, SuspendMode};
use firmware::aarch64::WAIT;
use firmware::services::psci::view_calls::{Calls, Fields};
use std::cell::RefCell;
use std::panic::resume_unwind;
use std::sync::atomic::{AtomicUsize, Ordering::Relaxed};
use std::sync::{Arc, Condvar, Mutex, MutexGuard, Once, OnceLock};

/// What `wfi` does on this thread.
pub enum Wait {
    Unwind,
    /// Puts the state back that was put aside, and goes on.
    PutBack(Arc<dyn Calls>, Box<Fields>, SuspendMode),
    Park(usize),
}

thread_local! {
    static NEXT_WAIT: RefCell<Wait> = const { RefCell::new(Wait::Unwind) };
}

/// What has to be done once before the Rust is run.
pub fn prepare() {
    static ONCE: Once = Once::new();
    ONCE.call_once(|| {
        silence();
        WAIT.set(wait).expect("nobody else waits");
    });
}

/// Runs the Rust on this thread with another wait than unwinding.
pub fn caught_with<T>(wait: Wait, call: impl FnOnce() -> T) -> Ran<T> {
    NEXT_WAIT.set(wait);
    let end = caught(call);
    NEXT_WAIT.set(Wait::Unwind);
    end
}

fn wait() {
    match NEXT_WAIT.replace(Wait::Unwind) {
        Wait::Unwind => resume_unwind(Box::new(Waited)),
        Wait::PutBack(calls, fields, mode) => {
            calls.set_fields(&fields);
            calls.set_mode(mode);
            now().notices.clear();
        }
        Wait::Park(cpu) => park(&workers()[cpu]),
    }
}

type Answer = Result<(), ErrorCode>;
type Job = Box<dyn FnOnce() -> Answer + Send>;

enum Phase {
    Idle,
    Job(Job),
    Running,
    Parked,
    GoOn,
    Done(Ran<Answer>),
}

struct Worker {
    /// With it the ticket of the last job, so that who comes back to a parked one knows it again.
    phase: Mutex<(Phase, u64)>,
    to_worker: Condvar,
    to_main: Condvar,
    started: Once,
}

fn workers() -> &'static [Worker] {
    static WORKERS: OnceLock<Vec<Worker>> = OnceLock::new();
    WORKERS.get_or_init(|| {
        let worker = |_| Worker {
            phase: Mutex::new((Phase::Idle, 0)),
            to_worker: Condvar::new(),
            to_main: Condvar::new(),
            started: Once::new(),
        };
        (0..CPUS).map(worker).collect()
    })
}

/// Goes on when it is told to. A new job instead means that nobody will come back, and unwinds this one.
fn park(worker: &Worker) {
    let mut phase = worker.phase.lock().unwrap();
    phase.0 = Phase::Parked;
    worker.to_main.notify_one();
    loop {
        match phase.0 {
            Phase::GoOn => {
                phase.0 = Phase::Running;
                return;
            }
            Phase::Job(_) => break,
            _ => phase = worker.to_worker.wait(phase).unwrap(),
        }
    }
    drop(phase);
    resume_unwind(Box::new(Waited));
}

fn work(cpu: usize) {
    let worker = &workers()[cpu];
    loop {
        let mut phase = worker.phase.lock().unwrap();
        let job = loop {
            match std::mem::replace(&mut phase.0, Phase::Running) {
                Phase::Job(job) => break job,
                other => phase.0 = other,
            }
            phase = worker.to_worker.wait(phase).unwrap();
        };
        drop(phase);
        let end = caught_with(Wait::Park(cpu), job);
        let mut phase = worker.phase.lock().unwrap();
        if !matches!(phase.0, Phase::Job(_)) {
            phase.0 = Phase::Done(end);
            worker.to_main.notify_one();
        }
    }
}

/// Where a job on a worker has come to.
pub enum Stopped {
    Parked(u64),
    Done(Ran<Answer>),
}

fn stopped(worker: &Worker, mut phase: MutexGuard<(Phase, u64)>) -> Stopped {
    worker.to_worker.notify_one();
    loop {
        match std::mem::replace(&mut phase.0, Phase::Idle) {
            Phase::Done(end) => return Stopped::Done(end),
            Phase::Parked => {
                phase.0 = Phase::Parked;
                return Stopped::Parked(phase.1);
            }
            other => phase.0 = other,
        }
        phase = worker.to_main.wait(phase).unwrap();
    }
}

/// Runs a call on the CPU's worker until it waits or ends. What is parked there is unwound first.
pub fn run(cpu: usize, job: Job) -> Stopped {
    let worker = &workers()[cpu];
    worker.started.call_once(|| {
        std::thread::spawn(move || work(cpu));
    });
    let mut phase = worker.phase.lock().unwrap();
    phase.0 = Phase::Job(job);
    phase.1 += 1;
    stopped(worker, phase)
}

/// How many parked calls went on: the oracle's own test looks that there are any.
pub static WENT_ON: AtomicUsize = AtomicUsize::new(0);

/// Lets the parked call of that ticket go on to its end. None if it is no longer there.
pub fn go_on(cpu: usize, ticket: u64) -> Option<Ran<Answer>> {
    let worker = &workers()[cpu];
    let mut phase = worker.phase.lock().unwrap();
    if phase.1 != ticket || !matches!(phase.0, Phase::Parked) {
        return None;
    }
    WENT_ON.fetch_add(1, Relaxed);
    phase.0 = Phase::GoOn;
    match stopped(worker, phase) {
        Stopped::Done(end) => Some(end),
        Stopped::Parked(_) => Some(Ran::Panicked("waits twice".into())),
    }
}
