//! How a call of the Rust ends: it returns, or unwinds, which is caught.

use std::any::Any;
use std::cell::Cell;
use std::panic::{AssertUnwindSafe, catch_unwind, set_hook, take_hook};

/// Unwinds a call out of its wait.
pub struct Waited;
/// Unwinds a system suspend where the platform gives its states.
pub struct Unusable;

/// How a call of the Rust ended.
#[derive(Debug)]
pub enum Ran<T> {
    Returned(T),
    Waited,
    Unusable,
    Panicked(String),
}

impl<T> Ran<T> {
    /// Whether the Rust stopped at an assert or the like that says exactly this.
    pub fn stopped_at(&self, words: &str) -> bool {
        matches!(self, Ran::Panicked(said) if said == words)
    }
}

/// What an `assert_eq!` says of these.
pub fn unequal(left: &str, right: &str) -> String {
    format!("assertion `left == right` failed\n  left: {left}\n right: {right}")
}

thread_local! {
    static QUIET: Cell<bool> = const { Cell::new(false) };
}

/// From now on panics that are caught here say nothing; all others say what they say.
pub fn silence() {
    let loud = take_hook();
    set_hook(Box::new(move |about| {
        if !QUIET.get() {
            loud(about)
        }
    }));
}

fn said(panic: Box<dyn Any + Send>) -> String {
    let text = panic.downcast_ref::<&str>().map(|text| text.to_string());
    text.or_else(|| panic.downcast_ref::<String>().cloned())
        .unwrap_or_default()
}

/// Runs the Rust on this thread.
pub fn caught<T>(call: impl FnOnce() -> T) -> Ran<T> {
    QUIET.set(true);
    let end = catch_unwind(AssertUnwindSafe(call));
    QUIET.set(false);
    match end {
        Ok(answer) => Ran::Returned(answer),
        Err(panic) if panic.is::<Waited>() => Ran::Waited,
        Err(panic) if panic.is::<Unusable>() => Ran::Unusable,
        Err(panic) => Ran::Panicked(said(panic)),
    }
}
