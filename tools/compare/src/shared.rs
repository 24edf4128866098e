//! What the threads of a run share: where it is, and the differences found.

use std::sync::atomic::{AtomicBool, AtomicU64, Ordering};
use std::sync::{Arc, Mutex};

/// Something that differs: in one line, and in full.
pub struct Difference {
    pub short: String,
    pub long: String,
}

/// What the threads share.
pub struct Shared {
    /// Events of which our program's answer was compared.
    pub compared: AtomicU64,
    pub phase: Mutex<&'static str>,
    differences: Mutex<Vec<Difference>>,
    limit: usize,
    stop: AtomicBool,
}

impl Shared {
    pub fn new(limit: usize) -> Arc<Self> {
        Arc::new(Shared {
            compared: AtomicU64::new(0),
            phase: Mutex::new(""),
            differences: Mutex::new(Vec::new()),
            limit,
            stop: AtomicBool::new(false),
        })
    }

    /// Keeps a difference; after the last that is asked for the run stops.
    pub fn differs(&self, difference: Difference) {
        let mut list = self.differences.lock().unwrap();
        if list.len() < self.limit {
            list.push(difference);
        }
        if list.len() >= self.limit {
            self.stop.store(true, Ordering::Relaxed);
        }
    }

    pub fn stopped(&self) -> bool {
        self.stop.load(Ordering::Relaxed)
    }

    pub fn stop(&self) {
        self.stop.store(true, Ordering::Relaxed);
    }

    pub fn take_differences(&self) -> Vec<Difference> {
        std::mem::take(&mut self.differences.lock().unwrap())
    }
}
