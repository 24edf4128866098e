//! A line on standard error every five seconds.

use crate::shared::Shared;
use std::sync::Arc;
use std::sync::atomic::Ordering;
use std::time::{Duration, Instant};

pub fn begin(shared: &Arc<Shared>) {
    let shared = shared.clone();
    let begun = Instant::now();
    std::thread::spawn(move || {
        loop {
            std::thread::sleep(Duration::from_secs(5));
            let phase = *shared.phase.lock().unwrap();
            let compared = shared.compared.load(Ordering::Relaxed);
            eprintln!(
                "{phase}: {compared} events compared in {} s",
                begun.elapsed().as_secs()
            );
        }
    });
}
