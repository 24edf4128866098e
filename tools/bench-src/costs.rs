//! What the driver itself costs. Each is measured by itself, and subtracted from what it stands in.

use crate::calls::Row;
use crate::leave::left;
use crate::timing::{INSTANCES, alone};
use firmware::aarch64::wfi;

/// In nanoseconds a call.
pub struct Costs {
    pub timer: f64,
    /// To leave a call of the Rust that does not return, and to go on after a wait; each without the timer.
    pub leave: f64,
    pub wait: f64,
}

impl Costs {
    pub fn measure() -> Self {
        let timer = time(|| {});
        Self {
            timer,
            leave: time(|| left(wfi)) - timer,
            wait: time(wfi) - timer,
        }
    }

    /// What the Rust's figure of a row has of these, besides the timer.
    pub fn of_rust(&self, row: Row) -> f64 {
        match row {
            Row::Off | Row::SuspendBoot | Row::SystemSuspendBoot => self.leave,
            Row::SuspendFinish => self.wait,
            _ => 0.0,
        }
    }
}

/// The same loop as a call's, with no call.
fn time(of: impl Fn()) -> f64 {
    let call = |_: &mut u8, _| {
        of();
        0
    };
    alone(&mut [0; INSTANCES], 0, call)
}
