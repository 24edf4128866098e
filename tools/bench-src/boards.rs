//! The boards that are timed: as balanced as their counts allow, with 4 states of which 2 and 3 are power-down.

use crate::script::board_record;

pub const STATES: u8 = 4;
pub const FIRST_POWER_DOWN: u8 = 2;
pub const RETENTION: u8 = 1;
pub const POWER_DOWN: u8 = 2;
pub const OFF: u8 = 3;

#[derive(Clone)]
pub struct Board {
    pub cpus: usize,
    pub max: usize,
    pub domains: usize,
    pub topology: &'static [usize],
    /// The same as the first record of a script, which is what ours starts from.
    pub record: Vec<u8>,
}

impl Board {
    fn new(max: usize, cpus: usize, domains: usize, topology: &'static [usize]) -> Self {
        let record = board_record(max, topology);
        Self {
            cpus,
            max,
            domains,
            topology,
            record,
        }
    }

    /// The CPU that is turned on and off: not the primary, which is CPU 0, unless there is no other.
    pub fn last(&self) -> u8 {
        self.cpus as u8 - 1
    }

    /// A state at every level that the board has, 0 above.
    pub fn everywhere(&self, state: u8) -> [u8; 4] {
        std::array::from_fn(|level| if level <= self.max { state } else { 0 })
    }

    /// Whether the board stands in the table of calls; the others are for the growth alone.
    pub fn in_table(&self) -> bool {
        matches!(self.cpus, 1 | 4 | 16)
    }

    pub fn name(&self) -> String {
        format!(
            "{} CPU{}, MAX {}",
            self.cpus,
            if self.cpus == 1 { "" } else { "s" },
            self.max
        )
    }
}

/// What is done to each board: the Rust is compiled for a board's own counts, so they are known to the compiler.
pub trait Visit {
    fn visit<const N: usize, const MAX: usize, const C: usize, const D: usize>(
        &mut self,
        board: &Board,
    );
}

fn one<const N: usize, const MAX: usize, const C: usize, const D: usize>(
    visit: &mut impl Visit,
    topology: &'static [usize],
) {
    visit.visit::<N, MAX, C, D>(&Board::new(MAX, C, D, topology));
}

pub fn each(visit: &mut impl Visit) {
    one::<2, 1, 1, 1>(visit, &[1, 1]);
    one::<3, 2, 1, 2>(visit, &[1, 1, 1]);
    one::<4, 3, 1, 3>(visit, &[1, 1, 1, 1]);
    one::<3, 2, 2, 3>(visit, &[1, 2, 1, 1]);
    one::<2, 1, 4, 1>(visit, &[1, 4]);
    one::<3, 2, 4, 3>(visit, &[1, 2, 2, 2]);
    one::<4, 3, 4, 5>(visit, &[1, 2, 1, 1, 2, 2]);
    one::<3, 2, 8, 3>(visit, &[1, 2, 4, 4]);
    one::<2, 1, 16, 1>(visit, &[1, 16]);
    one::<3, 2, 16, 5>(visit, &[1, 4, 4, 4, 4, 4]);
    one::<4, 3, 16, 7>(visit, &[1, 2, 2, 2, 4, 4, 4, 4]);
}
