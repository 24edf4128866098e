//! The rules about boards and requests that the Rust leaves to the platform's author.

use crate::layout::*;

/// A shape that a topology describes: domains, CPUs, and whether its last level-1 domains are missing.
struct Shape {
    domains: usize,
    cpus: usize,
    short: bool,
}

/// None where levels MAX to 2 are not filled, an entry is 0, or there are entries too many.
fn shape(board: &Board) -> Option<Shape> {
    let entries: Vec<usize> = board.topology.iter().map(|&entry| entry.into()).collect();
    if entries.contains(&0) {
        return None;
    }
    let mut row = *entries.first()?;
    let mut domains = row;
    let mut next = 1;
    for _ in 1..board.max {
        let children: usize = entries.get(next..next + row)?.iter().sum();
        next += row;
        row = children;
        domains += row;
    }
    let counted = &entries[next..];
    (counted.len() <= row).then(|| Shape {
        domains,
        cpus: counted.iter().sum(),
        short: counted.len() < row,
    })
}

fn platform_acceptable(board: &Board) -> bool {
    (1..=3).contains(&board.max)
        && (2..=16).contains(&board.states)
        && 1 <= board.down
        && board.down < board.states
}

fn fits(board: &Board, shape: &Shape) -> bool {
    shape.domains <= DOMAINS && shape.cpus <= CPUS && usize::from(board.primary) < shape.cpus
}

/// Whether the rules accept a board.
pub fn acceptable(board: &Board) -> bool {
    platform_acceptable(board)
        && shape(board).is_some_and(|shape| !shape.short && fits(board, &shape))
}

/// The domains and CPUs of a board whose one fault is that its last level-1 domains are missing.
pub fn short_topology(board: &Board) -> Option<(usize, usize)> {
    let shape = if platform_acceptable(board) {
        shape(board)?
    } else {
        return None;
    };
    (shape.short && fits(board, &shape)).then_some((shape.domains, shape.cpus))
}

/// What of a board the calls go by.
#[derive(Clone, Copy, Debug)]
pub struct Levels {
    pub max: usize,
    pub states: u8,
    pub down: u8,
}

impl Levels {
    pub fn of(board: &Board) -> Self {
        Self {
            max: board.max.into(),
            states: board.states,
            down: board.down,
        }
    }

    /// The Rust's OFF is a constant, so there the last state is 15, which keeps the order.
    pub fn to_rust(self, state: u8) -> u8 {
        if state == self.states - 1 { 15 } else { state }
    }

    pub fn from_rust(self, state: u8) -> u8 {
        if state == 15 { self.states - 1 } else { state }
    }

    /// 0 running, 1 retention, 2 power-down.
    pub fn kind(self, state: u8) -> u8 {
        u8::from(state != 0) + u8::from(state >= self.down)
    }

    pub fn in_range(self, states: [u8; 4]) -> bool {
        states[..=self.max].iter().all(|&state| state < self.states)
    }

    /// A valid suspend request: levels are ordered by kind.
    pub fn valid(self, states: [u8; 4]) -> bool {
        let states = &states[..=self.max];
        states.iter().all(|&state| state < self.states)
            && states[0] != 0
            && states
                .windows(2)
                .all(|pair| self.kind(pair[1]) <= self.kind(pair[0]))
    }

    /// The order that the Rust asks for.
    pub fn ordered_by_number(self, states: [u8; 4]) -> bool {
        states[..=self.max].is_sorted_by(|lower, upper| lower >= upper)
    }

    pub fn highest_affected_level(self, states: [u8; 4]) -> usize {
        states[..=self.max]
            .iter()
            .rposition(|&state| state != 0)
            .unwrap_or(0)
    }
}
