//! Takes every turn once, then all again, as often as is asked for: what slows the machine for a while then slows a few
//! repetitions of every figure, which a median leaves out, and not all of one.

use crate::boards::Board;
use crate::calls::Row;
use crate::costs::Costs;
use crate::plan::Plan;
use crate::timing::Spread;
use std::io::{IsTerminal, Write};

pub struct Figure {
    pub board: Board,
    pub row: Row,
    pub ours: Spread,
    pub rust: Spread,
}

pub struct Measured {
    pub figures: Vec<Figure>,
    pub sizes: Vec<(Board, usize)>,
    /// What the driver itself cost, each time that it was measured.
    pub costs: Vec<Costs>,
}

impl Measured {
    pub fn new(mut plan: Plan, repetitions: usize) -> Self {
        let mut costs = vec![];
        let mut figures = vec![(vec![], vec![]); plan.turns.len()];
        for repetition in 1..=repetitions {
            progress(repetition, repetitions);
            for (turn, (ours, rust)) in plan.turns.iter_mut().zip(&mut figures) {
                let now = Costs::measure();
                let (first, second) = (turn.both)(&now);
                ours.push(first);
                rust.push(second);
                costs.push(now);
            }
        }
        progress_ends();
        let figures = plan
            .turns
            .into_iter()
            .zip(figures)
            .map(|(turn, (ours, rust))| Figure {
                board: turn.board,
                row: turn.row,
                ours: Spread::of(ours),
                rust: Spread::of(rust),
            });
        Self {
            figures: figures.collect(),
            sizes: plan.sizes,
            costs,
        }
    }

    pub fn find(&self, cpus: usize, max: usize, row: Row) -> Option<&Figure> {
        self.figures
            .iter()
            .find(|f| f.row == row && f.board.cpus == cpus && f.board.max == max)
    }
}

/// A line that is written over on a terminal; else a line now and then.
fn progress(repetition: usize, repetitions: usize) {
    let mut out = std::io::stderr().lock();
    let line = format!("bench: repetition {repetition} of {repetitions}, all boards and calls");
    let _ = if out.is_terminal() {
        write!(out, "\r\x1b[K{line}").and_then(|()| out.flush())
    } else if repetition % 5 == 1 {
        writeln!(out, "{line}")
    } else {
        Ok(())
    };
}

/// Leaves the line of progress.
fn progress_ends() {
    if std::io::stderr().is_terminal() {
        eprint!("\r\x1b[K");
    }
}
