//! What is to be timed: a turn for each row of each board, once both sides are known to do the same there.

use crate::boards::{Board, Visit};
use crate::calls::{ROWS, Row, time_script};
use crate::costs::Costs;
use crate::equal::check;
use crate::ours::Ours;
use crate::platform::CPUS;
use crate::rust_side::Rust;
use crate::script::{ANSWER_BYTES, mix};
use crate::side::Side;
use crate::timing::INSTANCES;
use std::sync::atomic::Ordering::Relaxed;

/// A repetition of ours and one of the Rust's, each less what the driver costs.
type Both = Box<dyn FnMut(&Costs) -> (f64, f64)>;

pub struct Turn {
    pub board: Board,
    pub row: Row,
    pub both: Both,
}

#[derive(Default)]
pub struct Plan {
    pub turns: Vec<Turn>,
    /// By board: what the Rust's whole state takes.
    pub sizes: Vec<(Board, usize)>,
    /// The first difference between the sides.
    pub different: Option<String>,
}

impl Visit for Plan {
    fn visit<const N: usize, const MAX: usize, const C: usize, const D: usize>(
        &mut self,
        board: &Board,
    ) {
        CPUS.store(C, Relaxed);
        if let Err(difference) = check::<Ours, Rust<N, MAX, C, D>>(board, &mix(board)) {
            self.different.get_or_insert(difference);
            return;
        }
        self.sizes
            .push((board.clone(), size_of::<Rust<N, MAX, C, D>>()));
        for row in ROWS.into_iter().filter(|row| row.possible(board)) {
            let both = match row {
                Row::Event => script::<N, MAX, C, D>(board.clone()),
                _ => call::<N, MAX, C, D>(row, board.clone()),
            };
            self.turns.push(Turn {
                board: board.clone(),
                row,
                both,
            });
        }
    }
}

fn call<const N: usize, const MAX: usize, const C: usize, const D: usize>(
    row: Row,
    board: Board,
) -> Both {
    let mut ours: Vec<_> = (0..INSTANCES).map(|_| Ours::fresh(&board)).collect();
    let mut rust: Vec<_> = (0..INSTANCES)
        .map(|_| Rust::<N, MAX, C, D>::fresh(&board))
        .collect();
    Box::new(move |costs| {
        CPUS.store(C, Relaxed);
        let first = row.time(&mut ours, &board) - costs.timer;
        (
            first,
            row.time(&mut rust, &board) - costs.timer - costs.of_rust(row),
        )
    })
}

fn script<const N: usize, const MAX: usize, const C: usize, const D: usize>(board: Board) -> Both {
    let script = mix(&board);
    let mut out = vec![0; ANSWER_BYTES * script.events];
    let ran = Rust::<N, MAX, C, D>::script(&board, &script.bytes, &mut out);
    Box::new(move |costs| {
        CPUS.store(C, Relaxed);
        let driver = ran.left as f64 * costs.leave + ran.waits as f64 * costs.wait;
        let first = time_script::<Ours>(&board, &script, &mut out);
        let second = time_script::<Rust<N, MAX, C, D>>(&board, &script, &mut out);
        (first, second - driver / script.events as f64)
    })
}
