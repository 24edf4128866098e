//! What is printed: the calls by board, what a state takes, and what has to be said of the figures.

use crate::calls::ROWS;
use crate::costs::Costs;
use crate::measure::{Figure, Measured};
use crate::notes::NOTES;
use crate::ours::STATE_BYTES;
use crate::stack::Stacks;
use crate::timing::{INSTANCES, ROUNDS, Spread};

impl Figure {
    pub fn ratio(&self) -> f64 {
        self.ours.median / self.rust.median
    }

    /// As a product, so that a figure of the Rust's that noise brought below 0 meets nothing.
    pub fn met(&self) -> bool {
        self.ours.median <= self.row.target() * self.rust.median
    }
}

fn quartiles(spread: &Spread) -> String {
    format!("{:.1} .. {:.1}", spread.lower, spread.upper)
}

fn bytes(stack: Option<usize>) -> String {
    stack.map_or("-".into(), |bytes| bytes.to_string())
}

pub fn calls(measured: &Measured, stacks: &Stacks, repetitions: usize) {
    println!(
        "Nanoseconds a call: the median of {repetitions} repetitions, and the quartiles. A row with two calls has the sum of both."
    );
    println!();
    println!(
        "| board | call | ours | Rust | ours, quartiles | Rust, quartiles | ours / Rust | target | | stack, ours | stack, Rust |"
    );
    println!("|---|---|---|---|---|---|---|---|---|---|---|");
    for (board, _) in measured.sizes.iter().filter(|(board, _)| board.in_table()) {
        for row in ROWS {
            let head = format!("| {} | {}", board.name(), row.name());
            let Some(figure) = measured.find(board.cpus, board.max, row) else {
                println!("{head} | - | - | - | - | - | - | - | - | - |");
                continue;
            };
            println!(
                "{head} | {:.1} | {:.1} | {} | {} | {:.2} | {:.1} | {} | {} | {} |",
                figure.ours.median,
                figure.rust.median,
                quartiles(&figure.ours),
                quartiles(&figure.rust),
                figure.ratio(),
                row.target(),
                if figure.met() { "met" } else { "MISSED" },
                bytes(stacks.ours(row)),
                bytes(stacks.rust(row, board)),
            );
        }
    }
    println!();
}

/// How many of the table's figures miss their target, and how many there are.
pub fn missed(measured: &Measured) -> (usize, usize) {
    let figures = || {
        measured
            .figures
            .iter()
            .filter(|figure| figure.board.in_table())
    };
    (
        figures().filter(|figure| !figure.met()).count(),
        figures().count(),
    )
}

pub fn sizes(measured: &Measured) {
    let rust: Vec<_> = measured
        .sizes
        .iter()
        .filter(|(board, _)| board.in_table())
        .map(|(board, bytes)| format!("{bytes} ({})", board.name()))
        .collect();
    println!(
        "A state takes, in bytes: ours {STATE_BYTES} on every board, the sum of its rows; the Rust's {}.",
        rust.join(", ")
    );
    println!();
}

pub fn notes(costs: &[Costs], stacks: &Stacks) {
    let cost = |of: fn(&Costs) -> f64| {
        let spread = Spread::of(costs.iter().map(of).collect());
        format!(
            "{:.1} ns a call (quartiles {})",
            spread.median,
            quartiles(&spread)
        )
    };
    let met = stacks.notes();
    let met = if met.is_empty() {
        String::new()
    } else {
        format!("Met on the way: {}.", met.join("; "))
    };
    let text = NOTES
        .replace("{rounds}", &ROUNDS.to_string())
        .replace("{instances}", &INSTANCES.to_string())
        .replace("{timer}", &cost(|costs| costs.timer))
        .replace("{leave}", &cost(|costs| costs.leave))
        .replace("{wait}", &cost(|costs| costs.wait))
        .replace("{met}", &met);
    println!("{}", text.trim_end());
    println!();
}
