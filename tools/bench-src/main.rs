//! Times our exported calls and the upstream Rust's in one process, and prints tables. `tools/bench` builds and runs it:
//!
//!   bench [--repetitions N] [--stack FILE] [--check]
//!
//! FILE has what each function takes of the stack. Exit status: 0; 1 with --check where a target is missed; 2 where the sides
//! differ or a word is wrong.

mod boards;
mod calls;
mod costs;
mod equal;
mod growth;
mod leave;
mod measure;
mod notes;
mod ours;
mod plan;
mod platform;
mod rust_script;
mod rust_side;
mod script;
mod side;
mod stack;
mod tables;
mod timing;

use stack::Stacks;
use std::process::exit;

fn stop(why: &str) -> ! {
    eprintln!("bench: {why}");
    exit(2)
}

fn main() {
    let (mut repetitions, mut check, mut stack) = (25, false, String::new());
    let mut words = std::env::args().skip(1);
    while let Some(word) = words.next() {
        let mut value = || {
            words
                .next()
                .unwrap_or_else(|| stop(&format!("{word} takes a value")))
        };
        match word.as_str() {
            "--check" => check = true,
            "--repetitions" => {
                repetitions = value()
                    .parse()
                    .unwrap_or_else(|_| stop("--repetitions takes a number"))
            }
            "--stack" => {
                stack = std::fs::read_to_string(value())
                    .unwrap_or_else(|error| stop(&error.to_string()))
            }
            _ => stop(&format!("there is no word {word}")),
        }
    }
    if repetitions < 20 {
        stop("fewer than 20 repetitions say little");
    }
    let stacks = Stacks::read(&stack).unwrap_or_else(|| stop("the stack's file has another form"));

    leave::prepare();
    let mut plan = plan::Plan::default();
    boards::each(&mut plan);
    if let Some(difference) = &plan.different {
        stop(difference);
    }
    let measured = measure::Measured::new(plan, repetitions);
    tables::calls(&measured, &stacks, repetitions);
    tables::sizes(&measured);
    growth::print(&measured);
    tables::notes(&measured.costs, &stacks);
    let (missed, targets) = tables::missed(&measured);
    println!("{missed} of {targets} targets are missed.");
    exit((check && missed > 0) as i32)
}
