//! What was compared, in numbers.

use crate::layout::{Board, reply};
use crate::oracle::{By, Outcome};
use crate::records::Call;
use std::collections::BTreeMap;

#[derive(Default)]
pub struct Counts {
    answers: BTreeMap<(Call, i8, bool), u64>,
    rules: BTreeMap<&'static str, u64>,
    boards: u64,
    refused_boards: u64,
    cpus: BTreeMap<u8, u64>,
    domains: BTreeMap<u8, u64>,
    states: BTreeMap<u8, u64>,
    levels: BTreeMap<u8, u64>,
}

impl Counts {
    pub fn outcome(&mut self, call: Call, outcome: &Outcome) {
        let code = outcome.reply[reply::CODE] as i8;
        let call = if code == 108 { Call::None } else { call };
        let by_driver = outcome.by == By::Driver;
        *self.answers.entry((call, code, by_driver)).or_default() += 1;
        self.rules(outcome);
    }

    /// The rules alone, of what is no event.
    pub fn rules(&mut self, outcome: &Outcome) {
        for rule in &outcome.rules {
            *self.rules.entry(rule).or_default() += 1;
        }
    }

    pub fn board(&mut self, board: &Board, accepted: Option<(u8, u8)>) {
        let Some((cpus, domains)) = accepted else {
            self.refused_boards += 1;
            return;
        };
        self.boards += 1;
        *self.cpus.entry(cpus).or_default() += 1;
        *self.domains.entry(domains).or_default() += 1;
        *self.states.entry(board.states).or_default() += 1;
        *self.levels.entry(board.max).or_default() += 1;
    }

    pub fn print(&self) {
        println!(
            "\n{:<16} {:>5} {:>10}  whose answer",
            "call", "code", "count"
        );
        for ((call, code, by_driver), count) in &self.answers {
            let whose = if *by_driver {
                "the driver's"
            } else {
                "the Rust's"
            };
            println!("{:<16} {:>5} {:>10}  {whose}", call.name(), code, count);
        }
        println!("\n{:<32} {:>10}", "rule", "count");
        for (rule, count) in &self.rules {
            println!("{rule:<32} {count:>10}");
        }
        println!(
            "\n{} boards accepted and {} refused; CPUs {}; domains {}; states {}; MAX {}",
            self.boards,
            self.refused_boards,
            range(&self.cpus),
            range(&self.domains),
            range(&self.states),
            range(&self.levels)
        );
    }
}

/// The least and the greatest, and on how many boards each between them was at the least.
fn range(counts: &BTreeMap<u8, u64>) -> String {
    let (Some((first, _)), Some((last, _))) = (counts.first_key_value(), counts.last_key_value())
    else {
        return "none".into();
    };
    let each = |number| counts.get(&number).copied().unwrap_or(0);
    let least = (*first..=*last).map(each).min().unwrap_or(0);
    format!("{first} to {last} (each on {least} or more)")
}
