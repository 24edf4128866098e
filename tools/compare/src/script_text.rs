//! What `scriptrun` is to print of a script: the events by the Rust, the rest as the scope says.

use crate::layout::{image, reply, *};
use crate::oracle::{Oracle, Outcome};
use crate::records::{self, Call};
use crate::state::State;
use std::fmt::Write;

pub const LARGEST: usize = 16_000;
pub const BUDGET: usize = 3_000;

/// The text, and how many events were taken. `told` hears of each outcome.
pub fn text(script: &[u8], mut told: impl FnMut(Call, &Outcome)) -> (String, usize) {
    if script.len() > LARGEST {
        return ("refused 110\n".into(), 0);
    }
    let Some((board, mut place)) = records::read_board(script) else {
        return ("refused 108\n".into(), 0);
    };
    let (outcome, oracle) = Oracle::start(&board);
    told(Call::Board, &outcome);
    let Some(mut oracle) = oracle else {
        return ("refused 101\n".into(), 0);
    };
    let fresh = image_of(&outcome);
    let (cpus, domains, max) = (
        fresh[image::CPU_COUNT],
        fresh[image::DOMAIN_COUNT],
        fresh[image::MAX],
    );
    let mut text = format!("cpus {cpus} domains {domains} levels {max}\n");
    let mut events = 0;
    let closing = loop {
        let left = &script[place..];
        if left.is_empty() {
            break 0;
        }
        if events == BUDGET {
            break 112;
        }
        let Some(length) = records::length(left) else {
            break 108;
        };
        let record = &left[..length];
        let outcome = oracle.event(record);
        let code = outcome.reply[reply::CODE] as i8;
        if code == 108 {
            break 108;
        }
        told(records::call(record), &outcome);
        events += 1;
        let _ = writeln!(
            text,
            "{events} {code}{}",
            shown(&outcome, records::named_cpu(record))
        );
        place += length;
    };
    let _ = writeln!(text, "end {events} {closing}");
    (text, events)
}

fn image_of(outcome: &Outcome) -> Image {
    outcome.reply[reply::IMAGE..reply::ALL_ON]
        .try_into()
        .unwrap()
}

/// The stored states of a CPU's path after the call.
fn shown(outcome: &Outcome, cpu: u8) -> String {
    let image = image_of(outcome);
    let state = State(&image);
    if cpu as usize >= state.cpus() {
        return " -".into();
    }
    let stored = state.stored(cpu as usize);
    stored[..=state.max()]
        .iter()
        .map(|state| format!(" {state}"))
        .collect()
}
