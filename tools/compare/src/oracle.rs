//! The upstream Rust, run by the rules of docs/REFERENCE.md: what it answers, hands over and stores. What it can't answer the
//! driver does, and says so.

mod allowed;
mod board;
mod calls;
mod image;
mod notes;
mod now;
mod outcome;
mod platform;
mod queries;
mod ran;
mod record;
mod suspends;
mod system_suspend;
pub mod threads;

pub use board::acceptable;

use crate::layout::*;
use board::Levels;
use firmware::services::psci::Psci;
use firmware::services::psci::view_calls::Calls;
use notes::Notes;
use now::{Now, begin, now};
use platform::{Firmware, SPM, Spm, StandIn};
use ran::{Ran, caught};
use std::sync::Arc;

/// Whose answer the code is.
#[derive(Clone, Copy, PartialEq, Eq, Debug)]
pub enum By {
    Rust,
    Driver,
}

#[derive(Debug)]
pub struct Outcome {
    pub reply: Box<Reply>,
    pub by: By,
    /// The rules that were checked, each once.
    pub rules: Vec<&'static str>,
    /// A rule that did not hold, in words.
    pub broken: Option<String>,
}

/// The code where the Rust ended as no rule says; `broken` says how.
pub const NO_ANSWER: u8 = 127;

pub struct Oracle {
    board: Board,
    levels: Levels,
    calls: Arc<dyn Calls>,
    /// By CPU, the ticket of the call that waits on its thread.
    parked: [Option<u64>; CPUS],
}

/// `Psci::new` on that board, whose topology is lent to it for that time alone.
fn build(board: &Board) -> Ran<Arc<dyn Calls>> {
    threads::prepare();
    let entries: Box<[usize]> = board.topology.iter().map(|&entry| entry.into()).collect();
    let entries = Box::into_raw(entries);
    // SAFETY: the Rust reads the topology in `new` alone, and it is taken back below after that.
    let topology: &'static [usize] = unsafe { &*entries };
    begin(Now {
        cpu: board.primary.into(),
        topology,
        ..Now::new(Levels::of(board), CPUS)
    });
    let made = caught(|| -> Arc<dyn Calls> {
        match board.max {
            1 => Arc::new(Psci::<2, 1, CPUS, DOMAINS, Firmware, StandIn, Spm>::made(
                StandIn,
                || &SPM,
            )),
            2 => Arc::new(Psci::<3, 2, CPUS, DOMAINS, Firmware, StandIn, Spm>::made(
                StandIn,
                || &SPM,
            )),
            _ => Arc::new(Psci::<4, 3, CPUS, DOMAINS, Firmware, StandIn, Spm>::made(
                StandIn,
                || &SPM,
            )),
        }
    });
    now().topology = &[];
    // SAFETY: made by `into_raw` above, and nothing holds it any more.
    drop(unsafe { Box::from_raw(entries) });
    made
}

impl Oracle {
    /// The Rust's tree and fresh state, or 101 by the driver's test of what is acceptable.
    pub fn start(board: &Board) -> (Outcome, Option<Oracle>) {
        let mut notes = Notes::new();
        if !acceptable(board) {
            if let Some(counts) = board::short_topology(board) {
                let built = match build(board) {
                    Ran::Returned(calls) => Some(calls.fields()),
                    _ => None,
                };
                let built = built.map(|fields| (fields.domains.len(), fields.cpus.len()));
                notes.rule("short-topology", built == Some(counts));
            }
            return (refused(101, By::Driver, notes), None);
        }
        match build(board) {
            Ran::Returned(calls) => {
                let oracle = Oracle::around(board.clone(), calls);
                let image = oracle.image();
                let mut reply = queries::ask(&oracle, &image, &mut notes);
                reply[reply::IMAGE..reply::ALL_ON].copy_from_slice(&image);
                (
                    Outcome {
                        reply,
                        by: By::Rust,
                        rules: notes.rules,
                        broken: notes.broken,
                    },
                    Some(oracle),
                )
            }
            other => {
                let code = notes.failed("PowerDomainTree::new", other);
                (refused(code, By::Rust, notes), None)
            }
        }
    }

    /// Any state whose tree is right, sound or not.
    pub fn load(image: &Image) -> Oracle {
        let board = image::board(image);
        assert!(
            acceptable(&board),
            "a state that is loaded has an acceptable board"
        );
        let Ran::Returned(calls) = build(&board) else {
            panic!("the Rust builds no tree for {board:?}")
        };
        let (fields, mode) = image::read(image);
        calls.set_fields(&fields);
        calls.set_mode(mode);
        Oracle::around(board, calls)
    }

    pub fn image(&self) -> Image {
        image::write(&self.board, &self.calls.fields(), self.calls.mode())
    }

    /// An event, a script record of any bytes.
    pub fn event(&mut self, record: &[u8]) -> Outcome {
        calls::event(self, record)
    }

    fn around(board: Board, calls: Arc<dyn Calls>) -> Oracle {
        Oracle {
            levels: Levels::of(&board),
            board,
            calls,
            parked: [None; CPUS],
        }
    }

    /// Puts a state back that a check has changed.
    fn restore(&self, image: &Image) {
        let (fields, mode) = image::read(image);
        self.calls.set_fields(&fields);
        self.calls.set_mode(mode);
    }
}

/// A board record that is malformed: 108.
pub fn malformed_board() -> Outcome {
    refused(108, By::Driver, Notes::new())
}

/// A board that gives no state: zeros, which are not sound.
fn refused(code: u8, by: By, notes: Notes) -> Outcome {
    let mut reply = Box::new([0; reply::SIZE]);
    reply[reply::CODE] = code;
    reply[reply::ALL_ON] = 102;
    Outcome {
        reply,
        by,
        rules: notes.rules,
        broken: notes.broken,
    }
}
