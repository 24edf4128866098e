//! One event on both sides: the Rust answers here, and the request and its answer go to the thread that compares.

use crate::layout::{image, reply, request, *};
use crate::oracle::{self, Oracle, Outcome};
use crate::records::{self, Call, Record};
use crate::report::Counts;
use crate::shared::{Difference, Shared};
use crate::transport::{Expected, Link};
use crate::{explain, state::State};
use std::panic::{AssertUnwindSafe, catch_unwind};
use std::sync::Arc;

/// Ends a run: as many differences were found as were asked for, or one after which the Rust's answers say nothing.
pub struct Stop;
pub type Going<T> = Result<T, Stop>;

/// What a request is about.
#[derive(Clone, Copy, PartialEq, Eq)]
enum Sort {
    Board,
    Event,
    NodeRecords,
}

pub struct Comparer {
    link: Link,
    pub shared: Arc<Shared>,
    pub counts: Counts,
    pub seed: u64,
    phase: &'static str,
    /// Requests of all kinds.
    sent: u64,
    /// Boards asked of our program.
    pub starts: u64,
    /// Events, those of whole scripts too.
    pub events: u64,
}

impl Comparer {
    pub fn new(command: &[String], seed: u64, shared: Arc<Shared>) -> std::io::Result<Comparer> {
        let link = Link::new(command, &shared)?;
        let counts = Counts::default();
        Ok(Comparer {
            link,
            shared,
            counts,
            seed,
            phase: "",
            sent: 0,
            starts: 0,
            events: 0,
        })
    }

    pub fn phase(&mut self, name: &'static str) {
        self.phase = name;
        *self.shared.phase.lock().unwrap() = name;
    }

    /// Prints a line once all before it is compared.
    pub fn say(&mut self, line: String) {
        self.link.say(line);
    }

    pub fn finish(self) -> Counts {
        self.link.finish(&self.shared);
        self.counts
    }

    /// A board on both sides. Where it is accepted: the Rust's state, and its image.
    pub fn start(&mut self, board: &Board) -> Going<Option<(Oracle, Image)>> {
        let record = records::padded(&records::board(board));
        let made = catch_unwind(AssertUnwindSafe(|| Oracle::start(board)));
        let (outcome, oracle) = self.unless_panicked(made, || explain::board_words(board))?;
        let image: Image = outcome.reply[reply::IMAGE..reply::ALL_ON]
            .try_into()
            .unwrap();
        self.counts.outcome(Call::Board, &outcome);
        let state = State(&image);
        let sizes = oracle
            .as_ref()
            .map(|_| (state.cpus() as u8, state.domains() as u8));
        self.counts.board(board, sizes);
        self.send(Sort::Board, &record, &[0; image::SIZE], outcome)?;
        Ok(oracle.map(|oracle| (oracle, image)))
    }

    /// A board record that is malformed.
    pub fn malformed_start(&mut self, record: &Record) -> Going<()> {
        let outcome = oracle::malformed_board();
        self.counts.outcome(Call::Board, &outcome);
        self.send(Sort::Board, record, &[0; image::SIZE], outcome)
    }

    /// An event on both sides, from the Rust's state before it. The image becomes that of the state after it.
    pub fn event(&mut self, oracle: &mut Oracle, image: &mut Image, record: &Record) -> Going<()> {
        let before = *image;
        let made = catch_unwind(AssertUnwindSafe(|| oracle.event(records::trimmed(record))));
        let outcome = self.unless_panicked(made, || {
            explain::event(record) + "\n" + &explain::state(&before)
        })?;
        image.copy_from_slice(&outcome.reply[reply::IMAGE..reply::ALL_ON]);
        self.counts.outcome(records::call(record), &outcome);
        self.send(Sort::Event, record, &before, outcome)
    }

    /// A state that need not be sound, with a record that is no event: what it gives is the queries. Counted as no event.
    pub fn node_records(&mut self, image: &Image) -> Going<Box<Reply>> {
        let record = [0; request::RECORD_SIZE];
        let made = catch_unwind(AssertUnwindSafe(|| Oracle::load(image).event(&record)));
        let outcome = self.unless_panicked(made, || explain::state(image))?;
        self.counts.rules(&outcome);
        let reply = outcome.reply.clone();
        self.send(Sort::NodeRecords, &record, image, outcome)?;
        Ok(reply)
    }

    fn send(&mut self, sort: Sort, record: &Record, before: &Image, outcome: Outcome) -> Going<()> {
        let mut bytes: Box<Request> = Box::new([0; request::SIZE]);
        bytes[request::KIND] = match sort {
            Sort::Board => request::START,
            Sort::Event | Sort::NodeRecords => request::EVENT,
        };
        bytes[request::RECORD..request::IMAGE].copy_from_slice(record);
        bytes[request::IMAGE..].copy_from_slice(before);
        self.sent += 1;
        self.starts += u64::from(sort == Sort::Board);
        self.events += u64::from(sort == Sort::Event);
        let (number, phase) = (self.sent, self.phase);
        if let Some(rule) = &outcome.broken {
            let short = format!("request {number} ({phase}), a rule does not hold: {rule}");
            let long = format!("{short}\n{}", explain::request(&bytes));
            self.differs(Difference { short, long });
            return Err(Stop);
        }
        self.link.send(Expected {
            number,
            is_event: sort == Sort::Event,
            phase,
            request: bytes,
            reply: outcome.reply,
        });
        if self.shared.stopped() {
            Err(Stop)
        } else {
            Ok(())
        }
    }

    /// A difference that is seen here, in its place after what was sent before it.
    pub fn differs(&mut self, difference: Difference) {
        self.link.differs(difference);
    }

    /// A panic of the Rust that no rule expects is a difference.
    fn unless_panicked<T>(
        &mut self,
        made: std::thread::Result<T>,
        what: impl Fn() -> String,
    ) -> Going<T> {
        made.or_else(|why| {
            let why = match (why.downcast_ref::<&str>(), why.downcast_ref::<String>()) {
                (Some(text), _) => text,
                (_, Some(text)) => text.as_str(),
                _ => "",
            };
            let short = format!(
                "request {} ({}), the Rust panics: {why}",
                self.sent + 1,
                self.phase
            );
            let long = format!("{short}\n{}\n", what());
            self.differs(Difference { short, long });
            Err(Stop)
        })
    }
}
