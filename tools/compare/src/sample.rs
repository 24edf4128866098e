//! The stored sample: scripts with the Rust's replies, chosen from random chains so that all of a list is in it.

use crate::board_maker;
use crate::explain::hex;
use crate::generate;
use crate::layout::{Board, Image, Reply, image, reply};
use crate::moods::{self, Mood};
use crate::oracle::Oracle;
use crate::random::Random;
use crate::records;
use crate::sample_items::{Items, cover, required};
use crate::smallest;
use crate::state::State;
use std::fmt::Write;

const EVENTS: usize = 3_400;
const LARGEST: usize = 490_000;
/// Of so many chains the one is taken that has most of what is missing for its length.
const CHAINS: usize = 24;
const ATTEMPTS: usize = 1_000;

/// A script in text, and what it covers.
struct Chain {
    text: String,
    events: usize,
    items: Items,
    /// A rule that did not hold.
    broken: Option<String>,
}

impl Chain {
    /// Adds an event's line, and gives its reply.
    fn event(&mut self, oracle: &mut Oracle, record: &[u8], before: &Reply) -> Box<Reply> {
        let outcome = oracle.event(record);
        cover(&mut self.items, records::call(record).name(), &outcome);
        let changed = runs(before, &outcome.reply);
        let _ = writeln!(self.text, "{}{changed}", hex(record));
        self.events += 1;
        self.broken = self.broken.take().or(outcome.broken);
        outcome.reply
    }
}

/// The text of the sample, or what it does not cover.
pub fn text(seed: u64) -> Result<String, String> {
    let random = &mut Random::new(seed, 5);
    let required = required();
    let mut covered = Items::new();
    let mut chains = Vec::new();
    for case in smallest::cases() {
        chains.push(smallest_input(&case)?);
    }
    chains.extend(refused_boards(random));
    chains
        .iter()
        .for_each(|chain| covered.extend(chain.items.clone()));
    for _ in 0..ATTEMPTS {
        let size: usize = chains.iter().map(|chain| chain.text.len()).sum();
        let events: usize = chains.iter().map(|chain| chain.events).sum();
        let missing: Items = required.difference(&covered).cloned().collect();
        if missing.is_empty() && events >= EVENTS {
            break;
        }
        let mut best = chain(random);
        if !missing.is_empty() {
            let wanted = |chain: &Chain| chain.items.intersection(&missing).count();
            let others = (1..CHAINS).map(|_| chain(random));
            best = others.fold(best, |best, other| {
                let better = wanted(&other) * best.text.len() > wanted(&best) * other.text.len();
                if better { other } else { best }
            });
            if wanted(&best) == 0 {
                continue;
            }
        }
        if size + best.text.len() > LARGEST {
            continue;
        }
        covered.extend(best.items.clone());
        chains.push(best);
    }
    if let Some(rule) = chains.iter().find_map(|chain| chain.broken.clone()) {
        return Err(format!("a rule does not hold: {rule}"));
    }
    let missing: Vec<String> = required.difference(&covered).cloned().collect();
    if !missing.is_empty() {
        return Err(format!("the sample lacks {}", missing.join("; ")));
    }
    Ok(head(seed, &chains)
        + &chains
            .iter()
            .map(|chain| chain.text.as_str())
            .collect::<String>())
}

fn head(seed: u64, chains: &[Chain]) -> String {
    let events: usize = chains.iter().map(|chain| chain.events).sum();
    format!(
        "# Scripts and what the upstream Rust answers, at commit a26f0ba86f. Made by: tools/compare-rust --seed {seed} sample\n\
         # {} boards, {events} events. Covered: every call with every code that it can give from a well-formed record, every\n\
         # known difference, MAX 1 to 3, 2 to 16 states, 1 to 16 CPUs, 1 to 16 domains, every kind of notice.\n\
         # First the smallest inputs of docs/DIFFERENCES.md, under their headings, then refused boards, then random scripts.\n\
         # A line is the record in hex and its reply: what differs from the reply before it (zeros, at a start), in runs\n\
         # OFFSET:BYTES. tools/compare/src/layout.rs has the bytes of a reply.\n",
        chains.len()
    )
}

/// A smallest input, or what it gives that it must not.
fn smallest_input(case: &smallest::Case) -> Result<Chain, String> {
    let (mut chain, oracle, mut before) = start(&case.board);
    let must = |(code, rule): (i8, &'static str), items: &Items, reply: &Reply| {
        let met = rule.is_empty() || items.contains(rule);
        if reply[reply::CODE] as i8 == code && met {
            return Ok(());
        }
        Err(format!(
            "'{}' is not shown by its smallest input",
            case.heading
        ))
    };
    must(case.start, &chain.items, &before)?;
    chain.text.insert_str(0, &format!("# {}\n", case.heading));
    let Some(mut oracle) = oracle else {
        return Ok(chain);
    };
    for (record, wanted) in &case.events {
        before = chain.event(&mut oracle, records::trimmed(record), &before);
        must(*wanted, &chain.items, &before)?;
    }
    Ok(chain)
}

/// A board's line, and its reply.
fn start(board: &Board) -> (Chain, Option<Oracle>, Box<Reply>) {
    let (outcome, oracle) = Oracle::start(board);
    let mut items = Items::new();
    cover(&mut items, "board", &outcome);
    let zeros: Reply = [0; reply::SIZE];
    let text = format!(
        "start {}{}\n",
        hex(&records::board(board)),
        runs(&zeros, &outcome.reply)
    );
    (
        Chain {
            text,
            events: 0,
            items,
            broken: outcome.broken,
        },
        oracle,
        outcome.reply,
    )
}

/// Boards that are not acceptable, short topologies among them.
fn refused_boards(random: &mut Random) -> Vec<Chain> {
    let mut boards = Vec::new();
    for topology in [
        vec![1, 2, 2],
        vec![1, 2, 2, 0],
        vec![1, 2, 2, 2, 2],
        vec![],
        vec![2, 16, 1, 1],
    ] {
        boards.push(Board {
            max: 2,
            states: 4,
            down: 2,
            primary: 0,
            topology,
        });
    }
    for cpus in [17, 255] {
        boards.push(Board {
            max: 1,
            states: 2,
            down: 1,
            primary: 0,
            topology: vec![1, cpus],
        });
    }
    boards.extend((0..40).map(|_| board_maker::damaged(random)));
    let starts = boards.iter().map(start);
    starts
        .filter(|(_, oracle, _)| oracle.is_none())
        .map(|(chain, ..)| chain)
        .collect()
}

/// A random script from the fresh state of a random board.
fn chain(random: &mut Random) -> Chain {
    let board = board_maker::acceptable(random);
    let (mut chain, oracle, mut before) = start(&board);
    let Some(mut oracle) = oracle else {
        return chain;
    };
    let mut image: Image = before[reply::IMAGE..reply::ALL_ON].try_into().unwrap();
    chain.items.insert(format!("MAX {}", image[image::MAX]));
    chain
        .items
        .insert(format!("states {}", image[image::STATES]));
    chain
        .items
        .insert(format!("CPUs {}", image[image::CPU_COUNT]));
    chain
        .items
        .insert(format!("domains {}", image[image::DOMAIN_COUNT]));
    let mut mood = Mood::any(random);
    for _ in 0..random.within(30, 90) {
        if random.chance(5) {
            mood = Mood::any(random);
        }
        let record = generate::well_formed(random, State(&image), mood);
        before = chain.event(&mut oracle, records::trimmed(&record), &before);
        image.copy_from_slice(&before[reply::IMAGE..reply::ALL_ON]);
        if moods::is_over(&image) && random.chance(50) {
            break;
        }
    }
    chain
}

/// What changed from one reply to the next. A run goes on over up to two bytes that did not.
fn runs(before: &Reply, after: &Reply) -> String {
    let mut text = String::new();
    let mut place = 0;
    while place < reply::SIZE {
        if before[place] == after[place] {
            place += 1;
            continue;
        }
        let start = place;
        let mut end = place + 1;
        while place < reply::SIZE && place < end + 2 {
            if before[place] != after[place] {
                end = place + 1;
            }
            place += 1;
        }
        let _ = write!(text, " {start}:{}", hex(&after[start..end]));
        place = end;
    }
    text
}
