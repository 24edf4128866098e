//! Scripts as bytes: good ones, damaged copies of them, and some at the limits of `scriptrun`.

use crate::board_maker;
use crate::generate;
use crate::layout::{Board, Image, reply};
use crate::moods::{self, Mood};
use crate::oracle::Oracle;
use crate::random::Random;
use crate::records;
use crate::script_text::{BUDGET, LARGEST};
use crate::state::State;

/// The records of a good script: a board, and events that follow its states.
fn good(random: &mut Random, events: usize) -> Vec<Vec<u8>> {
    let board = board_maker::acceptable(random);
    let mut list = vec![records::board(&board)];
    let (outcome, oracle) = Oracle::start(&board);
    let Some(mut oracle) = oracle else {
        return list;
    };
    let mut image: Image = outcome.reply[reply::IMAGE..reply::ALL_ON]
        .try_into()
        .unwrap();
    let mood = Mood::any(random);
    for _ in 0..events {
        let record = generate::well_formed(random, State(&image), mood);
        let record = records::trimmed(&record);
        let outcome = oracle.event(record);
        image.copy_from_slice(&outcome.reply[reply::IMAGE..reply::ALL_ON]);
        list.push(record.to_vec());
        if moods::is_over(&image) && random.chance(50) {
            break;
        }
    }
    list
}

/// A good script, or a copy of one with one kind of damage.
pub fn any(random: &mut Random) -> Vec<u8> {
    let events = random.within(0, 150);
    let mut list = good(random, events);
    let place = random.below(list.len());
    match random.below(10) {
        0 => list.insert(place, list[place].clone()),
        1 => list.insert(place + 1, list[0].clone()),
        2 => drop(list.remove(place)),
        3 => list[0] = records::board(&board_maker::damaged(random)),
        _ => (),
    }
    let mut bytes = list.concat();
    match random.below(10) {
        0 => bytes.truncate(random.below(bytes.len() + 1)),
        1 => bytes.extend((0..random.within(1, 3)).map(|_| random.byte())),
        2 => bytes = (0..random.below(200)).map(|_| random.byte()).collect(),
        3..6 => {
            for _ in 0..random.within(1, 4) {
                if let Some(place) = (!bytes.is_empty()).then(|| random.below(bytes.len())) {
                    bytes[place] = random.byte();
                }
            }
        }
        _ => (),
    }
    bytes
}

/// As many events as the budget has, more, and stray bytes after them; as many bytes as are taken, and one more.
pub fn at_the_limits(random: &mut Random) -> Vec<Vec<u8>> {
    let board = Board {
        max: 1,
        states: 2,
        down: 1,
        primary: 0,
        topology: vec![1, 2],
    };
    let start = records::board(&board);
    let mut list = vec![Vec::new()];
    list.extend((1..start.len()).map(|length| start[..length].to_vec()));
    for (events, stray) in [
        (BUDGET - 1, 0),
        (BUDGET, 0),
        (BUDGET + 1, 0),
        (BUDGET, 1),
        (BUDGET, 3),
        (BUDGET - 1, 3),
    ] {
        let mut script = start.clone();
        for event in 0..events {
            let cpu = (event % 3) as u8;
            let record = if event % 2 == 0 {
                records::boot(cpu)
            } else {
                records::finish(cpu)
            };
            script.extend(records::trimmed(&record));
        }
        script.extend(vec![0xff; stray]);
        list.push(script);
    }
    for length in [LARGEST - 1, LARGEST, LARGEST + 1, LARGEST + 5000] {
        list.push(of_length(random, length));
    }
    list.push(vec![0; LARGEST]);
    list.push(vec![0; LARGEST + 1]);
    list
}

/// A good script of so many bytes: the last events are finishes and offs, of five and of six bytes.
fn of_length(random: &mut Random, length: usize) -> Vec<u8> {
    let mut script = Vec::new();
    for record in good(random, 1500) {
        if script.len() + record.len() + 20 <= length {
            script.extend(record);
        }
    }
    while script.len() < length {
        let left = length - script.len();
        let record = if left % 5 == 0 {
            records::finish(random.byte())
        } else {
            records::off(random.byte(), 0)
        };
        script.extend(records::trimmed(&record));
    }
    script
}
