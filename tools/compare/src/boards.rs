//! Phase boards: topologies and platforms, accepted and not.

use crate::board_maker;
use crate::comparer::{Comparer, Going};
use crate::layout::{Board, CPUS, DOMAINS, request::RECORD_SIZE};
use crate::oracle;
use crate::random::Random;
use crate::records;

/// The longest of the small topologies, and one more than their greatest entry.
const LENGTH: usize = 6;
const ENTRY_END: u8 = 4;

pub fn run(comparer: &mut Comparer) -> Going<()> {
    comparer.phase("boards");
    let random = &mut Random::new(comparer.seed, 1);
    small(comparer)?;
    let small = comparer.starts;
    platforms(comparer)?;
    limits(comparer, random)?;
    for _ in 0..4000 {
        comparer.start(&board_maker::acceptable(random))?;
        comparer.start(&board_maker::damaged(random))?;
    }
    malformed(comparer, random)?;
    let all = comparer.starts;
    comparer.say(format!(
        "boards: {all} boards, of which {small} are all the small ones"
    ));
    Ok(())
}

/// All topologies with entries 0 to 3 of at most six entries; of an acceptable one every primary, and one too many.
fn small(comparer: &mut Comparer) -> Going<()> {
    let mut topologies = vec![Vec::new()];
    let mut from = 0;
    for _ in 0..LENGTH {
        let to = topologies.len();
        for place in from..to {
            for entry in 0..ENTRY_END {
                let mut longer: Vec<u8> = topologies[place].clone();
                longer.push(entry);
                topologies.push(longer);
            }
        }
        from = to;
    }
    for max in 1..=3 {
        for topology in &topologies {
            let mut board = Board {
                max,
                states: 2,
                down: 1,
                primary: 0,
                topology: topology.clone(),
            };
            comparer.start(&board)?;
            board.primary = 1;
            while oracle::acceptable(&board) {
                comparer.start(&board)?;
                board.primary += 1;
            }
            comparer.start(&board)?;
        }
    }
    Ok(())
}

/// MAX 0 to 4, states and d 0 to 17, on a topology of that MAX.
fn platforms(comparer: &mut Comparer) -> Going<()> {
    for max in 0..=4 {
        for states in 0..=17 {
            for down in 0..=17 {
                let topology = [vec![1; max as usize], vec![2]].concat();
                comparer.start(&Board {
                    max,
                    states,
                    down,
                    primary: 1,
                    topology,
                })?;
            }
        }
    }
    Ok(())
}

/// 16 and 17 CPUs with few domains and many, and 16 and 17 domains.
fn limits(comparer: &mut Comparer, random: &mut Random) -> Going<()> {
    for max in 1..=3 {
        for domains in max..=DOMAINS + 1 {
            for cpus in CPUS - 1..=CPUS + 1 {
                for _ in 0..4 {
                    let mut board = board_maker::at_the_limits(random, max, domains, cpus);
                    comparer.start(&board)?;
                    board.primary = cpus as u8 - 1;
                    comparer.start(&board)?;
                    board.primary = cpus as u8;
                    comparer.start(&board)?;
                }
            }
        }
    }
    Ok(())
}

/// Records of boards with bytes changed, and random bytes.
fn malformed(comparer: &mut Comparer, random: &mut Random) -> Going<()> {
    for _ in 0..2000 {
        let mut record = records::padded(&records::board(&board_maker::acceptable(random)));
        match random.below(4) {
            0 => record[0] = random.below(40) as u8,
            1 => record[random.below(4)] = random.byte(),
            2 => record[8] = random.below(24) as u8,
            _ => (0..RECORD_SIZE).for_each(|place| record[place] = random.byte()),
        }
        match records::read_board(&record) {
            Some((board, _)) => drop(comparer.start(&board)?),
            None => comparer.malformed_start(&record)?,
        }
    }
    Ok(())
}
