//! Random boards: acceptable ones over the whole scope, and others.

use crate::layout::{Board, CPUS, DOMAINS};
use crate::random::Random;

/// An acceptable board. Small ones come more often, and every count of CPUs and of domains comes often.
pub fn acceptable(random: &mut Random) -> Board {
    let max = random.within(1, 3);
    let domains = if random.chance(60) {
        random.within(max, max + 3)
    } else {
        random.within(max, DOMAINS)
    };
    let widths = level_widths(random, max, domains);
    let lowest = widths[max - 1];
    let cpus = if random.chance(60) {
        random.within(lowest, (lowest + 3).min(CPUS))
    } else {
        random.within(lowest, CPUS)
    };
    with_widths(random, widths, cpus)
}

/// A board with as many CPUs and domains as the limits allow, or one more.
pub fn at_the_limits(random: &mut Random, max: usize, domains: usize, cpus: usize) -> Board {
    let widths = level_widths(random, max, domains);
    with_widths(random, widths, cpus)
}

fn with_widths(random: &mut Random, widths: Vec<usize>, cpus: usize) -> Board {
    let mut topology = vec![widths[0] as u8];
    for (place, width) in widths.iter().enumerate() {
        let children = widths.get(place + 1).copied().unwrap_or(cpus);
        topology.extend(shared_out(random, children, *width));
    }
    let states = if random.chance(50) {
        random.within(2, 5)
    } else {
        random.within(2, 16)
    };
    let down = random.within(1, states - 1);
    let primary = random.below(cpus);
    Board {
        max: widths.len() as u8,
        states: states as u8,
        down: down as u8,
        primary: primary as u8,
        topology,
    }
}

/// How many domains each level has, the top first: no level has fewer than the one above it.
fn level_widths(random: &mut Random, max: usize, domains: usize) -> Vec<usize> {
    let mut left = domains;
    let mut widths = Vec::new();
    let mut least = 1;
    for levels in (2..=max).rev() {
        let width = random.within(least, (left / levels).max(least));
        widths.push(width);
        left -= width;
        least = width;
    }
    widths.push(left);
    widths
}

/// `children` given to `parents`, each of which gets at least one.
fn shared_out(random: &mut Random, children: usize, parents: usize) -> Vec<u8> {
    let mut shares = vec![1; parents];
    for _ in parents..children {
        shares[random.below(parents)] += 1;
    }
    shares
}

/// A board with something wrong in most cases: a field or an entry of an acceptable one changed, or all by chance.
pub fn damaged(random: &mut Random) -> Board {
    let mut board = acceptable(random);
    if random.chance(20) {
        let length = random.below(DOMAINS + 4);
        board.topology = (0..length).map(|_| random.below(4) as u8).collect();
        return board;
    }
    match random.below(8) {
        0 => board.max = random.below(5) as u8,
        1 => board.states = random.below(18) as u8,
        2 => board.down = random.below(18) as u8,
        3 => board.primary = random.below(18) as u8,
        4 => drop(board.topology.pop()),
        5 if board.topology.len() < DOMAINS + 3 => board.topology.push(random.below(3) as u8),
        6 => {
            let place = random.below(board.topology.len());
            board.topology[place] = random.byte();
        }
        _ => {
            let place = random.below(board.topology.len());
            board.topology[place] = random.below(5) as u8;
        }
    }
    board
}
