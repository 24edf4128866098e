//! A state as an image's bytes, and as the Rust's fields.

use super::board::Levels;
use crate::layout::image::*;
use crate::layout::*;
use arm_psci::{AffinityInfo, EntryPoint, SuspendMode};
use firmware::services::psci::view_calls::{Cpu, Domain, Fields};

/// The board that an image names. The topology is as long as its tree needs.
pub fn board(image: &Image) -> Board {
    let entries = usize::from(image[DOMAIN_COUNT]) + 1;
    Board {
        max: image[MAX],
        states: image[STATES],
        down: image[DOWN],
        primary: image[PRIMARY],
        topology: image[TOPOLOGY..TOPOLOGY + entries].to_vec(),
    }
}

/// A domain's level, by the steps from it to the top. None where there are too many, which only a faulty tree has.
pub fn level(max: usize, parents: impl Fn(usize) -> Option<u8>, domain: usize) -> Option<usize> {
    let mut at = domain;
    for level in (1..=max).rev() {
        match parents(at) {
            None => return Some(level),
            Some(parent) => at = parent.into(),
        }
    }
    None
}

/// A domain's parent in an image.
pub fn parent(image: &Image, domain: usize) -> Option<u8> {
    (domain < DOMAINS)
        .then(|| image[PARENTS + domain])
        .filter(|&parent| parent != NO_PARENT)
}

/// Where the request of a CPU at a level stands in its row; suspend states have the same order.
pub fn slot(level: usize, cpu: usize) -> usize {
    (level - 1) * CPUS + cpu
}

pub fn write(board: &Board, fields: &Fields, mode: SuspendMode) -> Image {
    let levels = Levels::of(board);
    let mut image = [0; SIZE];
    image[MAX] = board.max;
    image[STATES] = board.states;
    image[DOWN] = board.down;
    image[PRIMARY] = board.primary;
    image[TOPOLOGY..TOPOLOGY + board.topology.len()].copy_from_slice(&board.topology);
    image[DOMAIN_COUNT] = fields.domains.len() as u8;
    image[CPU_COUNT] = fields.cpus.len() as u8;
    for (number, domain) in fields.domains.iter().enumerate() {
        let level = level(levels.max, |at| fields.domains.get(at)?.parent, number);
        write_domain(&mut image, levels, level, number, domain);
    }
    for (number, cpu) in fields.cpus.iter().enumerate() {
        let row = &mut image[CPU_ROW + number * CPU..][..CPU];
        row[CPU_PARENT] = cpu.parent;
        row[CPU_AFFINITY] = cpu.affinity as u8;
        row[CPU_STATE] = levels.from_rust(cpu.state);
        if let Some(entry) = cpu.entry {
            row[CPU_HELD] = 1;
            row[CPU_ADDRESS..CPU_CONTEXT].copy_from_slice(&entry.address.to_le_bytes());
            row[CPU_CONTEXT..].copy_from_slice(&entry.context.to_le_bytes());
        }
    }
    image[MODE] = u8::from(mode == SuspendMode::OsInitiated);
    image
}

/// A faulty tree is written as far as it fits, so that it shows as a difference.
fn write_domain(
    image: &mut Image,
    levels: Levels,
    level: Option<usize>,
    number: usize,
    domain: &Domain,
) {
    image[PARENTS + number] = domain.parent.unwrap_or(NO_PARENT);
    image[CPU_STARTS + number] = domain.cpus.start;
    image[CPU_ENDS + number] = domain.cpus.end;
    image[CHILD_STARTS + number] = domain.children.start;
    image[CHILD_ENDS + number] = domain.children.end;
    image[DOMAIN_STATES + number] = levels.from_rust(domain.state);
    let suspend =
        |state: Option<u8>| state.map_or(NO_SUSPEND_STATE, |state| levels.from_rust(state));
    let by_cpu = domain
        .cpus
        .clone()
        .take_while(|&cpu| usize::from(cpu) < CPUS)
        .zip(domain.requests.iter().zip(&domain.suspends));
    for (cpu, (&requested, &suspended)) in by_cpu {
        if let Some(level) = level {
            image[REQUESTS + slot(level, cpu.into())] = levels.from_rust(requested);
            image[SUSPENDS + slot(level, cpu.into())] = suspend(suspended);
        }
    }
    let children = domain
        .children
        .clone()
        .take_while(|&child| usize::from(child) < DOMAINS);
    for (child, &copy) in children.zip(&domain.copies) {
        image[COPIES + usize::from(child)] = levels.from_rust(copy);
    }
}

pub fn read(image: &Image) -> (Fields, SuspendMode) {
    let levels = Levels {
        max: image[MAX].into(),
        states: image[STATES],
        down: image[DOWN],
    };
    let fields = Fields {
        domains: (0..image[DOMAIN_COUNT].into())
            .map(|number| read_domain(image, levels, number))
            .collect(),
        cpus: (0..image[CPU_COUNT].into())
            .map(|number| read_cpu(image, levels, number))
            .collect(),
    };
    let mode = if image[MODE] == 0 {
        SuspendMode::PlatformCoordinated
    } else {
        SuspendMode::OsInitiated
    };
    (fields, mode)
}

fn read_domain(image: &Image, levels: Levels, number: usize) -> Domain {
    let level = level(levels.max, |at| parent(image, at), number)
        .expect("the tree of a state that is loaded is right");
    let cpus = image[CPU_STARTS + number]..image[CPU_ENDS + number];
    let children = image[CHILD_STARTS + number]..image[CHILD_ENDS + number];
    let suspend = |cpu: u8| {
        Some(image[SUSPENDS + slot(level, cpu.into())]).filter(|&state| state != NO_SUSPEND_STATE)
    };
    Domain {
        parent: parent(image, number),
        state: levels.to_rust(image[DOMAIN_STATES + number]),
        requests: cpus
            .clone()
            .map(|cpu| levels.to_rust(image[REQUESTS + slot(level, cpu.into())]))
            .collect(),
        suspends: cpus
            .clone()
            .map(|cpu| suspend(cpu).map(|state| levels.to_rust(state)))
            .collect(),
        copies: children
            .clone()
            .map(|child| levels.to_rust(image[COPIES + usize::from(child)]))
            .collect(),
        cpus,
        children,
    }
}

fn read_cpu(image: &Image, levels: Levels, number: usize) -> Cpu {
    let row = &image[CPU_ROW + number * CPU..][..CPU];
    let number = |at: usize| u64::from_le_bytes(row[at..at + 8].try_into().unwrap());
    Cpu {
        parent: row[CPU_PARENT],
        affinity: [AffinityInfo::On, AffinityInfo::Off, AffinityInfo::OnPending]
            [usize::from(row[CPU_AFFINITY])],
        state: levels.to_rust(row[CPU_STATE]),
        entry: (row[CPU_HELD] != 0).then(|| EntryPoint {
            address: number(CPU_ADDRESS),
            context: number(CPU_CONTEXT),
        }),
    }
}
