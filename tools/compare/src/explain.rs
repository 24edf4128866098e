//! A difference in words: board, state before, event, and each field that differs with both values.

use crate::fields;
use crate::layout::{image, reply, request, *};
use crate::records::{self, Call};
use crate::state::{Affinity, State};
use std::fmt::Write;

/// The fields in which two replies differ: the name, the Rust's value and ours.
pub fn differing(expected: &[u8], found: &[u8]) -> Vec<(String, String, String)> {
    let mut list = Vec::new();
    let mut offset = 0;
    while offset < reply::SIZE {
        if expected[offset] == found[offset] {
            offset += 1;
            continue;
        }
        let field = fields::of_reply(offset);
        let bytes = field.start..field.start + field.width;
        list.push((
            field.name,
            value(offset, &expected[bytes.clone()]),
            value(offset, &found[bytes]),
        ));
        offset = field.start + field.width;
    }
    list
}

fn value(offset: usize, bytes: &[u8]) -> String {
    match bytes {
        [code] if offset == reply::CODE => (*code as i8).to_string(),
        [byte] => byte.to_string(),
        _ if bytes.len() == 8 => format!("{:#x}", u64::from_le_bytes(bytes.try_into().unwrap())),
        _ => hex(bytes),
    }
}

pub fn hex(bytes: &[u8]) -> String {
    bytes.iter().fold(String::new(), |mut text, byte| {
        let _ = write!(text, "{byte:02x}");
        text
    })
}

/// A request: the board and the state before, or the board that is asked about, and the event.
pub fn request(bytes: &Request) -> String {
    let record = &bytes[request::RECORD..request::IMAGE];
    if bytes[request::KIND] == request::START {
        return format!("  start: {}\n", start(record));
    }
    let image: &Image = bytes[request::IMAGE..].try_into().unwrap();
    format!(
        "{}  event: {}\n  record: {}\n",
        state(image),
        event(record),
        hex(records::trimmed(record))
    )
}

fn start(record: &[u8]) -> String {
    match records::read_board(record) {
        None => format!("a record that is no board's: {}", hex(record)),
        Some((board, _)) => board_words(&board),
    }
}

pub fn board_words(board: &Board) -> String {
    let topology: Vec<String> = board.topology.iter().map(u8::to_string).collect();
    format!(
        "MAX {}, {} states, d {}, primary {}, topology {}",
        board.max,
        board.states,
        board.down,
        board.primary,
        topology.join(",")
    )
}

/// A state in words, a line for each CPU and each domain.
pub fn state(image: &Image) -> String {
    let state = State(image);
    let topology = image[image::TOPOLOGY..image::TOPOLOGY + 1 + state.domains()].to_vec();
    let board = Board {
        max: image[image::MAX],
        states: state.states(),
        down: state.down(),
        primary: image[image::PRIMARY],
        topology,
    };
    let mode = if state.os_initiated() {
        "OS-initiated"
    } else {
        "platform-coordinated"
    };
    let mut text = format!(
        "  board: {}\n  state before, mode {mode}:\n",
        board_words(&board)
    );
    for cpu in 0..state.cpus() {
        let _ = writeln!(text, "    {}", cpu_words(state, cpu));
    }
    for domain in 0..state.domains() {
        let _ = writeln!(
            text,
            "    domain {domain}: state {}, parent {}, its parent's copy {}, CPUs {} to {}",
            image[image::DOMAIN_STATES + domain],
            image[image::PARENTS + domain],
            image[image::COPIES + domain],
            image[image::CPU_STARTS + domain],
            image[image::CPU_ENDS + domain] as i32 - 1,
        );
    }
    text
}

fn cpu_words(state: State, cpu: usize) -> String {
    let affinity = match state.affinity(cpu) {
        Affinity::On => "On",
        Affinity::Off => "Off",
        Affinity::OnPending => "OnPending",
    };
    let row = &state.0[image::CPU_ROW + image::CPU * cpu..][..image::CPU];
    let by_level = |start: usize| -> Vec<String> {
        (0..state.max())
            .map(|level| state.0[start + level * CPUS + cpu].to_string())
            .collect()
    };
    let number = |start: usize| u64::from_le_bytes(row[start..start + 8].try_into().unwrap());
    let entry = if row[image::CPU_HELD] == 0 {
        "none".to_string()
    } else {
        format!(
            "{:#x} {:#x}",
            number(image::CPU_ADDRESS),
            number(image::CPU_CONTEXT)
        )
    };
    format!(
        "CPU {cpu}: {affinity}, state {}, under domain {}, requests {}, suspend states {}, entry {entry}",
        row[image::CPU_STATE],
        row[image::CPU_PARENT],
        by_level(image::REQUESTS).join(","),
        by_level(image::SUSPENDS).join(",")
    )
}

/// An event in words.
pub fn event(record: &[u8]) -> String {
    let call = records::call(record);
    let number = |start: usize| u64::from_le_bytes(record[start..start + 8].try_into().unwrap());
    let fields = match call {
        Call::On => format!(
            "caller {}, target {}, entry {:#x} {:#x}, address-good {}, answer {}",
            record[4],
            record[5],
            number(6),
            number(14),
            record[22],
            record[23] as i8
        ),
        Call::Off => format!("caller {}, early answer {}", record[4], record[5] as i8),
        Call::Suspend => format!(
            "caller {}, pending {}, entry {:#x} {:#x}, states {:?}",
            record[4],
            record[5],
            number(6),
            number(14),
            &record[22..26]
        ),
        Call::Finish | Call::Boot => format!("CPU {}", record[4]),
        Call::SystemSuspend => format!(
            "caller {}, feature {}, pending {}, address-good {}, entry {:#x} {:#x}, states {:?}",
            record[4],
            record[5],
            record[6],
            record[7],
            number(8),
            number(16),
            &record[24..28]
        ),
        Call::SetMode => format!(
            "caller {}, feature {}, mode {}",
            record[4], record[5], record[6]
        ),
        Call::Board | Call::None => hex(record),
    };
    format!("{}: {fields}", call.name())
}
