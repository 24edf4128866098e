//! The records of a script, and what they say.

use crate::layout::{Board, request::RECORD_SIZE};

/// A record with zeros after it, as a request has it.
pub type Record = [u8; RECORD_SIZE];

pub type Entry = (u64, u64);
pub type Vector = [u8; 4];

#[derive(Clone, Copy, PartialEq, Eq, PartialOrd, Ord, Debug)]
pub enum Call {
    Board,
    On,
    Off,
    Suspend,
    Finish,
    Boot,
    SystemSuspend,
    SetMode,
    /// No well-formed event.
    None,
}

impl Call {
    pub const ALL: [Call; 7] = [
        Call::On,
        Call::Off,
        Call::Suspend,
        Call::Finish,
        Call::Boot,
        Call::SystemSuspend,
        Call::SetMode,
    ];

    pub fn name(self) -> &'static str {
        match self {
            Call::Board => "board",
            Call::On => "on",
            Call::Off => "off",
            Call::Suspend => "suspend",
            Call::Finish => "finish",
            Call::Boot => "boot",
            Call::SystemSuspend => "system suspend",
            Call::SetMode => "set mode",
            Call::None => "no event",
        }
    }
}

/// The call that a record's kind names.
pub fn call(record: &[u8]) -> Call {
    match u16::from_le_bytes([record[2], record[3]]) {
        1 => Call::On,
        2 => Call::Off,
        3 => Call::Suspend,
        4 => Call::Finish,
        5 => Call::Boot,
        6 => Call::SystemSuspend,
        7 => Call::SetMode,
        0x10 => Call::Board,
        _ => Call::None,
    }
}

fn record(kind: u8, payload: &[&[u8]]) -> Record {
    let mut record = [0; RECORD_SIZE];
    let mut end = 4;
    for part in payload {
        record[end..end + part.len()].copy_from_slice(part);
        end += part.len();
    }
    record[0] = end as u8;
    record[2] = kind;
    record
}

pub fn on(caller: u8, target: u8, entry: Entry, good: bool, answer: i8) -> Record {
    let (address, context) = (entry.0.to_le_bytes(), entry.1.to_le_bytes());
    record(
        1,
        &[
            &[caller, target],
            &address,
            &context,
            &[good as u8, answer as u8],
        ],
    )
}

pub fn off(caller: u8, answer: i8) -> Record {
    record(2, &[&[caller, answer as u8]])
}

pub fn suspend(caller: u8, pending: bool, entry: Entry, states: Vector) -> Record {
    let (address, context) = (entry.0.to_le_bytes(), entry.1.to_le_bytes());
    record(3, &[&[caller, pending as u8], &address, &context, &states])
}

pub fn finish(cpu: u8) -> Record {
    record(4, &[&[cpu]])
}

pub fn boot(cpu: u8) -> Record {
    record(5, &[&[cpu]])
}

/// The flags: feature, pending, address-good.
pub fn system_suspend(caller: u8, flags: [bool; 3], entry: Entry, states: Vector) -> Record {
    let (address, context) = (entry.0.to_le_bytes(), entry.1.to_le_bytes());
    record(
        6,
        &[&[caller], &flags.map(u8::from), &address, &context, &states],
    )
}

pub fn set_mode(caller: u8, feature: bool, os_initiated: bool) -> Record {
    record(7, &[&[caller, feature as u8, os_initiated as u8]])
}

/// A board's record, of the length that its topology needs.
pub fn board(board: &Board) -> Vec<u8> {
    let length = 9 + board.topology.len();
    let mut bytes = vec![length as u8, (length >> 8) as u8, 0x10, 0];
    bytes.extend([
        board.max,
        board.states,
        board.down,
        board.primary,
        board.topology.len() as u8,
    ]);
    bytes.extend(&board.topology);
    bytes
}

/// The board of a well-formed record at the start of some bytes, and the record's length.
pub fn read_board(bytes: &[u8]) -> Option<(Board, usize)> {
    let length = length(bytes)?;
    if length < 9 || call(bytes) != Call::Board || length != 9 + bytes[8] as usize {
        return None;
    }
    let topology = bytes[9..length].to_vec();
    Some((
        Board {
            max: bytes[4],
            states: bytes[5],
            down: bytes[6],
            primary: bytes[7],
            topology,
        },
        length,
    ))
}

/// The length that the first record says, where the bytes are as many.
pub fn length(bytes: &[u8]) -> Option<usize> {
    if bytes.len() < 4 {
        return None;
    }
    let length = u16::from_le_bytes([bytes[0], bytes[1]]) as usize;
    (4..=bytes.len()).contains(&length).then_some(length)
}

/// The record without the zeros after it; a length that it can't have leaves all of it.
pub fn trimmed(record: &[u8]) -> &[u8] {
    &record[..length(record).unwrap_or(record.len())]
}

/// Some bytes of at most a record's length, with zeros after them.
pub fn padded(bytes: &[u8]) -> Record {
    let mut record = [0; RECORD_SIZE];
    record[..bytes.len()].copy_from_slice(bytes);
    record
}

/// The CPU whose states an answer shows.
pub fn named_cpu(record: &[u8]) -> u8 {
    if call(record) == Call::On {
        record[5]
    } else {
        record[4]
    }
}
