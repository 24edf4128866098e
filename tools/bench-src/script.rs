//! Scripts in bytes: the records, and the mix of events that is timed.

use crate::boards::{Board, FIRST_POWER_DOWN, OFF, POWER_DOWN, RETENTION, STATES};
use crate::side::{ADDRESS, CONTEXT};

pub const BOARD: u16 = 0x10;
pub const CPU_ON: u16 = 1;
pub const CPU_OFF: u16 = 2;
pub const SUSPEND: u16 = 3;
pub const FINISH: u16 = 4;
pub const BOOT: u16 = 5;
pub const SYSTEM_SUSPEND: u16 = 6;
pub const SET_MODE: u16 = 7;
pub const ANSWER: u16 = 0x100;
/// The length of an answer record.
pub const ANSWER_BYTES: usize = 13;

const ROUNDS: usize = 100;

fn record(kind: u16, payload: &[&[u8]]) -> Vec<u8> {
    let payload = payload.concat();
    let length = 4 + payload.len() as u16;
    [&length.to_le_bytes()[..], &kind.to_le_bytes(), &payload].concat()
}

pub fn board_record(max: usize, topology: &[usize]) -> Vec<u8> {
    let counts: Vec<u8> = topology.iter().map(|&count| count as u8).collect();
    let head = [max as u8, STATES, FIRST_POWER_DOWN, 0, counts.len() as u8];
    record(BOARD, &[&head, &counts])
}

pub struct Script {
    pub bytes: Vec<u8>,
    pub events: usize,
}

/// Rounds of every call, each of which leaves the board as it was. One on in each round is refused; all else is accepted.
pub fn mix(board: &Board) -> Script {
    let entry = [ADDRESS.to_le_bytes(), CONTEXT.to_le_bytes()].concat();
    let last = board.last();
    let on = |target| record(CPU_ON, &[&[0, target], &entry, &[1, 0]]);
    let suspend = |state| record(SUSPEND, &[&[last, 0], &entry, &board.everywhere(state)]);
    let boot = |cpu| record(BOOT, &[&[cpu]]);
    let mut round = vec![];
    if last > 0 {
        round.extend([on(last), boot(last)]);
    }
    round.extend([
        suspend(RETENTION),
        record(FINISH, &[&[last]]),
        suspend(POWER_DOWN),
        boot(last),
    ]);
    if last > 0 {
        round.push(record(CPU_OFF, &[&[last, 0]]));
    }
    round.extend([
        record(SET_MODE, &[&[0, 1, 0]]),
        record(
            SYSTEM_SUSPEND,
            &[&[0, 1, 0, 1], &entry, &board.everywhere(OFF)],
        ),
        boot(0),
        on(0),
    ]);
    Script {
        bytes: round.concat().repeat(ROUNDS),
        events: round.len() * ROUNDS,
    }
}
