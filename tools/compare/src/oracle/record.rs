//! Event records of a script, read as docs/REFERENCE.md says.

use arm_psci::EntryPoint;

#[derive(Clone, Copy, Debug)]
pub enum Event {
    On {
        caller: u8,
        target: u8,
        entry: EntryPoint,
        address_good: bool,
        answer: i8,
    },
    Off {
        caller: u8,
        early: i8,
    },
    Suspend {
        caller: u8,
        pending: bool,
        entry: EntryPoint,
        states: [u8; 4],
    },
    Finish {
        cpu: u8,
    },
    Boot {
        cpu: u8,
    },
    SystemSuspend {
        caller: u8,
        feature: bool,
        pending: bool,
        address_good: bool,
        entry: EntryPoint,
        states: [u8; 4],
    },
    Mode {
        caller: u8,
        feature: bool,
        os_initiated: bool,
    },
}

impl Event {
    /// The caller, or the CPU that boots or finishes; and whether it has to be running.
    pub fn cpu(&self) -> (u8, bool) {
        match *self {
            Event::On { caller, .. }
            | Event::Off { caller, .. }
            | Event::Suspend { caller, .. }
            | Event::SystemSuspend { caller, .. }
            | Event::Mode { caller, .. } => (caller, true),
            Event::Finish { cpu } | Event::Boot { cpu } => (cpu, false),
        }
    }
}

fn flag(byte: u8) -> Option<bool> {
    (byte <= 1).then_some(byte == 1)
}

fn answer(byte: u8) -> Option<i8> {
    let number = byte as i8;
    (-9..=0).contains(&number).then_some(number)
}

fn entry(bytes: &[u8]) -> EntryPoint {
    let number = |at: usize| u64::from_le_bytes(bytes[at..at + 8].try_into().unwrap());
    EntryPoint {
        address: number(0),
        context: number(8),
    }
}

/// The states of a request: 0 above the top level.
fn states(bytes: &[u8], max: usize) -> Option<[u8; 4]> {
    let states: [u8; 4] = bytes.try_into().unwrap();
    states[max + 1..]
        .iter()
        .all(|&state| state == 0)
        .then_some(states)
}

/// None is 108. What follows the record is not looked at: it is padding.
pub fn read(bytes: &[u8], max: usize) -> Option<Event> {
    let length = usize::from(u16::from_le_bytes([*bytes.first()?, *bytes.get(1)?]));
    let kind = u16::from_le_bytes([*bytes.get(2)?, *bytes.get(3)?]);
    let due = match kind {
        1 => 24,
        2 => 6,
        3 => 26,
        4 | 5 => 5,
        6 => 28,
        7 => 7,
        _ => return None,
    };
    if length != due {
        return None;
    }
    let body = bytes.get(4..length)?;
    let first = body[0];
    Some(match kind {
        1 => Event::On {
            caller: first,
            target: body[1],
            entry: entry(&body[2..18]),
            address_good: flag(body[18])?,
            answer: answer(body[19])?,
        },
        2 => Event::Off {
            caller: first,
            early: answer(body[1])?,
        },
        3 => Event::Suspend {
            caller: first,
            pending: flag(body[1])?,
            entry: entry(&body[2..18]),
            states: states(&body[18..22], max)?,
        },
        4 => Event::Finish { cpu: first },
        5 => Event::Boot { cpu: first },
        6 => Event::SystemSuspend {
            caller: first,
            feature: flag(body[1])?,
            pending: flag(body[2])?,
            address_good: flag(body[3])?,
            entry: entry(&body[4..20]),
            states: states(&body[20..24], max)?,
        },
        _ => Event::Mode {
            caller: first,
            feature: flag(body[1])?,
            os_initiated: flag(body[2])?,
        },
    })
}
