//! The smallest inputs that show the differences of docs/DIFFERENCES.md, each under its heading there.

use crate::layout::Board;
use crate::records::{Entry, Record, boot, finish, off, on, set_mode, suspend, system_suspend};

/// What a board or an event must give: its code, and the rule that it must meet, if any.
type Must = (i8, &'static str);

pub struct Case {
    pub heading: &'static str,
    pub board: Board,
    pub start: Must,
    pub events: Vec<(Record, Must)>,
}

const ENTRY: Entry = (0x1000, 7);
const ACCEPTED: Must = (0, "");

/// MAX 1 with so many states, the first power-down state d.
fn board(states: u8, down: u8, topology: &[u8]) -> Board {
    Board {
        max: 1,
        states,
        down,
        primary: 0,
        topology: topology.into(),
    }
}

fn bench(topology: &[u8]) -> Board {
    Board {
        max: 2,
        ..board(4, 2, topology)
    }
}

fn asked(pending: bool, states: [u8; 4]) -> Record {
    suspend(0, pending, ENTRY, states)
}

fn system(states: [u8; 4]) -> Record {
    system_suspend(0, [true, false, true], ENTRY, states)
}

fn refused(heading: &'static str, board: Board, rule: &'static str) -> Case {
    Case {
        heading,
        board,
        start: (101, rule),
        events: vec![],
    }
}

fn started(heading: &'static str, board: Board, rule: &'static str) -> Case {
    Case {
        start: (0, rule),
        ..refused(heading, board, "")
    }
}

fn case(heading: &'static str, board: Board, events: Vec<(Record, Must)>) -> Case {
    Case {
        start: ACCEPTED,
        events,
        ..refused(heading, board, "")
    }
}

pub fn cases() -> Vec<Case> {
    let mut cases = requests();
    cases.extend(boards());
    cases.extend(queries());
    cases.extend(callers());
    cases
}

fn requests() -> Vec<Case> {
    let by_kind = "suspend-ordered-by-kind";
    let not_valid = "suspend-not-valid";
    let unusable = "system-suspend-unusable";
    vec![
        case(
            "A suspend request is ordered by kind",
            board(3, 1, &[1, 1]),
            vec![(asked(false, [1, 2, 0, 0]), (0, by_kind))],
        ),
        case(
            "A request outside the platform is refused",
            board(2, 1, &[1, 1]),
            vec![
                (asked(false, [2, 0, 0, 0]), (-2, not_valid)),
                (asked(false, [1, 0, 1, 0]), (108, "")),
            ],
        ),
        case(
            "A suspend that is not valid",
            board(2, 1, &[1, 1]),
            vec![(asked(false, [0, 0, 0, 0]), (-2, not_valid))],
        ),
        case(
            "System suspend with states that are ordered by kind alone",
            board(3, 1, &[1, 1]),
            vec![
                (system([3, 1, 0, 0]), (106, unusable)),
                (system([1, 2, 0, 0]), (0, "system-suspend-ordered-by-kind")),
            ],
        ),
        case(
            "107 before a pending interrupt",
            board(2, 1, &[1, 1]),
            vec![
                (set_mode(0, true, true), ACCEPTED),
                (asked(true, [1, 0, 0, 0]), (107, "107-before-pending")),
                (asked(false, [1, 0, 0, 0]), (107, "107-not-ported")),
            ],
        ),
        case(
            "What `cpu_suspend` does besides",
            board(3, 2, &[1, 1]),
            vec![(asked(false, [1, 0, 0, 0]), (0, "standby"))],
        ),
        case(
            "What the SPM is told of a suspend",
            board(2, 1, &[1, 1]),
            vec![(asked(false, [1, 0, 0, 0]), ACCEPTED)],
        ),
    ]
}

fn boards() -> Vec<Case> {
    let topology = "A topology is tested";
    let no_levels = Board {
        max: 0,
        ..board(2, 1, &[1, 1])
    };
    let no_primary = Board {
        primary: 1,
        ..board(2, 1, &[1, 1])
    };
    vec![
        refused("A platform is tested", no_levels, ""),
        refused("The primary CPU", no_primary, ""),
        refused(topology, board(2, 1, &[]), ""),
        refused(topology, board(2, 1, &[2, 1]), "short-topology"),
        refused(topology, board(2, 1, &[2, 0, 1]), ""),
        refused(topology, board(2, 1, &[1, 17]), ""),
        refused(topology, bench(&[1, 2, 2]), "short-topology"),
        refused(topology, bench(&[1, 2, 2, 0]), ""),
    ]
}

fn queries() -> Vec<Case> {
    vec![
        started(
            "`is_last_cpu` of a CPU that is not On",
            board(2, 1, &[1, 2]),
            "is-last-of-cpu-not-on",
        ),
        started(
            "A level or CPU outside the tree",
            board(2, 1, &[1, 1]),
            "level-above-max",
        ),
        started(
            "A query about a CPU or child outside the span",
            board(2, 1, &[2, 1, 1]),
            "cpu-outside-span",
        ),
    ]
}

fn callers() -> Vec<Case> {
    vec![
        case(
            "A boot or finish that is not due",
            board(2, 1, &[1, 2]),
            vec![
                (boot(1), (105, "boot-not-due")),
                (finish(0), (105, "finish-not-due")),
            ],
        ),
        case(
            "A caller that does not exist, or does not run",
            board(2, 1, &[1, 2]),
            vec![(off(2, 0), (103, "")), (off(1, 0), (104, ""))],
        ),
        case(
            "A platform's answer that is none",
            board(2, 1, &[1, 2]),
            vec![(on(0, 1, ENTRY, true, 1), (108, ""))],
        ),
        case(
            "DEN0022: entering OS-initiated mode",
            board(2, 1, &[1, 3]),
            vec![
                (on(0, 1, ENTRY, true, 0), ACCEPTED),
                (boot(1), ACCEPTED),
                (set_mode(0, true, true), (-3, "")),
            ],
        ),
    ]
}
