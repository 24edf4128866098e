//! Whether both sides do the same work: a bench of different work is worth nothing.

use crate::boards::{Board, OFF, POWER_DOWN, RETENTION};
use crate::script::{ANSWER_BYTES, Script};
use crate::side::{Side, Stored};

/// What each step of every row gives, and what is stored after it.
fn steps<S: Side>(board: &Board) -> Vec<(&'static str, i32, Stored)> {
    let mut side = S::fresh(board);
    let last = board.last();
    let mut steps = vec![("start", 0, side.stored())];
    let mut step = |name, call: &dyn Fn(&mut S) -> i32| {
        let code = call(&mut side);
        steps.push((name, code, side.stored()));
    };
    step("on refused", &|s| s.cpu_on(0, 0));
    if last > 0 {
        for _ in 0..2 {
            step("on accepted", &|s| s.cpu_on(0, last));
            step("boot", &|s| s.boot(last));
            step("suspend with another up", &|s| {
                s.power_down(0, board.everywhere(POWER_DOWN))
            });
            step("boot with another up", &|s| s.boot(0));
            step("off", &|s| s.cpu_off(last));
        }
    }
    step("suspend + finish", &|s| {
        s.suspend_and_finish(0, board.everywhere(RETENTION))
    });
    step("suspend", &|s| {
        s.power_down(0, board.everywhere(POWER_DOWN))
    });
    step("boot", &|s| s.boot(0));
    step("system suspend", &|s| {
        s.system_suspend(0, board.everywhere(OFF))
    });
    step("boot", &|s| s.boot(0));
    step("set mode 1", &|s| s.set_mode(0, 1));
    step("set mode 0", &|s| s.set_mode(0, 0));
    steps
}

/// What a script's run writes, with the count of events that it took.
fn written<S: Side>(board: &Board, script: &Script) -> (u32, Vec<u8>) {
    let mut out = vec![0; ANSWER_BYTES * script.events];
    let ran = S::script(board, &script.bytes, &mut out);
    (ran.events, out)
}

/// Says where the sides differ.
pub fn check<A: Side, B: Side>(board: &Board, script: &Script) -> Result<(), String> {
    for (ours, rust) in steps::<A>(board).into_iter().zip(steps::<B>(board)) {
        if ours != rust {
            return Err(format!(
                "{}: ours and the Rust's differ:\n  {ours:?}\n  {rust:?}",
                board.name()
            ));
        }
    }
    let (ours, rust) = (written::<A>(board, script), written::<B>(board, script));
    if ours.0 as usize != script.events || rust.0 as usize != script.events {
        return Err(format!(
            "{}: of {} events ours took {}, the Rust {}",
            board.name(),
            script.events,
            ours.0,
            rust.0
        ));
    }
    let records = ours.1.chunks(ANSWER_BYTES).zip(rust.1.chunks(ANSWER_BYTES));
    match records.enumerate().find(|(_, (ours, rust))| ours != rust) {
        Some((at, (ours, rust))) => Err(format!(
            "{}: answer {} differs:\n  {ours:?}\n  {rust:?}",
            board.name(),
            at + 1
        )),
        None => Ok(()),
    }
}
