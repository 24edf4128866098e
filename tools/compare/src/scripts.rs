//! Phase scripts: whole scripts, good and damaged, through our program `scriptrun`; the text is compared.

use crate::comparer::{Comparer, Going, Stop};
use crate::explain;
use crate::random::Random;
use crate::script_maker;
use crate::script_text;
use crate::shared::Difference;
use std::io::{Read, Write};
use std::panic::{AssertUnwindSafe, catch_unwind};
use std::process::{Child, Command, Stdio};
use std::sync::atomic::Ordering;

/// Until there are `end` events in all.
pub fn run(comparer: &mut Comparer, command: &[String], end: u64) -> Going<()> {
    comparer.phase("scripts");
    let random = &mut Random::new(comparer.seed, 4);
    let (mut scripts, mut events) = (0, 0);
    for script in script_maker::at_the_limits(random) {
        events += compare(comparer, command, &script)?;
        scripts += 1;
    }
    while comparer.events < end || scripts < 60 {
        events += compare(comparer, command, &script_maker::any(random))?;
        scripts += 1;
    }
    comparer.say(format!("scripts: {scripts} scripts, {events} events"));
    Ok(())
}

/// Runs a script on both sides at once.
fn compare(comparer: &mut Comparer, command: &[String], script: &[u8]) -> Going<u64> {
    let child = begin(command, script);
    let counts = &mut comparer.counts;
    let mut broken = None;
    let made = catch_unwind(AssertUnwindSafe(|| {
        script_text::text(script, |call, outcome| {
            counts.outcome(call, outcome);
            broken = broken.take().or(outcome.broken.clone());
        })
    }));
    let printed = child.and_then(end);
    let (fault, events) = match (made, printed, broken) {
        (Err(_), ..) => ("the Rust panics".into(), 0),
        (_, _, Some(rule)) => (format!("a rule does not hold: {rule}"), 0),
        (_, Err(error), _) => (format!("our program can't be run: {error}"), 0),
        (Ok((text, events)), Ok(printed), _) => (first_difference(&text, &printed), events as u64),
    };
    comparer.events += events;
    comparer
        .shared
        .compared
        .fetch_add(events, Ordering::Relaxed);
    if !fault.is_empty() {
        let short = format!(
            "a script after event {} (scripts): {fault}",
            comparer.events
        );
        let long = format!("{short}\n  script: {}\n", explain::hex(script));
        comparer.differs(Difference { short, long });
    }
    if comparer.shared.stopped() {
        Err(Stop)
    } else {
        Ok(events)
    }
}

/// Our program with a script on its standard input, which it reads before it prints.
fn begin(command: &[String], script: &[u8]) -> std::io::Result<Child> {
    let mut child = Command::new(&command[0])
        .args(&command[1..])
        .stdin(Stdio::piped())
        .stdout(Stdio::piped())
        .spawn()?;
    // it may end before it has read all: of too long a script it need not see the end
    let _ = child.stdin.take().unwrap().write_all(script);
    Ok(child)
}

fn end(mut child: Child) -> std::io::Result<String> {
    let mut bytes = Vec::new();
    child.stdout.take().unwrap().read_to_end(&mut bytes)?;
    let status = child.wait()?;
    let text = String::from_utf8_lossy(&bytes).into_owned();
    Ok(if status.success() {
        text
    } else {
        format!("{text}({status})\n")
    })
}

/// The first line in which two texts differ, in words; nothing where they are the same.
fn first_difference(rust: &str, ours: &str) -> String {
    if rust == ours {
        return String::new();
    }
    let (mut rust, mut ours) = (rust.lines(), ours.lines());
    let mut number = 0;
    loop {
        number += 1;
        match (rust.next(), ours.next()) {
            (None, None) => return "the ends of lines differ".into(),
            (one, other) if one == other => (),
            (one, other) => {
                let (one, other) = (one.unwrap_or("nothing"), other.unwrap_or("nothing"));
                return format!("line {number}: the Rust '{one}', ours '{other}'");
            }
        }
    }
}
