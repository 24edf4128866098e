//! Holds our programs against the upstream Rust:
//!
//!   compare [--seed N] [--events N] [--differences N] -- TRACE.. -- SCRIPTRUN..   compares
//!   compare [--seed N] [--events N] [--differences N] --self   compares the Rust with the Rust in another process
//!   compare [--seed N] sample                        prints the stored sample
//!   compare serve, compare print                     the Rust in the place of `trace`, of `scriptrun`
//!
//! Exit status: 0; 1 where there is a difference; 2 where something is missing.

mod board_maker;
mod boards;
mod chains;
mod comparer;
mod exhaustive;
mod explain;
mod fields;
mod generate;
mod layout;
mod moods;
mod node_records;
mod oracle;
mod progress;
mod random;
mod records;
mod report;
mod sample;
mod sample_items;
mod script_maker;
mod script_text;
mod scripts;
mod serve;
mod shared;
mod smallest;
mod sound;
mod state;
mod transport;

use comparer::{Comparer, Going};
use shared::Shared;
use std::process::ExitCode;
use std::sync::atomic::Ordering;
use std::time::Instant;

struct Options {
    seed: u64,
    events: u64,
    differences: usize,
    word: String,
    trace: Vec<String>,
    scriptrun: Vec<String>,
}

fn options() -> Result<Options, String> {
    let mut options = Options {
        seed: 1,
        events: 1_000_000,
        differences: 5,
        word: String::new(),
        trace: Vec::new(),
        scriptrun: Vec::new(),
    };
    let mut words = std::env::args().skip(1);
    while let Some(word) = words.next() {
        let mut number = || {
            let value = words.next().and_then(|value| value.parse().ok());
            value.ok_or(format!("{word} takes a number"))
        };
        match word.as_str() {
            "--seed" => options.seed = number()?,
            "--events" => options.events = number()?,
            "--differences" => options.differences = number()?.max(1) as usize,
            "--self" => {
                let own = std::env::current_exe().map_err(|error| error.to_string())?;
                let own = own.to_string_lossy().into_owned();
                options.trace = vec![own.clone(), "serve".into()];
                options.scriptrun = vec![own, "print".into()];
            }
            "--" => {
                let rest: Vec<String> = words.by_ref().collect();
                let mut parts = rest.split(|word| word == "--");
                options.trace = parts.next().unwrap_or(&[]).to_vec();
                options.scriptrun = parts.next().unwrap_or(&[]).to_vec();
            }
            "sample" | "serve" | "print" if options.word.is_empty() => options.word = word,
            _ => return Err(format!("there is no word {word}")),
        }
    }
    Ok(options)
}

fn main() -> ExitCode {
    let options = match options() {
        Ok(options) => options,
        Err(text) => return missing(&text),
    };
    match options.word.as_str() {
        "serve" => served(serve::requests()),
        "print" => served(serve::script()),
        "sample" => match sample::text(options.seed) {
            Ok(text) => {
                print!("{text}");
                ExitCode::SUCCESS
            }
            Err(text) => {
                eprintln!("compare: {text}");
                ExitCode::FAILURE
            }
        },
        _ if options.trace.is_empty() || options.scriptrun.is_empty() => {
            missing("our programs are not named")
        }
        _ => compare(&options),
    }
}

fn missing(text: &str) -> ExitCode {
    eprintln!("compare: {text}");
    ExitCode::from(2)
}

fn served(result: std::io::Result<()>) -> ExitCode {
    if result.is_ok() {
        ExitCode::SUCCESS
    } else {
        ExitCode::FAILURE
    }
}

/// All phases, and the numbers at the end.
fn compare(options: &Options) -> ExitCode {
    let begun = Instant::now();
    let shared = Shared::new(options.differences);
    let mut comparer = match Comparer::new(&options.trace, options.seed, shared.clone()) {
        Ok(comparer) => comparer,
        Err(error) => {
            return missing(&format!(
                "{} can't be run: {error}",
                options.trace.join(" ")
            ));
        }
    };
    progress::begin(&shared);
    // where it stops early, the differences say why
    let _ = phases(&mut comparer, options);
    let boards = comparer.starts;
    let counts = comparer.finish();
    let differences = shared.take_differences();
    for difference in &differences {
        println!("difference: {}", difference.long);
    }
    if differences.is_empty() {
        counts.print();
        println!(
            "\n{boards} boards asked of trace; {} s",
            begun.elapsed().as_secs()
        );
    } else {
        println!("first difference: {}", differences[0].short);
    }
    let compared = shared.compared.load(Ordering::Relaxed);
    let count = differences.len();
    println!(
        "{compared} events compared, {count} differences (seed {})",
        options.seed
    );
    if differences.is_empty() {
        ExitCode::SUCCESS
    } else {
        ExitCode::FAILURE
    }
}

/// The shares of the events: at most two fifths exhaustive, a tenth on sound states, a twentieth in scripts, the rest in
/// chains. Boards and node records are no events.
fn phases(comparer: &mut Comparer, options: &Options) -> Going<()> {
    let events = options.events;
    boards::run(comparer)?;
    exhaustive::run(comparer, events * 2 / 5)?;
    chains::run(comparer, events * 17 / 20)?;
    sound::run(comparer, events * 19 / 20)?;
    node_records::run(comparer)?;
    scripts::run(comparer, &options.scriptrun, events)
}
