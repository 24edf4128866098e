//! Random histories on random boards.

use super::random::Random;
use crate::layout::*;
use crate::oracle::*;
use std::collections::BTreeMap;
use std::sync::atomic::Ordering::Relaxed;

/// Every rule but `suspend-beside-request`, which takes a state that no history reaches.
const RULES: [&str; 13] = [
    "107-before-pending",
    "107-not-ported",
    "boot-not-due",
    "cpu-outside-span",
    "finish-not-due",
    "is-last-of-cpu-not-on",
    "level-above-max",
    "short-topology",
    "standby",
    "suspend-not-valid",
    "suspend-ordered-by-kind",
    "system-suspend-ordered-by-kind",
    "system-suspend-unusable",
];

/// Each event is made on a history and on its loaded state, and gives the same. No rule breaks.
pub fn same_on_loaded_states(boards: usize, events: usize) {
    let mut random = Random(0x9E3779B97F4A7C15);
    let mut rules: BTreeMap<&str, usize> = BTreeMap::new();
    let mut codes: BTreeMap<(i8, &str), usize> = BTreeMap::new();
    for _ in 0..boards {
        let board = random.board();
        let (outcome, oracle) = Oracle::start(&board);
        assert_eq!(outcome.broken, None, "{board:?}");
        for rule in outcome.rules {
            *rules.entry(rule).or_default() += 1;
        }
        let Some(mut oracle) = oracle else { continue };
        assert_eq!(outcome.reply[reply::IMAGE..reply::ALL_ON], oracle.image());
        for _ in 0..events {
            let before = oracle.image();
            let record = random.event(&before, &board);
            let mut loaded = Oracle::load(&before);
            assert_eq!(loaded.image(), before);
            // In this order a suspend stays parked for the history, and the loaded state finishes on the spot.
            let other = loaded.event(&record);
            let one = oracle.event(&record);
            assert_eq!(one.broken, None, "{board:?} {record:?}");
            assert_eq!(
                (&one.reply, one.by, other.broken),
                (&other.reply, other.by, None),
                "{board:?} {record:?}"
            );
            if one.reply[reply::CODE] != 0 {
                assert_eq!(before, oracle.image(), "{board:?} {record:?}");
            }
            for rule in one.rules {
                *rules.entry(rule).or_default() += 1;
            }
            let by = if one.by == By::Rust { "Rust" } else { "driver" };
            *codes.entry((one.reply[reply::CODE] as i8, by)).or_default() += 1;
        }
    }
    let parked = threads::WENT_ON.load(Relaxed);
    assert!(parked > boards, "finishes that went on: {parked}");
    assert!(rules.keys().eq(&RULES), "rules {rules:?}");
    println!("codes {codes:?}");
    println!("finishes of a parked call {parked}");
    println!("rules {rules:?}");
}
