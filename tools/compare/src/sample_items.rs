//! What the stored sample must cover, and what a reply covers.

use crate::layout::{CPUS, DOMAINS, notice, reply};
use crate::oracle::Outcome;
use std::collections::BTreeSet;

pub type Items = BTreeSet<String>;

/// What the sample must have.
pub fn required() -> Items {
    let mut items = Items::new();
    let codes: [(&str, &[i8]); 8] = [
        ("board", &[0, 101]),
        ("on", &[0, -1, -2, -3, -4, -5, -6, -7, -8, -9, 103, 104]),
        ("off", &[0, -1, -2, -3, -4, -5, -6, -7, -8, -9, 103, 104]),
        ("suspend", &[0, -2, 103, 104, 107]),
        ("finish", &[0, 103, 105]),
        ("boot", &[0, 103, 105]),
        ("system suspend", &[0, -1, -3, -9, 103, 104, 106, 107]),
        ("set mode", &[0, -1, -3, 103, 104]),
    ];
    for (call, codes) in codes {
        items.extend(codes.iter().map(|code| format!("{call} {code}")));
    }
    let rules = [
        "suspend-ordered-by-kind",
        "system-suspend-ordered-by-kind",
        "suspend-not-valid",
        "is-last-of-cpu-not-on",
        "short-topology",
        "107-before-pending",
        "107-not-ported",
        "standby",
        "boot-not-due",
        "finish-not-due",
        "system-suspend-unusable",
        "level-above-max",
        "cpu-outside-span",
    ];
    items.extend(rules.map(String::from));
    items.extend((1..=3).map(|max| format!("MAX {max}")));
    items.extend((2..=16).map(|states| format!("states {states}")));
    items.extend((1..=CPUS).map(|cpus| format!("CPUs {cpus}")));
    items.extend((1..=DOMAINS).map(|domains| format!("domains {domains}")));
    items.extend((notice::SPM_TOLD_OFF..=notice::ON_FINISH).map(|kind| format!("notice {kind}")));
    items.extend(
        [
            "suspend not entered",
            "system suspend not entered",
            "wake 1",
            "wake 2",
        ]
        .map(String::from),
    );
    items
}

/// What an outcome covers.
pub fn cover(items: &mut Items, call: &str, outcome: &Outcome) {
    let reply = &outcome.reply;
    items.insert(format!("{call} {}", reply[reply::CODE] as i8));
    items.extend(outcome.rules.iter().map(|rule| rule.to_string()));
    if reply[reply::NOT_ENTERED] != 0 {
        items.insert(format!("{call} not entered"));
    }
    items.insert(format!("wake {}", reply[reply::WAKE]));
    for number in 0..reply::NOTICE_COUNT {
        items.insert(format!(
            "notice {}",
            reply[reply::NOTICES + number * reply::NOTICE]
        ));
    }
}
