//! What is noted on the way to an outcome.

use super::NO_ANSWER;
use super::ran::Ran;

pub struct Notes {
    pub rules: Vec<&'static str>,
    pub broken: Option<String>,
}

impl Notes {
    pub fn new() -> Self {
        Self {
            rules: Vec::new(),
            broken: None,
        }
    }

    pub fn rule(&mut self, name: &'static str, held: bool) {
        if !self.rules.contains(&name) {
            self.rules.push(name);
        }
        if !held {
            self.breaks(format!("the rule {name} did not hold"));
        }
    }

    /// The first one is kept.
    pub fn breaks(&mut self, words: String) {
        self.broken.get_or_insert(words);
    }

    pub fn failed<T>(&mut self, what: &str, end: Ran<T>) -> u8 {
        let how = match end {
            Ran::Returned(_) => "returned".into(),
            Ran::Waited => "waited".into(),
            Ran::Unusable => "asked for states".into(),
            Ran::Panicked(words) => format!("panicked: {words}"),
        };
        self.breaks(format!("{what} {how}"));
        NO_ANSWER
    }
}
