//! The deepest stack of each function, read from what `tools/bench-src/stack` found.

use crate::boards::Board;
use crate::calls::Row;
use crate::ours::ARGUMENTS;
use std::collections::HashMap;

/// By name: bytes, and what was met on the way that makes them less than sure.
pub struct Stacks(HashMap<String, (usize, String)>);

/// What the machine passes in registers, and what a word of the rest takes.
const REGISTERS: usize = if cfg!(target_arch = "x86_64") { 6 } else { 8 };
const WORD: usize = 8;

impl Stacks {
    /// A line of the file has a function, its bytes, and notes, with a tab between.
    pub fn read(text: &str) -> Option<Self> {
        let line = |line: &str| {
            let mut parts = line.split('\t');
            let (name, bytes) = (parts.next()?.to_string(), parts.next()?.parse().ok()?);
            Some((name, (bytes, parts.next().unwrap_or("").to_string())))
        };
        text.lines().map(line).collect::<Option<_>>().map(Self)
    }

    pub fn ours(&self, row: Row) -> Option<usize> {
        let of = |name: &&str| {
            let arguments = ARGUMENTS.iter().find(|(function, _)| function == name)?.1;
            Some(self.0.get(*name)?.0 + WORD * arguments.saturating_sub(REGISTERS))
        };
        deepest(row.functions().0.iter().map(of))
    }

    pub fn rust(&self, row: Row, board: &Board) -> Option<usize> {
        let of = |name: &&str| {
            let Board {
                max, cpus, domains, ..
            } = board;
            Some(self.0.get(&format!("{max} {cpus} {domains} {name}"))?.0)
        };
        deepest(row.functions().1.iter().map(of))
    }

    /// Every note, once.
    pub fn notes(&self) -> Vec<&str> {
        let mut notes: Vec<_> = self
            .0
            .values()
            .flat_map(|(_, notes)| notes.split(", "))
            .filter(|note| !note.is_empty())
            .collect();
        notes.sort();
        notes.dedup();
        notes
    }
}

/// The greatest, if all are known and there is one.
fn deepest(bytes: impl Iterator<Item = Option<usize>>) -> Option<usize> {
    bytes.collect::<Option<Vec<_>>>()?.into_iter().max()
}
