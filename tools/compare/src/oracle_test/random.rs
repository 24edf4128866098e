//! Random boards and events, most of them sensible.

use super::make::*;
use crate::layout::*;

pub struct Random(pub u64);

impl Random {
    pub fn below(&mut self, end: u8) -> u8 {
        self.0 ^= self.0 << 13;
        self.0 ^= self.0 >> 7;
        self.0 ^= self.0 << 17;
        ((self.0 >> 33) % u64::from(end)) as u8
    }

    pub fn flag(&mut self) -> u8 {
        u8::from(self.below(8) != 0)
    }

    pub fn board(&mut self) -> Board {
        let states = 2 + self.below(15);
        let max = 1 + self.below(3);
        let mut topology = vec![1 + self.below(2)];
        let mut row = topology[0];
        for _ in 0..max {
            let counts: Vec<u8> = (0..row).map(|_| 1 + self.below(3)).collect();
            row = counts.iter().sum();
            topology.extend(counts);
        }
        if self.below(8) == 0 {
            topology.pop();
        }
        board(
            max,
            states,
            1 + self.below(states - 1),
            self.below(4),
            &topology,
        )
    }

    /// Mostly sensible.
    pub fn states(&mut self, board: &Board) -> [u8; 4] {
        let mut states = [0; 4];
        let mut end = board.states + u8::from(self.below(30) == 0);
        for state in &mut states[..=board.max.into()] {
            *state = self.below(end);
            if self.below(4) != 0 {
                end = *state + 1;
            }
        }
        states
    }

    /// A CPU of the kind that is asked for, mostly.
    pub fn cpu(&mut self, image: &Image, fits: impl Fn(&[u8]) -> bool) -> u8 {
        let row = |cpu: u8| &image[image::CPU_ROW + usize::from(cpu) * image::CPU..];
        let cpus: Vec<u8> = (0..image[image::CPU_COUNT])
            .filter(|&cpu| fits(row(cpu)))
            .collect();
        if cpus.is_empty() || self.flag() == 0 {
            return self.below(image[image::CPU_COUNT] + 1);
        }
        cpus[usize::from(self.below(cpus.len() as u8))]
    }

    pub fn answer(&mut self) -> u8 {
        if self.flag() == 1 {
            0
        } else {
            0u8.wrapping_sub(self.below(10))
        }
    }

    pub fn event(&mut self, image: &Image, board: &Board) -> Vec<u8> {
        use image::{CPU_AFFINITY, CPU_STATE};
        let caller = self.cpu(image, |row| row[CPU_AFFINITY] == 0 && row[CPU_STATE] == 0);
        let states = self.states(board);
        match self.below(28) {
            0..6 => {
                let target = self.cpu(image, |row| row[CPU_AFFINITY] == 1);
                on(caller, target, self.flag(), self.answer())
            }
            6..8 => off(caller, self.answer()),
            8..14 => suspend(caller, 1 - self.flag(), states),
            14..19 => finish(self.cpu(image, |row| row[CPU_AFFINITY] == 0 && row[CPU_STATE] != 0)),
            19..25 => boot(self.cpu(image, |row| {
                row[CPU_AFFINITY] == 2 || row[CPU_AFFINITY] == 0 && row[CPU_STATE] != 0
            })),
            25..27 => system_suspend(caller, self.flag(), 1 - self.flag(), self.flag(), states),
            _ => mode(caller, self.flag(), self.below(3) / 2),
        }
    }
}
