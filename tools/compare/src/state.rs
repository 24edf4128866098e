//! What the generators read in a state.

use crate::layout::{image::*, *};
use crate::records::Vector;

#[derive(Clone, Copy, PartialEq, Eq)]
pub enum Affinity {
    On,
    Off,
    OnPending,
}

/// A state's fields.
#[derive(Clone, Copy)]
pub struct State<'a>(pub &'a Image);

impl State<'_> {
    pub fn max(self) -> usize {
        self.0[MAX] as usize
    }

    pub fn states(self) -> u8 {
        self.0[STATES]
    }

    pub fn down(self) -> u8 {
        self.0[DOWN]
    }

    pub fn cpus(self) -> usize {
        self.0[CPU_COUNT] as usize
    }

    pub fn domains(self) -> usize {
        self.0[DOMAIN_COUNT] as usize
    }

    pub fn os_initiated(self) -> bool {
        self.0[MODE] != 0
    }

    pub fn affinity(self, cpu: usize) -> Affinity {
        match self.0[CPU_ROW + CPU * cpu + CPU_AFFINITY] {
            0 => Affinity::On,
            1 => Affinity::Off,
            _ => Affinity::OnPending,
        }
    }

    pub fn cpu_state(self, cpu: usize) -> u8 {
        self.0[CPU_ROW + CPU * cpu + CPU_STATE]
    }

    pub fn is_running(self, cpu: usize) -> bool {
        self.affinity(cpu) == Affinity::On && self.cpu_state(cpu) == 0
    }

    pub fn is_suspended(self, cpu: usize) -> bool {
        self.affinity(cpu) == Affinity::On && self.cpu_state(cpu) != 0
    }

    pub fn boots(self, cpu: usize) -> bool {
        self.affinity(cpu) == Affinity::OnPending
            || self.is_suspended(cpu) && self.cpu_state(cpu) >= self.down()
    }

    /// The CPUs that a test takes.
    pub fn cpus_where(self, test: impl Fn(Self, usize) -> bool) -> Vec<u8> {
        (0..self.cpus())
            .filter(|cpu| test(self, *cpu))
            .map(|cpu| cpu as u8)
            .collect()
    }

    /// The domains above a CPU, level 1 first.
    pub fn path(self, cpu: usize) -> Vec<usize> {
        let mut path = vec![self.0[CPU_ROW + CPU * cpu + CPU_PARENT] as usize];
        while path.len() < self.max() {
            path.push(self.0[PARENTS + path[path.len() - 1]] as usize);
        }
        path
    }

    /// A domain's level, by the steps from it to the top.
    pub fn level(self, domain: usize) -> usize {
        let mut level = self.max();
        let mut above = domain;
        while self.0[PARENTS + above] != NO_PARENT {
            above = self.0[PARENTS + above] as usize;
            level -= 1;
        }
        level
    }

    /// The stored states from level 0 up the path, 0 above MAX.
    pub fn stored(self, cpu: usize) -> Vector {
        let mut states = [0; 4];
        states[0] = self.cpu_state(cpu);
        for (level, domain) in self.path(cpu).into_iter().enumerate() {
            states[level + 1] = self.0[DOMAIN_STATES + domain];
        }
        states
    }
}

/// The kind of a state: 0 running, 1 retention, 2 power-down.
pub fn kind(down: u8, state: u8) -> u8 {
    match state {
        0 => 0,
        _ if state < down => 1,
        _ => 2,
    }
}
