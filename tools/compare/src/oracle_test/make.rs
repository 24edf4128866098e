//! Records and boards for the oracle's own test.

use crate::layout::Board;

pub fn on(caller: u8, target: u8, good: u8, answer: u8) -> Vec<u8> {
    let mut record = vec![24, 0, 1, 0, caller, target];
    record.extend([0x10, 0, 0, 0, 0, 0, 0, 0, target, 1, 0, 0, 0, 0, 0, 0]);
    record.extend([good, answer]);
    record
}

pub fn off(caller: u8, early: u8) -> Vec<u8> {
    vec![6, 0, 2, 0, caller, early]
}

pub fn suspend(caller: u8, pending: u8, states: [u8; 4]) -> Vec<u8> {
    let mut record = vec![26, 0, 3, 0, caller, pending];
    record.extend([0x20, 0, 0, 0, 0, 0, 0, 0, caller, 2, 0, 0, 0, 0, 0, 0]);
    record.extend(states);
    record
}

pub fn finish(cpu: u8) -> Vec<u8> {
    vec![5, 0, 4, 0, cpu]
}

pub fn boot(cpu: u8) -> Vec<u8> {
    vec![5, 0, 5, 0, cpu]
}

pub fn system_suspend(caller: u8, feature: u8, pending: u8, good: u8, states: [u8; 4]) -> Vec<u8> {
    let mut record = vec![28, 0, 6, 0, caller, feature, pending, good];
    record.extend([0x30, 0, 0, 0, 0, 0, 0, 0, caller, 3, 0, 0, 0, 0, 0, 0]);
    record.extend(states);
    record
}

pub fn mode(caller: u8, feature: u8, os_initiated: u8) -> Vec<u8> {
    vec![7, 0, 7, 0, caller, feature, os_initiated]
}

pub fn board(max: u8, states: u8, down: u8, primary: u8, topology: &[u8]) -> Board {
    Board {
        max,
        states,
        down,
        primary,
        topology: topology.to_vec(),
    }
}
