//! Machines, runs and formulas of which the benches are made.

use reference::generate::{walk, walk_half};
use reference::half::HalfRun;
use reference::label::IDLE;
use reference::random::Random;
use reference::run::JointRun;
use reference::table::{Row, Table};

/// A machine of 64 states with one row for each of these eight labels from each state, all to different states.
pub fn dense(labels: [u8; 8]) -> Table {
    let mut rows = Vec::new();
    for from in 0..64 {
        let row = |(label, place): (u8, u8)| Row {
            from,
            label,
            to: (from + 8 * place + 1) % 64,
        };
        rows.extend(labels.into_iter().zip(0..).map(row));
    }
    rows.sort();
    Table::new(64, rows)
}

/// A log of so many steps.
pub fn log(left: &Table, right: &Table, steps: usize) -> JointRun {
    walk(&mut Random::new(1), left, right, steps)
}

/// A half run of so many steps.
pub fn half_log(table: &Table, steps: usize) -> HalfRun {
    walk_half(&mut Random::new(2), table, steps)
}

/// A back modality by a label or by idle.
pub fn back(label: u8) -> [u8; 2] {
    match label {
        IDLE => [8, 0],
        _ => [6, label],
    }
}

/// Back along these labels from the last one to the first.
pub fn way_back(labels: &[u8]) -> Vec<u8> {
    labels.iter().rev().flat_map(|label| back(*label)).collect()
}

/// `count` times a node, then the rest.
pub fn times(count: usize, node: [u8; 2], rest: &[u8]) -> Vec<u8> {
    [&node.repeat(count)[..], rest].concat()
}

/// How a wide tree of one operator is built over its leaves.
#[derive(Clone, Copy, Debug)]
pub enum Build {
    Right,
    Left,
    Balanced,
}

/// The tree of one operator (3 and, 4 or) over so many equal leaves.
pub fn wide(build: Build, operator: u8, leaf: &[u8], leaves: usize) -> Vec<u8> {
    let inner = [operator, 0];
    match build {
        _ if leaves == 1 => leaf.to_vec(),
        Build::Right => [[&inner, leaf].concat().repeat(leaves - 1), leaf.to_vec()].concat(),
        Build::Left => [inner.repeat(leaves - 1), leaf.repeat(leaves)].concat(),
        Build::Balanced => {
            let first = wide(build, operator, leaf, leaves / 2);
            let second = wide(build, operator, leaf, leaves - leaves / 2);
            [&inner[..], &first, &second].concat()
        }
    }
}
