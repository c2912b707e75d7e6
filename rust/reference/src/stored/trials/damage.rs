//! Sound tables and runs in the small, from a seed, and what makes them unsound.

use crate::generate::{random_table, Shape};
use crate::random::Random;
use crate::table::Table;

/// A number of pairs and a table of few states.
pub fn small_table(random: &mut Random) -> (u8, Table) {
    let k = *random.pick(&[0, 1, 1, 2, 3, 15]);
    let states = random.byte(1, 4);
    (k, of_states(random, k, states))
}

/// A table of so many states with few rows from each.
pub fn of_states(random: &mut Random, k: u8, states: u8) -> Table {
    let shape = Shape {
        k,
        left_states: states,
        right_states: states,
        rows: random.from_to(1, 3),
        full: random.once_in(3),
        steps: 0,
        nodes: 1,
    };
    random_table(random, shape, states)
}

/// The largest table: 64 states with eight rows each, k 15.
pub fn full_table(seed: u64) -> Table {
    random_table(&mut Random::new(seed), Shape::maximal(15), 64)
}

/// Some change: a byte one up or down or at an edge, two bytes exchanged, a byte lost or added.
pub fn damaged(random: &mut Random, bytes: &[u8]) -> Vec<u8> {
    let mut bytes = bytes.to_vec();
    let at = random.below(bytes.len());
    match random.below(10) {
        0..=2 => bytes[at] = bytes[at].wrapping_add(1),
        3..=4 => bytes[at] = bytes[at].wrapping_sub(1),
        5 => bytes[at] = *random.pick(&[0, 1, 63, 64, 254, 255]),
        6..=7 => {
            let other = random.below(bytes.len());
            bytes.swap(at, other);
        }
        8 => drop(bytes.remove(at)),
        _ => bytes.insert(at, random.byte(0, 3)),
    }
    bytes
}

/// The same with one piece of so many bytes behind the first `head` repeated, exchanged with the next, or left out:
/// rows of tables, steps of runs.
pub fn moved(random: &mut Random, bytes: &[u8], head: usize, size: usize) -> Vec<u8> {
    let mut pieces: Vec<&[u8]> = bytes[head..].chunks(size).collect();
    if pieces.len() < 2 {
        return damaged(random, bytes);
    }
    let at = random.below(pieces.len() - 1);
    match random.below(3) {
        0 => pieces.insert(at, pieces[at]),
        1 => pieces.swap(at, at + 1),
        _ => drop(pieces.remove(at)),
    }
    [&bytes[..head], &pieces.concat()].concat()
}
