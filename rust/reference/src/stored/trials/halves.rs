//! Trials of half runs: the check, a step by its number, the cut.

use super::damage::{damaged, moved, small_table};
use super::{refused_tables, PAIRS};
use crate::cut::Side;
use crate::generate::walk_half;
use crate::random::Random;
use crate::stored::trial::Trial;

/// All of them.
pub fn trials() -> Vec<Trial> {
    let checks = [single_steps(), lengths(), tables(), from_seeds()].concat();
    let trial = |(k, table, half)| Trial::Half { k, table, half };
    let mut trials: Vec<Trial> = checks.into_iter().map(trial).collect();
    trials.extend(steps());
    trials.extend(cuts());
    trials
}

/// A number of pairs, a table's bytes and a half's.
type Checked = (u8, Vec<u8>, Vec<u8>);

/// Two states; from the first a silent loop and a move by 1, from the second a move by 2.
const TABLE: [u8; 10] = [2, 0, 0, 0, 0, 1, 1, 1, 2, 0];

/// Every step from each state: moves that are there and that are not, idles that keep the state and that do not.
fn single_steps() -> Vec<Checked> {
    let mut found = Vec::new();
    for start in [0, 1, 2] {
        for label in [0, 1, 2, 3, 255] {
            for to in [0, 1, 2] {
                found.push((1, TABLE.to_vec(), vec![start, label, to]));
            }
        }
    }
    found.extend([0, 1, 2, 255].map(|start| (1, TABLE.to_vec(), vec![start])));
    found
}

/// A half of so many steps: the loop, or idles.
fn long(label: u8, steps: usize) -> Vec<u8> {
    [vec![0], [label, 0].repeat(steps)].concat()
}

/// Every short length, 200 steps and 201, lengths between two steps, a fault in the first and in the last of 200 steps.
fn lengths() -> Vec<Checked> {
    let mut halves: Vec<Vec<u8>> = (0..=7).map(|n| long(255, 4)[..n].to_vec()).collect();
    halves.extend((2..=7).map(|n| long(0, 4)[..n].to_vec()));
    halves.extend([200, 201].map(|steps| long(255, steps)));
    halves.push(long(0, 200));
    halves.push([long(0, 200), vec![0]].concat());
    for (at, byte) in [(1, 2), (399, 1), (400, 1)] {
        let mut half = long(0, 200);
        half[at] = byte;
        halves.push(half);
    }
    halves
        .into_iter()
        .map(|half| (1, TABLE.to_vec(), half))
        .collect()
}

/// The table's numbers come before 15, and k's before both.
fn tables() -> Vec<Checked> {
    let mut found = Vec::new();
    for table in refused_tables() {
        for half in [vec![], vec![0], vec![0, 255, 0], vec![255, 1]] {
            found.push((1, table.clone(), half.clone()));
        }
    }
    for k in PAIRS {
        found.push((k, TABLE.to_vec(), vec![0, 1, 1]));
        found.push((k, TABLE.to_vec(), vec![0, 1, 0]));
    }
    // The highest label of k 127, and none above it.
    found.push((127, vec![1, 0, 254, 0], vec![0, 254, 0]));
    found.push((255, vec![1, 0, 254, 0], vec![0, 254, 0, 255, 0]));
    found.push((255, vec![1, 0, 255, 0], vec![0, 255, 0]));
    found
}

/// Walks through small tables, as they are and with some change of half or table.
fn from_seeds() -> Vec<Checked> {
    let mut random = Random::new(21);
    let mut found = Vec::new();
    for turn in 0..90 {
        let (k, table) = small_table(&mut random);
        let steps = random.from_to(0, 5);
        let half = walk_half(&mut random, &table, steps).to_bytes();
        let table = table.to_bytes();
        found.push(match turn % 6 {
            0 => (k, table, half),
            1 => (k, damaged(&mut random, &table), half),
            2 => (k, table, moved(&mut random, &half, 1, 2)),
            _ => (k, table, damaged(&mut random, &half)),
        });
    }
    found
}

/// Steps by number: every short length, numbers at and past the end, the largest number, more than 200 steps.
fn steps() -> Vec<Trial> {
    let bytes = [7, 1, 2, 255, 9, 0, 0, 254, 255, 255, 255];
    let mut found = Vec::new();
    for length in 0..=bytes.len() {
        for number in [0, 1, 2, 3, 4, 5, 32_767, u16::MAX] {
            if number > 5 || number as usize <= length / 2 {
                found.push((bytes[..length].to_vec(), number));
            }
        }
    }
    let rising = |length: usize| -> Vec<u8> { (0..length).map(|n| n as u8).collect() };
    found.extend([
        (rising(401), 199),
        (rising(401), 200),
        (rising(402), 199),
        (rising(403), 200),
    ]);
    let trial = |(half, number)| Trial::Step { half, number };
    found.into_iter().map(trial).collect()
}

/// A cut of the known one of two halves, lent as the half that the side makes known.
fn cut(known: &[u8], other: &[u8], side: Side, point: u16) -> Trial {
    let halves = if side.knows_left() {
        [known, other]
    } else {
        [other, known]
    };
    Trial::Cut {
        halves: halves.map(|half| half.to_vec()),
        side,
        point,
    }
}

/// Cuts of every short length at every point and past it, by each side, beside another half that is empty, of two steps
/// or of even length; cuts of 200 steps and more.
fn cuts() -> Vec<Trial> {
    let known = [11, 12, 13, 14, 15, 16, 17, 18];
    let other = [21, 22, 23, 24, 25, 26, 27, 28];
    let mut trials = Vec::new();
    for side in [Side::Unnamed, Side::Left, Side::Right] {
        for length in 0..=known.len() {
            let known = &known[..length];
            let points = 0..=(length as u16).div_ceil(2);
            for point in points.chain([32_767, u16::MAX]) {
                trials.push(cut(known, &other[..0], side, point));
                trials.push(cut(known, &other[..5], side, point));
            }
            trials.push(cut(known, &other, side, 1));
        }
    }
    for (side, length, point) in [
        (Side::Left, 401, 200),
        (Side::Right, 401, 200),
        (Side::Left, 401, 201),
        (Side::Right, 402, 200),
        (Side::Unnamed, 601, 299),
        (Side::Unnamed, 601, 300),
    ] {
        let known: Vec<u8> = (0..length).map(|n: u16| n as u8).collect();
        trials.push(cut(&known, &other[..3], side, point));
    }
    trials
}
