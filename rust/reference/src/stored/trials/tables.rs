//! Trials of tables: the check, a row by its number, the rows of a state, whether there is a row.

use super::damage::{damaged, full_table, moved, small_table};
use super::{refused_tables, PAIRS};
use crate::label::highest;
use crate::random::Random;
use crate::stored::trial::Trial;
use crate::table::Row;

/// All of them.
pub fn trials() -> Vec<Trial> {
    let checks = [
        lengths(),
        states(),
        ranges(),
        orders(),
        first_faults(),
        ninth_rows(),
        full(),
        from_seeds(),
    ];
    let checks = checks.concat().into_iter();
    let mut trials: Vec<Trial> = checks.map(|(k, table)| Trial::Table { k, table }).collect();
    trials.extend(rows());
    trials.extend(leaving());
    trials.extend(has());
    trials
}

/// A number of pairs and a table's bytes.
type Checked = (u8, Vec<u8>);

/// A table of n states and these rows.
fn table(states: u8, rows: &[[u8; 3]]) -> Vec<u8> {
    [vec![states], rows.concat()].concat()
}

/// Every length up to four rows, of bytes that are sound where the length is fit, and of such that never are.
fn lengths() -> Vec<Checked> {
    let sound = table(2, &[[0, 0, 0], [0, 0, 1], [0, 1, 0], [1, 2, 1]]);
    let no_states = table(0, &[[0, 0, 0], [0, 0, 1]]);
    let mut found: Vec<Checked> = (0..=13).map(|n| (1, sound[..n].to_vec())).collect();
    found.extend((2..=7).map(|n| (1, no_states[..n].to_vec())));
    found.extend((2..=5).map(|n| (15, vec![255; n])));
    found
}

/// How many states there may be, for every number of pairs.
fn states() -> Vec<Checked> {
    let all = PAIRS
        .into_iter()
        .flat_map(|k| [0, 1, 64, 65].map(|n| (k, vec![n])));
    all.chain([2, 63, 127, 128, 255].map(|n| (1, vec![n])))
        .collect()
}

/// One row: each of its three bytes on both sides of its bound, alone; the highest label of every k, and the next.
fn ranges() -> Vec<Checked> {
    let mut found = Vec::new();
    for (k, n) in [(0, 1), (1, 2), (15, 64)] {
        for state in [0, n - 1, n, 255] {
            found.push((k, table(n, &[[state, 0, 0]])));
            found.push((k, table(n, &[[0, 1, state]])));
        }
        found.push((k, table(n, &[[n, 255, n]])));
    }
    for k in PAIRS {
        let high = highest(k);
        for label in [high, high + 1, 255] {
            found.push((k, table(1, &[[0, label, 0]])));
        }
    }
    found
}

/// Every pair of rows of two states, two labels and two targets: rows rise strictly by from, label and to.
fn orders() -> Vec<Checked> {
    let mut rows = Vec::new();
    for from in [0, 1] {
        for label in [0, 2] {
            rows.extend([0, 1].map(|to| [from, label, to]));
        }
    }
    let pairs = rows.iter().flat_map(|a| rows.iter().map(move |b| [*a, *b]));
    pairs.map(|pair| (1, table(2, &pair))).collect()
}

/// Several faults: in a row 5 comes before 6, and the first bad row decides.
fn first_faults() -> Vec<Checked> {
    let sound = [0, 1, 1];
    let (out, again) = ([0, 0, 2], [0, 1, 1]);
    vec![
        (1, table(2, &[sound, out])),
        (1, table(2, &[sound, again, out])),
        (1, table(2, &[sound, out, again])),
        (1, table(2, &[out, sound, again])),
        (1, table(2, &[sound, [1, 0, 0], sound, [3, 3, 3]])),
        (1, table(0, &[sound, again])),
        (0, table(2, &[sound, again])),
        (16, table(2, &[sound, again, out])),
        (255, table(65, &[sound, again])),
    ]
}

/// Eight rows from a state are the most: by labels, by targets, from the first, a middle and the last state.
fn ninth_rows() -> Vec<Checked> {
    let by_label =
        |from: u8, count: u8| -> Vec<[u8; 3]> { (0..count).map(|l| [from, l, 0]).collect() };
    let by_target =
        |from: u8, count: u8| -> Vec<[u8; 3]> { (0..count).map(|t| [from, 0, t]).collect() };
    let mut found = Vec::new();
    for count in [7, 8, 9, 10] {
        found.push((5, table(1, &by_label(0, count))));
        found.push((0, table(10, &by_target(9, count))));
        found.push((
            5,
            table(
                3,
                &[by_label(0, 8), by_label(1, count), by_label(2, 1)].concat(),
            ),
        ));
    }
    // Behind eight rows: not above the last (6 before 7), out of range (5 before 7), of the next state.
    for ninth in [[0, 7, 0], [0, 6, 0], [0, 11, 0], [0, 8, 3], [1, 0, 0]] {
        found.push((5, table(3, &[by_label(0, 8), vec![ninth]].concat())));
    }
    // The ninth row comes before the faults of later rows.
    for later in [[0, 0, 0], [3, 0, 0]] {
        found.push((5, table(3, &[by_label(0, 9), vec![later]].concat())));
    }
    found
}

/// The largest table, the same with its last row twice, and longer by one row.
fn full() -> Vec<Checked> {
    let sound = full_table(1).to_bytes();
    let twice = [&sound[..1534], &sound[1531..1534]].concat();
    let longer = [&sound[..], &[63, 30, 63]].concat();
    [sound, twice, longer].map(|bytes| (15, bytes)).to_vec()
}

/// Small tables with some change, from a seed.
fn from_seeds() -> Vec<Checked> {
    let mut random = Random::new(11);
    let mut found = Vec::new();
    for _ in 0..100 {
        let (k, table) = small_table(&mut random);
        let bytes = table.to_bytes();
        let changed = match random.below(4) {
            0 => bytes,
            1 => moved(&mut random, &bytes, 1, 3),
            _ => damaged(&mut random, &bytes),
        };
        found.push((k, changed));
    }
    found
}

/// Rows by number: every short length, numbers at and past the end, and the largest number.
fn rows() -> Vec<Trial> {
    let bytes = [9, 255, 254, 253, 0, 1, 2, 3, 4, 5, 6];
    let mut trials = Vec::new();
    for length in 0..=bytes.len() {
        let last = (length.max(1) - 1) as u16 / 3;
        for number in [0, 1, last, last + 1, 21_845, u16::MAX] {
            trials.push((bytes[..length].to_vec(), number));
        }
    }
    trials.push((full_table(1).to_bytes(), 511));
    let trial = |(table, number)| Trial::Row { table, number };
    trials.into_iter().map(trial).collect()
}

/// Sound tables whose rows leave the first, the last, some middle or no state.
fn sound_tables() -> Vec<Checked> {
    let eight: Vec<[u8; 3]> = (0..8).map(|l| [1, l, 2]).collect();
    vec![
        (0, table(1, &[])),
        (1, table(2, &[[0, 1, 1]])),
        (1, table(2, &[[1, 1, 0], [1, 2, 1]])),
        (2, table(2, &[[0, 1, 1], [0, 3, 1]])),
        (0, table(64, &[[0, 0, 0], [63, 0, 63]])),
        (
            1,
            table(5, &[[1, 0, 0], [1, 0, 1], [1, 1, 0], [3, 0, 4], [3, 2, 0]]),
        ),
        (4, table(3, &eight)),
        (
            5,
            table(3, &[vec![[0, 10, 2]], eight, vec![[2, 0, 0]]].concat()),
        ),
        (255, table(2, &[[0, 253, 1], [0, 254, 0]])),
    ]
}

/// The rows of every state, and of numbers that are no state.
fn leaving() -> Vec<Trial> {
    let mut found = Vec::new();
    for (k, table) in sound_tables() {
        let last = table[0] - 1;
        for state in [0, 1, 2, 3, 4, last, last + 1, 255] {
            found.push((k, table.clone(), state));
        }
    }
    let mut random = Random::new(12);
    for _ in 0..25 {
        let (k, table) = small_table(&mut random);
        let state = random.byte(0, table.states - 1);
        found.push((k, table.to_bytes(), state));
    }
    found.push((15, full_table(2).to_bytes(), 0));
    found.push((15, full_table(2).to_bytes(), 63));
    found.extend(refused_tables().map(|table| (1, table, 0)));
    let trial = |(k, table, state)| Trial::Leaving { k, table, state };
    found.into_iter().map(trial).collect()
}

/// Whether there is a row: all that one table could have and some that none has; rows of tables from a seed, and others
/// that differ from them in one byte.
fn has() -> Vec<Trial> {
    let mut found = Vec::new();
    let small = table(2, &[[0, 0, 1], [0, 1, 0], [0, 1, 1], [1, 2, 0]]);
    for from in [0, 1, 2] {
        for label in [0, 1, 2, 255] {
            for to in [0, 1, 2] {
                found.push((1, small.clone(), Row { from, label, to }));
            }
        }
    }
    let mut random = Random::new(13);
    for _ in 0..25 {
        let (k, table) = small_table(&mut random);
        let bytes = table.to_bytes();
        if table.rows.is_empty() {
            continue;
        }
        let row = *random.pick(&table.rows);
        found.push((k, bytes.clone(), row));
        found.push((k, bytes, near(&mut random, row)));
    }
    let full = full_table(3);
    let last = full.rows[511];
    found.push((15, full.to_bytes(), last));
    found.extend(refused_tables().map(|table| (1, table, last)));
    let trial = |(k, table, row)| Trial::Has { k, table, row };
    found.into_iter().map(trial).collect()
}

/// The row with one of its bytes one up.
fn near(random: &mut Random, row: Row) -> Row {
    let mut bytes = [row.from, row.label, row.to];
    let at = random.below(3);
    bytes[at] = bytes[at].wrapping_add(1);
    let [from, label, to] = bytes;
    Row { from, label, to }
}
