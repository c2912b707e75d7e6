//! Trials of joint runs: the check.

use super::damage::{damaged, full_table, moved, of_states};
use super::{refused_tables, PAIRS};
use crate::generate::walk;
use crate::random::Random;
use crate::stored::trial::Trial;

/// All of them.
pub fn trials() -> Vec<Trial> {
    let worlds = [
        case_a(),
        loops(),
        silent_moves(),
        partners(),
        lengths(),
        tables(),
        pairs(),
        from_seeds(),
        full(),
    ];
    let checks = worlds.concat();
    let trial = |(k, left, right, run)| Trial::Joint {
        k,
        left,
        right,
        run,
    };
    checks.into_iter().map(trial).collect()
}

/// A number of pairs, the bytes of two tables and of a run.
type Checked = (u8, Vec<u8>, Vec<u8>, Vec<u8>);

/// Case A's machines.
const LEFT: [u8; 7] = [2, 0, 1, 1, 0, 3, 1];
const RIGHT: [u8; 7] = [2, 0, 2, 1, 0, 4, 1];

/// Runs of one step from these states, by each of these labels to each pair of these states.
fn single_steps(starts: &[[u8; 2]], labels: &[u8], targets: &[u8]) -> Vec<Vec<u8>> {
    let mut runs = Vec::new();
    for [p, q] in starts {
        for label in labels {
            for left in targets {
                runs.extend(
                    targets
                        .iter()
                        .map(|right| vec![*p, *q, *label, *left, *right]),
                );
            }
        }
    }
    runs
}

/// Every step of case A's machines from their first states, some from the others, and starts out of range.
fn case_a() -> Vec<Checked> {
    let mut runs = single_steps(&[[0, 0]], &[0, 1, 2, 3, 4, 5, 255], &[0, 1, 2]);
    runs.extend(single_steps(&[[1, 0], [0, 1]], &[0, 1, 2, 255], &[0, 1]));
    for start in [[0, 0], [1, 1], [2, 0], [0, 2], [255, 0], [0, 255]] {
        runs.push(start.to_vec());
        runs.push([start, start].concat().to_vec());
        runs.push([&start[..], &[255], &start[..]].concat());
    }
    let on_a = |run| (2, LEFT.to_vec(), RIGHT.to_vec(), run);
    runs.into_iter().map(on_a).collect()
}

/// Machines of one state with loops, so that a step may have several ways, and joint idles among the loops.
fn loops() -> Vec<Checked> {
    let mut found = Vec::new();
    for (left, right) in [
        (vec![1, 0, 1, 0], vec![1, 0, 1, 0]),
        (vec![1, 0, 1, 0], vec![1, 0, 2, 0]),
        (vec![1, 0, 0, 0, 0, 1, 0], vec![1, 0, 2, 0]),
        (vec![1], vec![1, 0, 1, 0]),
        (vec![1], vec![1]),
    ] {
        for label in [0, 1, 2, 3, 255] {
            found.push((1, left.clone(), right.clone(), vec![0, 0, label, 0, 0]));
            let then_idle = vec![0, 0, label, 0, 0, 255, 0, 0, label, 0, 0];
            found.push((1, left.clone(), right.clone(), then_idle));
        }
    }
    found
}

/// Silent moves of both: each alone is real, both at once are no handshake.
fn silent_moves() -> Vec<Checked> {
    let table = vec![2, 0, 0, 1];
    let mut runs = single_steps(&[[0, 0]], &[0, 255], &[0, 1]);
    runs.push(vec![0, 0, 0, 1, 0, 0, 1, 1]);
    runs.push(vec![0, 0, 0, 1, 0, 0, 0, 1]);
    let on_both = |run| (1, table.clone(), table.clone(), run);
    runs.into_iter().map(on_both).collect()
}

/// A handshake needs partners: all pairs of four labels, and those at the ends of the labels of large k.
fn partners() -> Vec<Checked> {
    let four = (1..=4).flat_map(|a| (1..=4).map(move |b| (2, a, b)));
    let large = [
        (15, 29, 30),
        (15, 30, 29),
        (15, 28, 29),
        (15, 30, 31),
        (127, 253, 254),
        (127, 254, 253),
        (255, 254, 253),
        (255, 252, 253),
        (255, 254, 255),
    ];
    let shaken = |(k, a, b)| (k, vec![2, 0, a, 1], vec![2, 0, b, 1], vec![0, 0, 0, 1, 1]);
    four.chain(large).map(shaken).collect()
}

/// Idles of two machines without rows.
fn idles(steps: usize) -> Vec<u8> {
    [vec![0, 0], [255, 0, 0].repeat(steps)].concat()
}

/// Every short length, 200 steps and 201, lengths between two steps, a fault in the first and in the last of 200 steps.
fn lengths() -> Vec<Checked> {
    let mut runs: Vec<Vec<u8>> = (0..=14).map(|n| idles(4)[..n].to_vec()).collect();
    runs.extend([200, 201].map(idles));
    runs.push(idles(201)[..603].to_vec());
    for (at, byte) in [(2, 0), (601, 1)] {
        let mut run = idles(200);
        run[at] = byte;
        runs.push(run);
    }
    runs.into_iter()
        .map(|run| (0, vec![1], vec![1], run))
        .collect()
}

/// The left table's numbers come before the right's, and these before the run's.
fn tables() -> Vec<Checked> {
    let sound = vec![2, 0, 1, 1];
    let tables = [refused_tables().to_vec(), vec![sound]].concat();
    let mut found = Vec::new();
    for left in &tables {
        for right in &tables {
            found.push((1, left.clone(), right.clone(), vec![9]));
        }
        found.push((1, left.clone(), vec![1], vec![0, 9]));
        found.push((1, vec![1], left.clone(), vec![0, 0]));
    }
    found
}

/// k comes before everything, and with fewer pairs the tables have labels out of range.
fn pairs() -> Vec<Checked> {
    let mut found = Vec::new();
    for k in PAIRS {
        found.push((k, LEFT.to_vec(), RIGHT.to_vec(), vec![0, 0, 0, 1, 1]));
        found.push((k, LEFT.to_vec(), RIGHT.to_vec(), vec![0, 0, 0, 1, 0]));
    }
    found.extend([16, 128, 255].map(|k| (k, vec![], vec![0], vec![])));
    found
}

/// Walks of two small machines, as they are and with some change.
fn from_seeds() -> Vec<Checked> {
    let mut random = Random::new(31);
    let mut found = Vec::new();
    for turn in 0..128 {
        let k = *random.pick(&[0, 1, 1, 2]);
        let [left, right] = [0, 1].map(|_| {
            let states = random.byte(1, 3);
            of_states(&mut random, k, states)
        });
        let steps = random.from_to(0, 4);
        let run = walk(&mut random, &left, &right, steps).to_bytes();
        let (left, right) = (left.to_bytes(), right.to_bytes());
        found.push(match turn % 8 {
            0 | 1 => (k, left, right, run),
            2 => (k, damaged(&mut random, &left), right, run),
            3 => (k, left, damaged(&mut random, &right), run),
            4 => (k, left, right, moved(&mut random, &run, 2, 3)),
            _ => (k, left, right, damaged(&mut random, &run)),
        });
    }
    found
}

/// A walk of 200 steps through the two largest tables.
fn full() -> Vec<Checked> {
    let (left, right) = (full_table(4), full_table(5));
    let run = walk(&mut Random::new(32), &left, &right, 200).to_bytes();
    vec![(15, left.to_bytes(), right.to_bytes(), run)]
}
