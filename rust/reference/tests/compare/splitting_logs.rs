//! Logs with many splittings, and with as many as are wanted.

use crate::splitting_both::Log;
use reference::generate::{self, Shape};
use reference::label::{partner, IDLE, SILENT};
use reference::random::Random;
use reference::run::{read_run, ways, JointRun, JointStep, Way, MOST_STEPS};
use reference::table::{read_table, Row, Table, MOST_ROWS};

/// The bytes of machines and a run.
pub fn log_of(k: u8, left: &Table, right: &Table, run: &JointRun) -> Log {
    Log {
        k,
        left: left.to_bytes(),
        right: right.to_bytes(),
        run: run.to_bytes(),
    }
}

/// A log of this shape whose splittings are at most so many.
pub fn many_ways(random: &mut Random, shape: Shape, most: usize) -> Log {
    let (left, right, run) = generate::many_ways(random, shape, most);
    log_of(shape.k, &left, &right, &run)
}

/// The halves of a splitting of a sound log by random ways, however many splittings there are.
pub fn random_halves(random: &mut Random, log: &Log) -> [Vec<u8>; 2] {
    let left = read_table(&log.left, log.k).unwrap();
    let right = read_table(&log.right, log.k).unwrap();
    let (mut p, mut q) = (log.run[0], log.run[1]);
    let mut halves = [vec![p], vec![q]];
    for step in read_run(&log.run, &left, &right).unwrap().steps {
        let labels = match *random.pick(&ways(&left, &right, p, q, step)) {
            Way::LeftAlone => [step.label, IDLE],
            Way::RightAlone => [IDLE, step.label],
            Way::Handshake(label) => [label, partner(label).unwrap()],
            Way::JointIdle => [IDLE, IDLE],
        };
        halves[0].extend([labels[0], step.left]);
        halves[1].extend([labels[1], step.right]);
        (p, q) = (step.left, step.right);
    }
    halves
}

/// A small shape with a few loops, any k in turn.
pub fn small_shape(random: &mut Random, seed: usize) -> Shape {
    let mut shape = Shape::small(random);
    if seed.is_multiple_of(3) {
        shape.k = (seed / 3 % 16) as u8;
    }
    shape.rows = random.from_to(0, 8);
    shape
}

/// A shape of any size or of all bounds, any k in turn.
pub fn large_shape(random: &mut Random, seed: usize) -> Shape {
    let mut shape = Shape::any(random);
    match seed % 4 {
        0 => shape = Shape::maximal(0),
        // Few states, so that steps loop and have several ways.
        1 | 2 => (shape.left_states, shape.right_states) = (random.byte(1, 3), random.byte(1, 3)),
        _ => (),
    }
    shape.k = (seed % 16) as u8;
    shape
}

/// The label by which the chain of `looping_log` goes on; only one machine has it.
const ON: u8 = 30;

/// A log that loops in turn so often at steps with so many ways, 1 to 9 of them (9 only last), given as (ways, times).
/// One machine has one state, with a silent loop and loops of one label of seven pairs; the other goes from state to
/// state by one-way steps. Joint idles are put in until the log has at least `steps` steps.
pub fn looping_log(random: &mut Random, counts: &[(usize, usize)], steps: usize) -> Log {
    let still: Vec<Row> = [0, 1, 3, 5, 7, 9, 11, 13]
        .map(|label| loop_row(0, label))
        .into();
    let mut chain = Vec::new();
    let mut labels = Vec::new();
    for (state, (count, times)) in (0u8..).zip(counts) {
        let last = state as usize + 1 == counts.len();
        chain.extend(chain_rows(random, state, *count, last));
        labels.extend([(SILENT, state)].repeat(*times));
        if !last {
            labels.push((ON, state + 1));
        }
    }
    chain.sort();
    let still = Table::new(1, still);
    let chain = Table::new(counts.len() as u8, chain);
    put_idles_in(random, &mut labels, steps);
    let mirrored = random.once_in(2);
    let step = |(label, to): &(u8, u8)| JointStep {
        label: *label,
        left: if mirrored { *to } else { 0 },
        right: if mirrored { 0 } else { *to },
    };
    let run = JointRun {
        left: 0,
        right: 0,
        steps: labels.iter().map(step).collect(),
    };
    match mirrored {
        true => log_of(15, &chain, &still, &run),
        false => log_of(15, &still, &chain, &run),
    }
}

/// The row of a loop.
fn loop_row(state: u8, label: u8) -> Row {
    Row {
        from: state,
        label,
        to: state,
    }
}

/// Rows of one state of the chain, so that the silent loop has so many ways: one is the other machine's alone, and each
/// of these loops adds one.
fn chain_rows(random: &mut Random, state: u8, count: usize, last: bool) -> Vec<Row> {
    let mut labels = vec![0, 2, 4, 6, 8, 10, 12, 14];
    while labels.len() > count - 1 {
        labels.remove(random.below(labels.len()));
    }
    let mut rows: Vec<Row> = labels.into_iter().map(|l| loop_row(state, l)).collect();
    if !last {
        rows.push(Row {
            from: state,
            label: ON,
            to: state + 1,
        });
    }
    assert!(rows.len() <= MOST_ROWS, "only the last state has nine ways");
    rows
}

/// Puts idles at random places until there are so many steps.
fn put_idles_in(random: &mut Random, labels: &mut Vec<(u8, u8)>, steps: usize) {
    while labels.len() < steps {
        let at = random.from_to(0, labels.len());
        let state = if at == 0 { 0 } else { labels[at - 1].1 };
        labels.insert(at, (IDLE, state));
    }
    assert!(labels.len() <= MOST_STEPS);
}

/// A log in which both machines go on at each step by handshakes in so many ways, 1 to 8; 63 steps at most.
pub fn handshake_log(random: &mut Random, counts: &[usize]) -> Log {
    let (mut left, mut right, mut steps) = (Vec::new(), Vec::new(), Vec::new());
    for (state, count) in (0u8..).zip(counts) {
        let (from, to) = (state, state + 1);
        let mut labels: Vec<u8> = (1..=30).collect();
        while labels.len() > *count {
            labels.remove(random.below(labels.len()));
        }
        left.extend(labels.iter().map(|label| Row {
            from,
            label: *label,
            to,
        }));
        let answers = labels.iter().filter_map(|label| partner(*label));
        right.extend(answers.map(|label| Row { from, label, to }));
        steps.push(JointStep {
            label: SILENT,
            left: to,
            right: to,
        });
    }
    left.sort();
    right.sort();
    let states = counts.len() as u8 + 1;
    let run = JointRun {
        left: 0,
        right: 0,
        steps,
    };
    log_of(
        15,
        &Table::new(states, left),
        &Table::new(states, right),
        &run,
    )
}
