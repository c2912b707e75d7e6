//! All pairs of short half runs of little machines: which of them match, and that a log's splittings are exactly those
//! that join to it.

use std::collections::HashSet;

use crate::both::{number_of, Tally};
use crate::splitting_both::{every_splitting, join_exactly, Log};
use crate::splitting_logs::many_ways;
use reference::generate::Shape;
use reference::half::{HalfRun, HalfStep};
use reference::label::IDLE;
use reference::random::Random;
use reference::table::{read_table, Table};

/// One or two states and up to three rows from each, loops added.
fn little_shape(random: &mut Random, steps: usize) -> Shape {
    Shape {
        k: random.byte(0, 2),
        left_states: random.byte(1, 2),
        right_states: random.byte(1, 2),
        rows: random.from_to(0, 2),
        full: random.once_in(2),
        steps,
        nodes: 1,
    }
}

/// Every half run of so many steps from a state.
fn half_runs(table: &Table, start: u8, steps: usize) -> Vec<HalfRun> {
    let mut all = vec![HalfRun {
        start,
        steps: Vec::new(),
    }];
    for _ in 0..steps {
        let longer = all.iter().flat_map(|half| one_step_longer(table, half));
        all = longer.collect();
    }
    all
}

/// A half run with each step that may follow.
fn one_step_longer(table: &Table, half: &HalfRun) -> Vec<HalfRun> {
    let last = half.last();
    let rows = table.rows_from(last).iter().map(|row| (row.label, row.to));
    let longer = |(label, to)| {
        let mut half = half.clone();
        half.steps.push(HalfStep { label, to });
        half
    };
    rows.chain([(IDLE, last)]).map(longer).collect()
}

/// The half runs of so many steps from the starts of a log, of the left machine and of the right one.
fn all_halves(log: &Log, steps: usize) -> [Vec<Vec<u8>>; 2] {
    [(&log.left, 0), (&log.right, 1)].map(|(table, side)| {
        let table = read_table(table, log.k).unwrap();
        let halves = half_runs(&table, log.run[side], steps);
        halves.iter().map(HalfRun::to_bytes).collect()
    })
}

/// Joins every pair of halves as long as the log; those that give the log are its splittings, all of them and no
/// others.
fn splittings_are_complete(log: &Log, tally: &mut Tally) {
    let [left, right] = all_halves(log, log.steps());
    let mut found = HashSet::new();
    for left_half in &left {
        for right_half in &right {
            let pair = [left_half.clone(), right_half.clone()];
            let joined = join_exactly(&log.halves(pair.clone()));
            tally.note(number_of(&joined));
            if joined.as_ref() == Ok(&log.run) {
                found.insert(pair);
            }
        }
    }
    let listed = every_splitting(log);
    assert_eq!(listed.len(), found.len(), "{log:?}");
    assert_eq!(HashSet::from_iter(listed), found, "{log:?}");
}

/// Logs of up to four steps that have many splittings for their length.
#[test]
fn splittings_are_exactly_the_pairs_that_join() {
    let mut tally = Tally::new("joins of all pairs of halves as long as a little log");
    let mut random = Random::new(101);
    let mut several = 0;
    for (steps, rounds) in [(0, 20), (1, 1000), (2, 500), (3, 60), (4, 4)] {
        for _ in 0..rounds {
            let shape = little_shape(&mut random, steps);
            let log = many_ways(&mut random, shape, 65_535);
            several += u32::from(every_splitting(&log).len() > 1);
            splittings_are_complete(&log, &mut tally);
        }
    }
    assert!(several > 400, "{several}");
    tally.saw_exactly(&[0, 16]);
}

/// Halves of up to two steps, of equal length and of unequal: a pair that matches is a splitting of what it joins to.
#[test]
fn pairs_that_match_are_splittings() {
    let mut tally = Tally::new("joins of all pairs of short halves, equally long or not");
    let mut random = Random::new(102);
    let mut matched = 0;
    for _ in 0..120 {
        let shape = little_shape(&mut random, 0);
        let log = many_ways(&mut random, shape, 1);
        let short = [0, 1, 2].map(|steps| all_halves(&log, steps));
        let left = short.each_ref().map(|halves| halves[0].clone()).concat();
        let right = short.each_ref().map(|halves| halves[1].clone()).concat();
        for left_half in &left {
            for right_half in &right {
                let pair = [left_half.clone(), right_half.clone()];
                let joined = join_exactly(&log.halves(pair.clone()));
                tally.note(number_of(&joined));
                assert!(left_half.len() == right_half.len() || joined == Err(16));
                if let Ok(run) = joined {
                    let joint = Log { run, ..log.clone() };
                    assert!(every_splitting(&joint).contains(&pair), "{joint:?}");
                    matched += 1;
                }
            }
        }
    }
    assert!(matched > 2000, "{matched}");
    tally.saw_exactly(&[0, 16]);
}

/// Two machines of one state each, with every choice of loops among labels 0, 1 and 2: every step there is.
#[test]
fn every_step_of_one_state_machines() {
    let mut tally = Tally::new("joins of all pairs of halves of one-state machines");
    for chosen in 0..64u32 {
        let table = |bits: u32| {
            let labels = (0..3).filter(|label| bits >> label & 1 == 1);
            let rows = labels.flat_map(|label| [0, label as u8, 0]);
            [1].into_iter().chain(rows).collect()
        };
        let log = Log {
            k: 1,
            left: table(chosen & 7),
            right: table(chosen >> 3),
            run: vec![0, 0],
        };
        for first in [0, 1, 2, IDLE] {
            for second in [0, 1, 2, IDLE] {
                let run = vec![0, 0, first, 0, 0, second, 0, 0];
                let log = Log { run, ..log.clone() };
                if is_sound(&log) {
                    splittings_are_complete(&log, &mut tally);
                }
            }
        }
    }
    tally.saw_exactly(&[0, 16]);
}

/// Whether each step of a log of one-state machines is real: an idle, a label that one has, or partners for silence.
fn is_sound(log: &Log) -> bool {
    let has = |table: &[u8], label: u8| table[1..].chunks(3).any(|row| row[1] == label);
    let real = |step: &[u8]| match step[0] {
        IDLE => true,
        label if has(&log.left, label) || has(&log.right, label) => true,
        0 => {
            let shakes = |a, b| has(&log.left, a) && has(&log.right, b);
            shakes(1, 2) || shakes(2, 1)
        }
        _ => false,
    };
    log.run[2..].chunks(3).all(real)
}
