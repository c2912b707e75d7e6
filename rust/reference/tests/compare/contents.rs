//! Contents in small worlds, tried in great numbers: rows, steps and nodes.

use crate::both::{read_both, Tally};
use reference::casebook::Parts;
use reference::generate::{random_table, Shape};
use reference::random::Random;
use reference::run::{ways, JointStep, Way};
use reference::table::{read_table, Table};

/// A casebook around these tables, run and question.
fn parts(k: u8, left: &[u8], right: &[u8], run: &[u8], question: &[u8]) -> Parts {
    Parts {
        k,
        left: left.to_vec(),
        right: right.to_vec(),
        run: run.to_vec(),
        question: question.to_vec(),
    }
}

/// A table of one or two states with a few rows.
fn little_table(random: &mut Random, k: u8) -> Table {
    let mut shape = Shape::small(random);
    shape.k = k;
    shape.rows = random.from_to(1, 4);
    let states = random.byte(1, 2);
    random_table(random, shape, states)
}

/// The kinds of way of one step, as a set of bits.
fn way_bits(left: &Table, right: &Table, p: u8, q: u8, step: JointStep) -> usize {
    let bit = |way: &Way| match way {
        Way::LeftAlone => 1,
        Way::RightAlone => 2,
        Way::Handshake(_) => 4,
        Way::JointIdle => 8,
    };
    let found = ways(left, right, p, q, step);
    found.iter().fold(0, |bits, way| bits | bit(way))
}

/// Every step from every pair of states of many little machines: real or 8.
#[test]
fn every_step_of_little_machines() {
    let mut tally = Tally::new("every single step of little machines");
    let mut kinds = [0; 16];
    let mut random = Random::new(5);
    for round in 0..220 {
        let k = (round % 3) as u8;
        let left = little_table(&mut random, k);
        let right = little_table(&mut random, k);
        for number in 0..4 * 7 * 9 {
            let (p, q) = (number % 2, number / 2 % 2);
            let label = [0, 1, 2, 3, 4, 5, 255][(number / 4 % 7) as usize];
            let (to_p, to_q) = ((number / 28 % 3) as u8, (number / 84) as u8);
            let run = [p as u8, q as u8, label, to_p, to_q];
            let book = parts(k, &left.to_bytes(), &right.to_bytes(), &run, &[0, 0]);
            let outcome = read_both(&book.to_bytes());
            tally.note(outcome);
            if outcome == 0 {
                let step = JointStep {
                    label,
                    left: to_p,
                    right: to_q,
                };
                kinds[way_bits(&left, &right, p as u8, q as u8, step)] += 1;
            }
        }
    }
    // Each way alone makes steps real, and so do left and right, and either with a handshake.
    for bits in [1, 2, 3, 4, 5, 6, 8] {
        assert!(kinds[bits] > 10, "{kinds:?}");
    }
    tally.saw_exactly(&[0, 8]);
}

/// Every sequence of up to three nodes with operators 0 to 9 and labels 0 to 3.
#[test]
fn every_short_question() {
    let mut tally = Tally::new("every question of one to three nodes");
    for nodes in 1..=3 {
        for number in 0..40usize.pow(nodes) {
            let mut question = Vec::new();
            let mut rest = number;
            for _ in 0..nodes {
                question.extend([(rest % 10) as u8, (rest / 10 % 4) as u8]);
                rest /= 40;
            }
            let book = parts(1, &[1], &[1], &[0, 0], &question);
            tally.note(read_both(&book.to_bytes()));
        }
    }
    // Unary: not, 7, 8, and 5 and 6 with 3 labels each: 9. Trees: 2, then 2 * 9, then 2 * 81 + 2 * 4.
    assert_eq!(tally.of(0), 2 + 18 + 170);
    tally.saw_exactly(&[0, 9]);
}

/// Writes a random tree with forward modalities nested up to `nesting` deep.
fn grow(random: &mut Random, nesting: usize, size: usize, nodes: &mut Vec<u8>) {
    let operator = match size {
        0 => random.byte(0, 1),
        _ if nesting > 0 && random.once_in(2) => *random.pick(&[5, 7]),
        _ => *random.pick(&[2, 3, 4, 6, 8]),
    };
    nodes.extend([operator, 0]);
    let deeper = match operator {
        5 | 7 => nesting - 1,
        _ => nesting,
    };
    match operator {
        0 | 1 => {}
        3 | 4 => {
            let first = random.below(size);
            grow(random, deeper, first, nodes);
            grow(random, deeper, size - 1 - first, nodes);
        }
        _ => grow(random, deeper, size - 1, nodes),
    }
}

/// Trees with nesting around 4, some with a faulty node somewhere: accepted, 9 or 10.
#[test]
fn nesting_around_the_limit() {
    let mut tally = Tally::new("trees with nesting around 4");
    let mut random = Random::new(6);
    for _ in 0..40_000 {
        let mut question = Vec::new();
        let size = random.from_to(4, 30);
        let nesting = random.from_to(3, 6);
        grow(&mut random, nesting, size, &mut question);
        question.truncate(128);
        if random.once_in(4) {
            let at = random.below(question.len());
            question[at] = random.byte(0, 9);
        }
        let book = parts(2, &[1], &[1], &[0, 0], &question);
        tally.note(read_both(&book.to_bytes()));
    }
    tally.at_least(4000, &[0, 9, 10]);
    assert_eq!(tally.of(0) + tally.of(9) + tally.of(10), 40_000);
}

/// Rows near the limits of order and count: sorted draws, with at most one of them changed.
#[test]
fn rows_around_the_limits() {
    let mut tally = Tally::new("tables around the limits of their rows");
    let mut random = Random::new(7);
    for _ in 0..60_000 {
        let (k, states) = (random.byte(0, 2), random.byte(2, 6));
        let count = random.from_to(1, 18);
        let mut rows: Vec<[u8; 3]> = Vec::new();
        for _ in 0..count {
            let from = random.once_in(4) as u8;
            rows.push([from, random.byte(0, 2 * k), random.byte(0, states - 1)]);
        }
        rows.sort();
        rows.dedup();
        if random.once_in(2) {
            let at = random.below(rows.len());
            rows[at][random.below(3)] = random.byte(0, states);
        }
        let table = [vec![states], rows.concat()].concat();
        let number = match random.below(2) {
            0 => read_both(&parts(k, &table, &[1], &[0, 0], &[0, 0]).to_bytes()),
            _ => read_both(&parts(k, &[1], &table, &[0, 0], &[0, 0]).to_bytes()),
        };
        tally.note(number);
        assert_eq!(number == 0, read_table(&table, k).is_ok());
    }
    tally.at_least(1000, &[0, 5, 6, 7]);
    assert_eq!(
        [0, 5, 6, 7].map(|n| tally.of(n)).iter().sum::<u64>(),
        60_000
    );
}
