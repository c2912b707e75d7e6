//! Every question of one to three nodes and all pairs of modalities, at every point of every splitting of little logs.

use crate::both::{number_of, Tally};
use crate::quotient_both::{
    numbered_in_rooms, office_both, quotient_in_rooms, Given, Logged, Stop,
};
use crate::splitting_both::{every_splitting, Log};
use crate::splitting_logs::many_ways;
use crate::verdict_small::{pairs_of_modalities, short_formulas};
use reference::generate::Shape;
use reference::random::Random;

/// A log with one pair of labels, few states and rows, and a few steps.
fn little_log(random: &mut Random, steps: usize) -> Log {
    let shape = Shape {
        k: 1,
        left_states: random.byte(1, 2),
        right_states: random.byte(1, 2),
        rows: random.from_to(0, 4),
        full: random.once_in(2),
        steps,
        nodes: 1,
    };
    many_ways(random, shape, 6)
}

/// Demands agreement by number and by halves, by both sides and by none named, at every point of one splitting.
fn every_stop(tally: &mut Tally, logged: &Logged, number: usize, given: &Given) {
    for point in 0..=logged.log.steps() {
        for side in [0, 1, 2] {
            let stop = Stop { side, point };
            let answer = quotient_in_rooms(given, stop);
            assert_eq!(numbered_in_rooms(logged, number, stop), answer);
            let verdict = office_both(given, stop);
            assert_eq!(number_of(&verdict), number_of(&answer));
            tally.note(number_of(&answer));
        }
    }
}

/// Demands agreement about all these questions on a log.
fn every_question(tally: &mut Tally, log: &Log, questions: &[Vec<u8>]) {
    let splittings = every_splitting(log);
    for question in questions {
        let logged = Logged {
            log: log.clone(),
            question: question.clone(),
        };
        for (number, halves) in splittings.iter().enumerate() {
            let given = logged.with(halves.clone());
            every_stop(tally, &logged, number, &given);
        }
    }
}

/// Every short question on little logs.
#[test]
fn every_short_question() {
    let mut tally = Tally::new("quotients of every short question on little logs");
    let mut random = Random::new(161);
    let questions = short_formulas();
    for round in 0..12 {
        let log = little_log(&mut random, round % 4);
        every_question(&mut tally, &log, &questions);
    }
    tally.saw_exactly(&[0]);
}

/// Every pair of modalities on little logs.
#[test]
fn every_pair_of_modalities() {
    let mut tally = Tally::new("quotients of every pair of modalities on little logs");
    let mut random = Random::new(162);
    let questions = pairs_of_modalities();
    for round in 0..15 {
        let log = little_log(&mut random, round % 5);
        every_question(&mut tally, &log, &questions);
    }
    tally.saw_exactly(&[0]);
}
