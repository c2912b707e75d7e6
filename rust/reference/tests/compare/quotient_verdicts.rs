//! Demand 3, by the engine alone and by the reference alone: at every point of every splitting, the question's verdict
//! on the log is the other half's verdict under the very bytes written as the quotient.

use crate::both::{number_of, sides};
use crate::quotient_both::{office_both, Given, Logged, Stop, LARGEST};
use crate::quotient_inputs::with_question;
use crate::splitting_both::{every_splitting, Log};
use crate::splitting_logs::{large_shape, many_ways, random_halves, small_shape};
use crate::verdict_both::{subtrees, Verdicts, OPERATORS};
use reference::quotient::{self, Known};
use reference::random::Random;
use reference::verdict;
use yenuslap::bare;

/// The bytes that the engine writes as the quotient, unless it is too large.
fn engine_quotient(given: &Given, stop: Stop) -> Option<Vec<u8>> {
    let mut out = vec![0; LARGEST];
    let answer = given.engine(stop, &mut out);
    match answer >> 32 {
        0 => {
            out.truncate(answer as usize);
            Some(out)
        }
        number => {
            assert_eq!(number, 17, "{given:?} at {stop:?}");
            None
        }
    }
}

/// The verdict on which the engine's three calls agree: of the log, of the other half under the quotient, and of the
/// line office; nothing if the quotient is too large.
fn engine_verdict(log: &Log, given: &Given, stop: Stop) -> Option<bool> {
    let quotient = engine_quotient(given, stop)?;
    let (
        Given {
            halves: it,
            question,
        },
        point,
    ) = (given, stop.point);
    let joint = bare::joint_verdict(it.k, &it.left, &it.right, &log.run, question, point);
    let (table, other) = match stop.knows_left() {
        true => (&it.right, &it.right_half),
        false => (&it.left, &it.left_half),
    };
    let half = bare::half_verdict(it.k, table, other, &quotient, point);
    assert!(joint <= 1, "{log:?}");
    assert_eq!(half, joint, "{given:?} at {stop:?}");
    let (left_half, right_half, side) = (&it.left_half, &it.right_half, stop.side);
    let (left, right) = (&it.left, &it.right);
    let office = bare::line_office(
        it.k, left, right, left_half, right_half, question, side, point,
    );
    assert_eq!(office, 3 * joint, "{given:?} at {stop:?}");
    Some(joint == 1)
}

/// The two verdicts by the reference, each by itself: the joint one on the log, the other half's under the plain bytes.
fn plain_verdicts(log: &Log, given: &Given, stop: Stop) -> Option<[bool; 2]> {
    let known = Known {
        side: sides(stop.side).0,
        point: stop.point,
    };
    let quotient = quotient::by_halves(given.asked(), given.both_halves(), known, LARGEST).ok()?;
    let Given {
        halves: it,
        question,
    } = given;
    let joint = verdict::joint(it.k, &it.left, &it.right, &log.run, question, stop.point);
    let (table, other) = match stop.knows_left() {
        true => (&it.right, &it.right_half),
        false => (&it.left, &it.left_half),
    };
    let half = verdict::half(it.k, table, other, &quotient, stop.point);
    Some([joint.unwrap(), half.unwrap()])
}

/// Demands one verdict of everything at one point, and notes it.
fn one_verdict(verdicts: &mut Verdicts, log: &Log, given: &Given, stop: Stop) {
    let engine = engine_verdict(log, given, stop);
    let plain = plain_verdicts(log, given, stop);
    assert_eq!(plain, engine.map(|verdict| [verdict; 2]));
    let office = office_both(given, stop);
    assert_eq!(office.ok(), engine, "{given:?} at {stop:?}");
    match engine {
        Some(verdict) => verdicts.note(&given.question, Ok(verdict)),
        None => assert_eq!(number_of(&office), 17),
    }
}

/// Every subformula of a question, at every point of every splitting of short logs, by both sides.
#[test]
fn every_splitting_of_short_logs() {
    let mut verdicts = Verdicts::new("verdicts under quotients on short logs");
    let mut random = Random::new(201);
    for seed in 0..400 {
        let mut shape = small_shape(&mut random, seed);
        shape.steps = random.from_to(0, 4);
        let log = many_ways(&mut random, shape, 8);
        let nodes = random.from_to(1, 10);
        let logged = with_question(&mut random, log, nodes);
        for halves in every_splitting(&logged.log) {
            for question in subtrees(&logged.question) {
                let (log, question) = (logged.log.clone(), question.to_vec());
                let given = Logged { log, question }.with(halves.clone());
                every_point(&mut verdicts, &logged.log, &given);
            }
        }
    }
    verdicts.at_least(100, &OPERATORS);
}

/// Demands one verdict at every point, by both sides.
fn every_point(verdicts: &mut Verdicts, log: &Log, given: &Given) {
    for point in 0..=log.steps() {
        for side in [1, 2] {
            one_verdict(verdicts, log, given, Stop { side, point });
        }
    }
}

/// Halves of logs of up to 200 steps, often with over 65,535 splittings, questions of up to 64 nodes.
#[test]
fn some_splittings_of_long_logs() {
    let mut verdicts = Verdicts::new("verdicts under quotients on long logs");
    let mut random = Random::new(202);
    for seed in 0..900 {
        let shape = large_shape(&mut random, seed);
        let log = many_ways(&mut random, shape, usize::MAX >> 8);
        let most = *random.pick(&[4, 12, 64]);
        let nodes = random.from_to(1, most);
        let logged = with_question(&mut random, log, nodes);
        let given = logged.with(random_halves(&mut random, &logged.log));
        let steps = logged.log.steps();
        for point in [0, steps / 2, steps, random.from_to(0, steps)] {
            for side in [0, 1, 2] {
                one_verdict(&mut verdicts, &logged.log, &given, Stop { side, point });
            }
        }
    }
    verdicts.at_least(30, &OPERATORS);
}

/// One question at every point of whole logs of 200 steps.
#[test]
fn every_point_of_long_logs() {
    let mut verdicts = Verdicts::new("verdicts under quotients at every point of long logs");
    let mut random = Random::new(203);
    for seed in 0..40 {
        let mut shape = large_shape(&mut random, seed);
        shape.steps = 200;
        let log = many_ways(&mut random, shape, usize::MAX >> 8);
        let nodes = random.from_to(2, 10);
        let logged = with_question(&mut random, log, nodes);
        let given = logged.with(random_halves(&mut random, &logged.log));
        every_point(&mut verdicts, &logged.log, &given);
    }
    verdicts.at_least(20, &[2, 3, 4, 5, 6]);
}
