//! Quotients on sound logs of all sizes, at every point, by halves and by number.

use std::collections::HashMap;

use crate::both::{number_of, Tally};
use crate::quotient_both::{
    numbered_both, numbered_in_rooms, office_both, quotient_both, quotient_in_rooms, Given, Logged,
    Stop, LARGEST, SIDES,
};
use crate::quotient_inputs::{fitted_question, with_question};
use crate::splitting_both::{count_both, split_exactly, Log};
use crate::splitting_logs::{large_shape, many_ways, random_halves, small_shape};
use crate::splitting_sound::numbers_beyond;
use reference::label::{IDLE, SILENT};
use reference::random::Random;

/// A short log of few or many rows.
fn short_log(random: &mut Random, seed: usize, most: usize) -> Log {
    let mut shape = small_shape(random, seed);
    shape.steps = random.from_to(0, 6);
    many_ways(random, shape, most)
}

/// Every point of short logs, by the halves of any splitting, every way of naming a side; so many logs that some of
/// the quotients are too large.
#[test]
fn every_point_of_short_logs() {
    let mut tally = Tally::new("quotients at every point of short logs");
    let mut random = Random::new(171);
    for seed in 0..1800 {
        let log = short_log(&mut random, seed, usize::MAX >> 8);
        let nodes = random.from_to(1, 16);
        let logged = with_question(&mut random, log, nodes);
        let given = logged.with(random_halves(&mut random, &logged.log));
        for point in 0..=logged.log.steps() {
            for side in SIDES {
                let stop = Stop { side, point };
                let answer = quotient_in_rooms(&given, stop);
                assert_eq!(number_of(&office_both(&given, stop)), number_of(&answer));
                tally.note(number_of(&answer));
            }
        }
    }
    tally.at_least(10, &[0, 17]);
}

/// Every number and every point of short logs: the quotient by the halves that the number names.
#[test]
fn every_number_of_short_logs() {
    let mut tally = Tally::new("quotients by every number at every point of short logs");
    let mut random = Random::new(172);
    for seed in 0..240 {
        let log = short_log(&mut random, seed, 24);
        let nodes = random.from_to(1, 12);
        let logged = with_question(&mut random, log, nodes);
        let count = count_both(&logged.log).unwrap();
        for point in 0..=logged.log.steps() {
            for side in [0, 1, 2] {
                let stop = Stop { side, point };
                every_number(&mut tally, &logged, count, stop);
            }
        }
    }
    tally.at_least(1000, &[0, 14]);
}

/// Demands the quotient by its halves of every number below the count, and 14 beyond.
fn every_number(tally: &mut Tally, logged: &Logged, count: usize, stop: Stop) {
    for number in 0..count {
        let given = logged.with(split_exactly(&logged.log, number).unwrap());
        let answer = numbered_in_rooms(logged, number, stop);
        assert_eq!(quotient_both(&given, stop, LARGEST), answer, "{number}");
        tally.note(number_of(&answer));
    }
    for number in numbers_beyond(count) {
        let answer = numbered_both(logged, number, stop, 40);
        assert_eq!(answer, Err(14), "{number} of {count}");
        tally.note(14);
    }
}

/// Points at both ends and between them.
fn some_points(random: &mut Random, steps: usize) -> Vec<usize> {
    let mut points = vec![0, steps, steps.saturating_sub(1), steps / 2];
    points.extend((0..2).map(|_| random.from_to(0, steps)));
    points.dedup();
    points
}

/// Logs of up to 200 steps on machines of up to 64 states and 8 rows each, questions of up to 64 nodes, by halves and
/// by number.
#[test]
fn long_logs() {
    let mut tally = Tally::new("quotients on long logs, by halves and by number");
    let mut random = Random::new(173);
    for seed in 0..1000 {
        let mut shape = large_shape(&mut random, seed);
        if seed % 5 == 0 {
            shape.steps = [0, 1, 199, 200][seed / 5 % 4];
        }
        let log = many_ways(&mut random, shape, 65_535);
        let number = random.below(count_both(&log).unwrap());
        let halves = split_exactly(&log, number).unwrap();
        for point in some_points(&mut random, log.steps()) {
            let most = *random.pick(&[8, 24, 64]);
            let nodes = random.from_to(1, most);
            let question = fitted_question(&mut random, &log, point, [nodes, 4]);
            let log = log.clone();
            let logged = Logged { log, question };
            let stop = Stop {
                side: *random.pick(&SIDES),
                point,
            };
            let answer = numbered_both(&logged, number, stop, LARGEST);
            let given = logged.with(halves.clone());
            assert_eq!(quotient_in_rooms(&given, stop), answer);
            assert_eq!(number_of(&office_both(&given, stop)), number_of(&answer));
            tally.note(number_of(&answer));
        }
    }
    tally.at_least(60, &[0, 17]);
}

/// Halves of logs with over 65,535 splittings: quotients by halves are given, by number 13 comes.
#[test]
fn logs_with_too_many_splittings() {
    let mut tally = Tally::new("quotients on logs that have over 65,535 splittings");
    let mut random = Random::new(174);
    for seed in 0..400 {
        let mut shape = large_shape(&mut random, seed);
        shape.steps = random.from_to(20, 200);
        let log = many_ways(&mut random, shape, usize::MAX >> 8);
        let too_many = count_both(&log) == Err(13);
        let nodes = random.from_to(1, 12);
        let logged = with_question(&mut random, log, nodes);
        let given = logged.with(random_halves(&mut random, &logged.log));
        for point in some_points(&mut random, logged.log.steps()) {
            let side = random.byte(0, 3);
            let stop = Stop { side, point };
            let answer = quotient_in_rooms(&given, stop);
            let verdict = office_both(&given, stop);
            assert_eq!(number_of(&verdict), number_of(&answer));
            tally.note(number_of(&answer));
            if too_many {
                by_no_number(&mut tally, &logged, stop);
            }
        }
    }
    tally.at_least(300, &[0, 13]);
}

/// Demands 13 of every number.
fn by_no_number(tally: &mut Tally, logged: &Logged, stop: Stop) {
    for number in [0, 1, 65_535, 65_536, usize::MAX] {
        for room in [0, LARGEST] {
            let answer = numbered_both(logged, number, stop, room);
            assert_eq!(answer, Err(13), "{number}");
            tally.note(13);
        }
    }
}

/// A quotient at a point is the one at the end of the halves stopped there: what comes after the point is no matter.
#[test]
fn later_steps_are_no_matter() {
    let mut tally = Tally::new("quotients with the halves cut at the point");
    let mut random = Random::new(175);
    for seed in 0..800 {
        let log = short_log(&mut random, seed, usize::MAX >> 8);
        let nodes = random.from_to(1, 10);
        let logged = with_question(&mut random, log, nodes);
        let halves = random_halves(&mut random, &logged.log);
        for point in 0..=logged.log.steps() {
            let stopped = halves.clone().map(|half| half[..1 + 2 * point].to_vec());
            let side = random.byte(0, 2);
            let stop = Stop { side, point };
            let whole = quotient_both(&logged.with(halves.clone()), stop, LARGEST);
            let part = quotient_both(&logged.with(stopped), stop, LARGEST);
            assert_eq!(whole, part);
            tally.note(number_of(&part));
        }
    }
    tally.at_least(1000, &[0]);
}

/// A machine beside itself: three joint idles and a question about them.
fn beside_itself(random: &mut Random, seed: usize) -> Given {
    let log = short_log(random, seed, 64);
    let start = log.run[0];
    let twin = Log {
        right: log.left.clone(),
        run: [vec![start; 2], [IDLE, start, start].repeat(3)].concat(),
        ..log
    };
    let question = fitted_question(random, &twin, 3, [9, 4]);
    let idles = [vec![start], [IDLE, start].repeat(3)].concat();
    Logged {
        log: twin,
        question,
    }
    .with([idles.clone(), idles])
}

/// One slice lent as both tables and one as both halves.
#[test]
fn one_slice_lent_twice() {
    let mut tally = Tally::new("quotients with one slice lent twice");
    let mut random = Random::new(176);
    for seed in 0..300 {
        let given = beside_itself(&mut random, seed);
        let answer = quotient_both(&given, Stop { side: 1, point: 3 }, LARGEST);
        let (k, question, side) = (given.halves.k, &given.question, yenuslap::Side::Left);
        let (table, half) = (&given.halves.left, &given.halves.left_half);
        let mut out = [0; LARGEST];
        let same = yenuslap::quotient(k, table, table, half, half, question, side, 3, &mut out);
        assert_eq!(same.ok(), answer.as_ref().ok().map(Vec::len));
        assert_eq!(out[..same.unwrap_or(0)], answer.clone().unwrap_or_default());
        tally.note(number_of(&answer));
    }
    tally.at_least(200, &[0]);
}

/// How the known half stands to a question's root: for "back" its last step, for "forward" how many rows go on (two for
/// several), alone and by handshakes.
#[derive(Clone, Copy, PartialEq, Eq, Hash, Debug)]
enum Rule {
    PassesThrough(u8),
    Forward {
        silent: bool,
        alone: usize,
        handshakes: usize,
    },
    ForwardIdle,
    BackFromStart,
    BackOverIdle,
    BackAlone {
        silent: bool,
    },
    BackHandshake,
    BackOther,
    BackIdleFromStart,
    BackIdleOverIdle,
    BackIdleOverMove {
        loops: bool,
    },
}

/// The rule of a question's root, by the known half stopped at the point.
fn rule(question: &[u8], table: &[u8], half: &[u8]) -> Rule {
    let last = half[half.len() - 1];
    let end = (half.len() > 1).then(|| half[half.len() - 2]);
    let label = question[1];
    let silent = label == SILENT;
    let rows = table[1..].chunks(3).filter(|row| row[0] == last);
    let loops = half.len() > 1 && half[half.len() - 3] == last;
    match (question[0], end) {
        (5, _) => Rule::Forward {
            silent,
            alone: rows.clone().filter(|row| row[1] == label).count().min(2),
            handshakes: rows.filter(|row| silent && row[1] != 0).count().min(2),
        },
        (6, None) => Rule::BackFromStart,
        (6, Some(IDLE)) => Rule::BackOverIdle,
        (6, Some(own)) if own == label => Rule::BackAlone { silent },
        (6, Some(_)) if silent => Rule::BackHandshake,
        (6, Some(_)) => Rule::BackOther,
        (7, _) => Rule::ForwardIdle,
        (8, None) => Rule::BackIdleFromStart,
        (8, Some(IDLE)) => Rule::BackIdleOverIdle,
        (8, Some(_)) => Rule::BackIdleOverMove { loops },
        (operator, _) => Rule::PassesThrough(operator),
    }
}

/// Demands agreement at one point and gives the rule of the question's root there.
fn rule_at(given: &Given, stop: Stop) -> Rule {
    let asked = quotient_both(given, stop, LARGEST);
    assert!(matches!(asked, Ok(_) | Err(17)));
    let table = match stop.knows_left() {
        true => &given.halves.left,
        false => &given.halves.right,
    };
    let half = &given.known(stop.side)[..1 + 2 * stop.point];
    rule(&given.question, table, half)
}

/// All rules that there are.
fn all_rules() -> Vec<Rule> {
    let mut rules: Vec<Rule> = (0..5).map(Rule::PassesThrough).collect();
    for alone in 0..3 {
        for (silent, handshakes) in [(false, 0), (true, 0), (true, 1), (true, 2)] {
            rules.push(Rule::Forward {
                silent,
                alone,
                handshakes,
            });
        }
    }
    for yes in [false, true] {
        rules.push(Rule::BackAlone { silent: yes });
        rules.push(Rule::BackIdleOverMove { loops: yes });
    }
    rules.extend([Rule::ForwardIdle, Rule::BackFromStart, Rule::BackOverIdle]);
    rules.extend([Rule::BackHandshake, Rule::BackOther]);
    rules.extend([Rule::BackIdleFromStart, Rule::BackIdleOverIdle]);
    rules
}

/// Every rule of table 1 is reached often at the root, by either side.
#[test]
fn every_rule_is_reached() {
    let mut random = Random::new(177);
    let mut reached: HashMap<(u8, Rule), u32> = HashMap::new();
    for seed in 0..5000 {
        let mut shape = small_shape(&mut random, seed);
        // Without pairs only silent rows go on.
        shape.k = if seed % 8 == 0 { 0 } else { shape.k.max(1) };
        shape.steps = random.from_to(0, 4);
        let log = many_ways(&mut random, shape, usize::MAX >> 8);
        let nodes = random.from_to(1, 5);
        let logged = with_question(&mut random, log, nodes);
        let given = logged.with(random_halves(&mut random, &logged.log));
        for point in 0..=logged.log.steps() {
            for side in [1, 2] {
                let rule = rule_at(&given, Stop { side, point });
                *reached.entry((side, rule)).or_default() += 1;
            }
        }
    }
    for rule in all_rules() {
        for side in [1, 2] {
            let times = reached.get(&(side, rule)).copied().unwrap_or(0);
            assert!(times >= 10, "{rule:?} by side {side}: {times}");
        }
    }
}
