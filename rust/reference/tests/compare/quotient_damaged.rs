//! Quotients and line offices of damaged, cut, random and empty arguments, and of points, numbers and sides of all
//! sizes.

use crate::both::{number_of, Tally};
use crate::quotient_both::{
    numbered_both, office_both, quotient_both, Given, Logged, Stop, LARGEST, SIDES,
};
use crate::quotient_inputs::with_question;
use crate::splitting_both::{count_both, Log};
use crate::splitting_logs::{large_shape, many_ways, random_halves, small_shape};
use crate::verdict_damaged::{change_one, damage, far_points, first_empty};
use reference::random::Random;

/// Enough for the quotients of small calls.
const ROOM: usize = 300;

/// A small log with a few splittings and a question.
fn small_logged(random: &mut Random) -> Logged {
    let seed = random.below(96);
    let shape = small_shape(random, seed);
    let log = many_ways(random, shape, 40);
    let nodes = random.from_to(1, 6);
    with_question(random, log, nodes)
}

/// A small call by halves.
fn small_given(random: &mut Random) -> Given {
    let logged = small_logged(random);
    let halves = random_halves(random, &logged.log);
    logged.with(halves)
}

/// The lent arguments of a call by number, in order.
fn logged_arguments(logged: &mut Logged) -> [&mut Vec<u8>; 4] {
    let Logged { log, question } = logged;
    [&mut log.left, &mut log.right, &mut log.run, question]
}

/// The lent arguments of a call by halves, in order.
fn given_arguments(given: &mut Given) -> [&mut Vec<u8>; 5] {
    let Given {
        halves: it,
        question,
    } = given;
    [
        &mut it.left,
        &mut it.right,
        &mut it.left_half,
        &mut it.right_half,
        question,
    ]
}

/// A point at which both halves of a sound call may stop.
fn some_stop(random: &mut Random, given: &Given) -> Stop {
    let steps = (given.halves.left_half.len() - 1) / 2;
    Stop {
        side: random.byte(0, 2),
        point: random.from_to(0, steps),
    }
}

/// Asks with every value of every byte of every argument, which are the same afterwards.
fn every_value<Call, const N: usize>(
    call: &mut Call,
    arguments: fn(&mut Call) -> [&mut Vec<u8>; N],
    mut ask: impl FnMut(&Call),
) {
    for place in 0..N {
        for at in 0..arguments(call)[place].len() {
            let kept = arguments(call)[place][at];
            for value in 0..=255 {
                arguments(call)[place][at] = value;
                ask(call);
            }
            arguments(call)[place][at] = kept;
        }
    }
}

/// Every value of every byte of every argument of small calls by halves, and every k and side.
#[test]
fn every_change_of_one_byte_by_halves() {
    let mut tally = Tally::new("every one-byte change of quotients by halves");
    let mut random = Random::new(211);
    for _ in 0..24 {
        let mut given = small_given(&mut random);
        let stop = some_stop(&mut random, &given);
        let mut ask = |given: &Given, stop: Stop| {
            tally.note(number_of(&quotient_both(given, stop, ROOM)));
            tally.note(number_of(&office_both(given, stop)));
        };
        every_value(&mut given, given_arguments, |it| ask(it, stop));
        for value in 0..=255 {
            ask(
                &given,
                Stop {
                    side: value,
                    ..stop
                },
            );
            let mut other = given.clone();
            other.halves.k = value;
            ask(&other, stop);
        }
    }
    tally.at_least(200, &[0, 4, 5, 6, 9, 15, 16]);
}

/// Every value of every byte of every argument of small calls by number, and every k and side.
#[test]
fn every_change_of_one_byte_by_number() {
    let mut tally = Tally::new("every one-byte change of quotients by number");
    let mut random = Random::new(212);
    for _ in 0..24 {
        let mut logged = small_logged(&mut random);
        let number = random.below(count_both(&logged.log).unwrap());
        let stop = Stop {
            side: random.byte(0, 2),
            point: random.from_to(0, logged.log.steps()),
        };
        let mut ask = |logged: &Logged, stop: Stop| {
            tally.note(number_of(&numbered_both(logged, number, stop, ROOM)));
        };
        every_value(&mut logged, logged_arguments, |it| ask(it, stop));
        for value in 0..=255 {
            ask(
                &logged,
                Stop {
                    side: value,
                    ..stop
                },
            );
            let mut other = logged.clone();
            other.log.k = value;
            ask(&other, stop);
        }
    }
    tally.at_least(200, &[0, 4, 5, 6, 8, 9]);
}

/// One to three damaged arguments, points around the end, and outputs that fit or not, by halves.
#[test]
fn damaged_by_halves() {
    let mut tally = Tally::new("damaged quotients by halves");
    let mut random = Random::new(213);
    for _ in 0..30_000 {
        let mut given = small_given(&mut random);
        let steps = (given.halves.left_half.len() - 1) / 2;
        for _ in 0..random.from_to(0, 3) {
            let argument = random.below(5);
            damage(&mut random, given_arguments(&mut given)[argument]);
        }
        if random.once_in(8) {
            given.halves.k = random.byte(0, 20);
        }
        let stop = Stop {
            side: *random.pick(&SIDES),
            point: random.from_to(0, steps + 1),
        };
        let room = *random.pick(&[0, 3, 4, 10, ROOM, ROOM]);
        tally.note(number_of(&quotient_both(&given, stop, room)));
        tally.note(number_of(&office_both(&given, stop)));
    }
    tally.at_least(50, &[0, 3, 4, 5, 6, 9, 12, 15, 16, 18]);
}

/// One to three damaged arguments, numbers and points around the end, and outputs that fit or not, by number.
#[test]
fn damaged_by_number() {
    let mut tally = Tally::new("damaged quotients by number");
    let mut random = Random::new(214);
    for _ in 0..30_000 {
        let mut logged = small_logged(&mut random);
        let steps = logged.log.steps();
        for _ in 0..random.from_to(0, 3) {
            let argument = random.below(4);
            damage(&mut random, logged_arguments(&mut logged)[argument]);
        }
        if random.once_in(8) {
            logged.log.k = random.byte(0, 20);
        }
        let stop = Stop {
            side: *random.pick(&SIDES),
            point: random.from_to(0, steps + 1),
        };
        let (number, room) = (random.below(4), *random.pick(&[0, 3, 4, 10, ROOM, ROOM]));
        tally.note(number_of(&numbered_both(&logged, number, stop, room)));
    }
    tally.at_least(50, &[0, 3, 4, 5, 6, 8, 9, 12, 14, 18]);
}

/// Large calls with a changed byte somewhere.
#[test]
fn changed_large_calls() {
    let mut tally = Tally::new("large quotients with one byte changed");
    let mut random = Random::new(215);
    for seed in 0..1500 {
        let shape = large_shape(&mut random, seed);
        let log = many_ways(&mut random, shape, 65_535);
        let number = random.below(count_both(&log).unwrap());
        let nodes = random.from_to(1, 30);
        let mut logged = with_question(&mut random, log, nodes);
        let mut given = logged.with(random_halves(&mut random, &logged.log));
        let stop = some_stop(&mut random, &given);
        change_one(&mut random, given_arguments(&mut given));
        tally.note(number_of(&quotient_both(&given, stop, LARGEST)));
        tally.note(number_of(&office_both(&given, stop)));
        change_one(&mut random, logged_arguments(&mut logged));
        tally.note(number_of(&numbered_both(&logged, number, stop, LARGEST)));
    }
    tally.at_least(10, &[0, 5, 6, 8, 9, 14, 15, 16]);
}

/// Every choice of empty arguments: the first of them in the order judged gives the number.
#[test]
fn empty_arguments() {
    let mut tally = Tally::new("empty arguments of quotients");
    let mut random = Random::new(216);
    for round in 0..96u32 {
        let mut logged = small_logged(&mut random);
        let mut given = logged.with(random_halves(&mut random, &logged.log));
        let stop = Stop {
            side: (round % 3) as u8,
            point: 0,
        };
        let chosen = round / 3;
        let empty = |argument: usize| chosen >> argument & 1 == 1;
        for (argument, bytes) in logged_arguments(&mut logged).into_iter().enumerate() {
            if empty(argument) {
                bytes.clear();
            }
        }
        for (argument, bytes) in given_arguments(&mut given).into_iter().enumerate() {
            if empty(argument) {
                bytes.clear();
            }
        }
        let by_number = first_empty(&[(0, 3), (1, 3), (2, 3), (3, 9)], empty);
        let (known, other) = if stop.knows_left() { (2, 3) } else { (3, 2) };
        let order = [(0, 3), (1, 3), (4, 9), (known, 12), (other, 15)];
        let by_halves = first_empty(&order, empty);
        let numbered = numbered_both(&logged, 0, stop, LARGEST);
        assert_eq!(number_of(&numbered), by_number);
        let quotient = quotient_both(&given, stop, LARGEST);
        assert_eq!(number_of(&quotient), by_halves);
        assert_eq!(number_of(&office_both(&given, stop)), by_halves);
        tally.note(by_number);
        tally.note(by_halves);
    }
    tally.saw_exactly(&[0, 3, 9, 12, 15]);
}

/// Every point near the end and many far ones: 12 exactly beyond the last step, by halves and by number.
#[test]
fn points_at_and_past_the_end() {
    let mut tally = Tally::new("quotients at, one past and far past the end");
    let mut random = Random::new(217);
    for round in 0..28 {
        let mut shape = small_shape(&mut random, round);
        shape.steps = [0, 1, 2, 3, 4, 199, 200][round % 7];
        let log = many_ways(&mut random, shape, 40);
        let logged = with_question(&mut random, log, 3);
        let given = logged.with(random_halves(&mut random, &logged.log));
        let near = shape.steps.saturating_sub(2)..shape.steps + 4;
        for point in near.chain(far_points()) {
            let side = random.byte(0, 2);
            let stop = Stop { side, point };
            let number = if point > shape.steps { 12 } else { 0 };
            let numbers = [
                number_of(&quotient_both(&given, stop, ROOM)),
                number_of(&numbered_both(&logged, 0, stop, ROOM)),
                number_of(&office_both(&given, stop)),
            ];
            assert_eq!(numbers, [number; 3], "{point} of {}", shape.steps);
            tally.note(number);
        }
    }
    tally.saw_exactly(&[0, 12]);
}

/// Halves of every two lengths: 12 looks at the known one alone, 15 at both, 16 at their being equally long.
#[test]
fn halves_of_all_lengths() {
    let mut tally = Tally::new("quotients by halves of all lengths");
    let idles = [vec![0], [255, 0].repeat(300)].concat();
    let lengths: Vec<usize> = (0..8).chain(396..408).chain([600, 601]).collect();
    for known in &lengths {
        for other in &lengths {
            for point in [0, 1, 3, 199, 200, 201, 300] {
                let number = match (known % 2, other % 2) {
                    (0, _) => 12,
                    _ if point > (known - 1) / 2 => 12,
                    _ if *known > 401 => 15,
                    (_, 0) => 15,
                    _ if *other > 401 => 15,
                    _ if known != other => 16,
                    _ => 0,
                };
                both_sides(&idles, [*known, *other], point, number);
                tally.note(number);
            }
        }
    }
    tally.saw_exactly(&[0, 12, 15, 16]);
}

/// Demands this number of halves of idles, the known one and the other one so long, with either side known and with
/// none named.
fn both_sides(idles: &[u8], [known, other]: [usize; 2], point: usize, number: u8) {
    for side in [0, 1, 2] {
        let stop = Stop { side, point };
        let [left, right] = if stop.knows_left() {
            [known, other]
        } else {
            [other, known]
        };
        let log = Log {
            k: 0,
            left: vec![1],
            right: vec![1],
            run: vec![0, 0],
        };
        let question = vec![8, 0, 0, 0];
        let given = Logged { log, question }.with([left, right].map(|end| idles[..end].to_vec()));
        let about = format!("{known} {other} {side} {point}");
        let quotient = quotient_both(&given, stop, 5);
        assert_eq!(number_of(&quotient), number, "{about}");
        assert_eq!(number_of(&office_both(&given, stop)), number, "{about}");
    }
}

/// Machines that only idle, with one of the arguments so long, sound as far as it goes: left, right, log, question.
fn of_length(size: usize) -> [Logged; 4] {
    let log = Log {
        k: 0,
        left: vec![1],
        right: vec![1],
        run: vec![0, 0],
    };
    let question = vec![0, 0];
    let mut logged = [(); 4].map(|_| Logged {
        log: log.clone(),
        question: question.clone(),
    });
    let rows = (0..64).flat_map(|from| (0..8).flat_map(move |to| [from, 0, to]));
    let mut table: Vec<u8> = [64].into_iter().chain(rows).collect();
    table.resize(size, 0);
    logged[0].log.left = table.clone();
    logged[1].log.right = table;
    let steps = [255, 0, 0].repeat(size / 3 + 1);
    logged[2].log.run = [0, 0].into_iter().chain(steps).take(size).collect();
    let nots = [2, 0].repeat(size / 2).into_iter();
    logged[3].question = nots.skip(2).chain([0, 0, 0]).take(size).collect();
    logged
}

/// Tables, logs and questions of every length up to 1,700 bytes and some far longer.
#[test]
fn arguments_of_every_length() {
    let mut tally = Tally::new("quotients with arguments of every length");
    for size in (0..=1700).chain([4096, 65_537, 65_538, 131_074, 1 << 20]) {
        for logged in of_length(size) {
            let stop = Stop { side: 0, point: 0 };
            tally.note(number_of(&numbered_both(&logged, 0, stop, 128)));
            let given = logged.with([vec![0], vec![0]]);
            tally.note(number_of(&quotient_both(&given, stop, 128)));
        }
    }
    // 0 to 512 rows on both sides and 64 questions, by number and by halves; 0 to 200 steps by number, and what stands
    // beside each log.
    assert_eq!(tally.of(0), 2 * (2 * 513 + 64) + 201 + 1706);
    tally.saw_exactly(&[0, 3, 9]);
}

/// Every output from empty to more than enough, and outputs whose length leaves 16 bits.
#[test]
fn every_room() {
    let mut tally = Tally::new("quotients in every room");
    let mut random = Random::new(218);
    for _ in 0..60 {
        let logged = small_logged(&mut random);
        let given = logged.with(random_halves(&mut random, &logged.log));
        let stop = some_stop(&mut random, &given);
        let Ok(answer) = quotient_both(&given, stop, LARGEST) else {
            continue;
        };
        let long = [65_535, 65_536, 65_537, 65_536 + answer.len()];
        for room in (0..answer.len() + 20).chain(long) {
            let expected = if room < answer.len() { 18 } else { 0 };
            let quotient = quotient_both(&given, stop, room);
            assert_eq!(number_of(&quotient), expected, "{room}");
            tally.note(expected);
        }
    }
    tally.saw_exactly(&[0, 18]);
}
