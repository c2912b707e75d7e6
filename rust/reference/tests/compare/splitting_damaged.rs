//! Splittings and joins of damaged, cut, random and empty arguments.

use crate::both::{number_of, Tally};
use crate::splitting_both::{
    count_both, join_both, join_exactly, split_both, split_exactly, Halves, Log,
};
use crate::splitting_logs::{large_shape, many_ways, random_halves, small_shape};
use crate::verdict_damaged::{change_one, damage};
use reference::random::Random;

/// A small log with a few splittings.
fn small_log(random: &mut Random) -> Log {
    let seed = random.below(96);
    let shape = small_shape(random, seed);
    many_ways(random, shape, 40)
}

/// A log with eight rows from one state, looping handshakes, and an idle.
fn log_at_the_limits() -> Log {
    let mut left = vec![8];
    left.extend((0..8).flat_map(|to| [0, 0, to]));
    left.extend([1, 1, 1, 1, 1, 2]);
    Log {
        k: 1,
        left,
        right: vec![2, 0, 0, 0, 0, 1, 1, 0, 2, 0, 1, 2, 1],
        run: vec![0, 0, 0, 0, 0, 0, 1, 0, 0, 1, 0, 1, 1, 1, 255, 1, 1],
    }
}

/// The lent arguments of a count or split, in order.
fn log_arguments(log: &mut Log) -> [&mut Vec<u8>; 3] {
    let Log {
        left, right, run, ..
    } = log;
    [left, right, run]
}

/// The lent arguments of a join, in order.
fn join_arguments(halves: &mut Halves) -> [&mut Vec<u8>; 4] {
    let Halves {
        left,
        right,
        left_half,
        right_half,
        ..
    } = halves;
    [left, right, left_half, right_half]
}

/// Every value of every byte of every argument of small logs, and every k.
#[test]
fn every_change_of_one_byte_of_logs() {
    let mut tally = Tally::new("every one-byte change of logs, counted and split");
    let mut random = Random::new(151);
    let mut logs = vec![log_at_the_limits()];
    logs.extend((0..28).map(|_| small_log(&mut random)));
    for mut log in logs {
        let number = random.below(count_both(&log).unwrap());
        let mut ask = |log: &Log| {
            tally.note(number_of(&count_both(log)));
            tally.note(number_of(&split_exactly(log, number)));
        };
        for argument in 0..3 {
            for at in 0..log_arguments(&mut log)[argument].len() {
                let kept = log_arguments(&mut log)[argument][at];
                for value in 0..=255 {
                    log_arguments(&mut log)[argument][at] = value;
                    ask(&log);
                }
                log_arguments(&mut log)[argument][at] = kept;
            }
        }
        for k in 0..=255 {
            log.k = k;
            ask(&log);
        }
    }
    tally.saw_exactly(&[0, 4, 5, 6, 7, 8, 14]);
}

/// Every value of every byte of every argument of small joins, and every k.
#[test]
fn every_change_of_one_byte_of_joins() {
    let mut tally = Tally::new("every one-byte change of joins");
    let mut random = Random::new(152);
    let mut logs = vec![log_at_the_limits()];
    logs.extend((0..48).map(|_| small_log(&mut random)));
    for log in logs {
        let mut halves = log.halves(random_halves(&mut random, &log));
        for argument in 0..4 {
            for at in 0..join_arguments(&mut halves)[argument].len() {
                let kept = join_arguments(&mut halves)[argument][at];
                for value in 0..=255 {
                    join_arguments(&mut halves)[argument][at] = value;
                    tally.note(number_of(&join_exactly(&halves)));
                }
                join_arguments(&mut halves)[argument][at] = kept;
            }
        }
        for k in 0..=255 {
            halves.k = k;
            tally.note(number_of(&join_exactly(&halves)));
        }
    }
    tally.saw_exactly(&[0, 4, 5, 6, 7, 15, 16]);
}

/// One to three damaged arguments of a log, numbers and outputs that fit or not.
#[test]
fn damaged_logs() {
    let mut tally = Tally::new("damaged logs, counted and split");
    let mut random = Random::new(153);
    for _ in 0..40_000 {
        let mut log = small_log(&mut random);
        let exact = log.half_length();
        for _ in 0..random.from_to(0, 3) {
            let argument = random.below(3);
            damage(&mut random, log_arguments(&mut log)[argument]);
        }
        if random.once_in(8) {
            log.k = random.byte(0, 20);
        }
        tally.note(number_of(&count_both(&log)));
        let number = random.below(6);
        let room = [0, 1].map(|_| exact + 1 - random.from_to(0, 2));
        tally.note(number_of(&split_both(&log, number, room)));
    }
    tally.at_least(50, &[0, 3, 4, 5, 6, 8, 14, 18]);
}

/// One to three damaged arguments of a join, outputs that fit or not.
#[test]
fn damaged_joins() {
    let mut tally = Tally::new("damaged joins");
    let mut random = Random::new(154);
    for _ in 0..60_000 {
        let log = small_log(&mut random);
        let mut halves = log.halves(random_halves(&mut random, &log));
        for _ in 0..random.from_to(0, 3) {
            let argument = random.below(4);
            damage(&mut random, join_arguments(&mut halves)[argument]);
        }
        if random.once_in(8) {
            halves.k = random.byte(0, 20);
        }
        let room = log.run.len() + 1 - random.from_to(0, 2);
        tally.note(number_of(&join_both(&halves, room)));
    }
    tally.at_least(50, &[0, 3, 4, 5, 6, 15, 16, 18]);
}

/// Large calls with a changed byte somewhere.
#[test]
fn changed_large_calls() {
    let mut tally = Tally::new("large logs and joins with one byte changed");
    let mut random = Random::new(155);
    for seed in 0..4000 {
        let shape = large_shape(&mut random, seed);
        let mut log = many_ways(&mut random, shape, 65_535);
        let number = random.below(count_both(&log).unwrap());
        let mut halves = log.halves(random_halves(&mut random, &log));
        change_one(&mut random, join_arguments(&mut halves));
        tally.note(number_of(&join_exactly(&halves)));
        change_one(&mut random, log_arguments(&mut log));
        tally.note(number_of(&count_both(&log)));
        tally.note(number_of(&split_exactly(&log, number)));
    }
    tally.at_least(20, &[0, 5, 6, 8, 14, 15, 16]);
}

/// Every choice of empty arguments: the first of them in the order judged gives the number.
#[test]
fn empty_arguments() {
    let mut tally = Tally::new("empty arguments of splits and joins");
    let mut random = Random::new(156);
    for round in 0..64u32 {
        let mut log = small_log(&mut random);
        let mut halves = log.halves(random_halves(&mut random, &log));
        let empty = |argument: usize| round >> argument & 1 == 1;
        for (argument, bytes) in log_arguments(&mut log).into_iter().enumerate() {
            if empty(argument) {
                bytes.clear();
            }
        }
        for (argument, bytes) in join_arguments(&mut halves).into_iter().enumerate() {
            if empty(argument) {
                bytes.clear();
            }
        }
        let of_log = if (0..3).any(empty) { 3 } else { 0 };
        assert_eq!(number_of(&count_both(&log)), of_log);
        assert_eq!(number_of(&split_both(&log, 0, [401; 2])), of_log);
        let of_join = match (0..4).find(|argument| empty(*argument)) {
            Some(0 | 1) => 3,
            Some(_) => 15,
            None => 0,
        };
        assert_eq!(number_of(&join_both(&halves, 602)), of_join);
        tally.note(of_log);
        tally.note(of_join);
    }
    tally.saw_exactly(&[0, 3, 15]);
}

/// Tables and logs of every length up to 1,700 bytes and some far longer, sound as far as they go.
#[test]
fn arguments_of_every_length() {
    let mut tally = Tally::new("splits and joins with arguments of every length");
    let rows: Vec<u8> = (0..64u8)
        .flat_map(|from| (0..8).flat_map(move |to| [from, 0, to]))
        .collect();
    let still = Log {
        k: 0,
        left: vec![1],
        right: vec![1],
        run: vec![0, 0],
    };
    for size in (0..=1700).chain([4096, 65_537, 65_538, 131_074, 1 << 20]) {
        let mut table = [vec![64], rows.clone()].concat();
        table.resize(size, 0);
        let mut run = [vec![0, 0], [255, 0, 0].repeat(size / 3 + 1)].concat();
        run.truncate(size);
        let left = Log {
            left: table.clone(),
            ..still.clone()
        };
        let right = Log {
            right: table,
            ..still.clone()
        };
        let long = Log {
            run,
            ..still.clone()
        };
        for log in [left, right, long] {
            let number = number_of(&count_both(&log));
            assert_eq!(number_of(&split_both(&log, 0, [450; 2])), number);
            tally.note(number);
            let joined = join_both(&log.halves([vec![0], vec![0]]), 2);
            tally.note(number_of(&joined));
        }
    }
    // 0 to 512 rows, counted and joined, on both sides; 0 to 200 steps, counted, and the joins beside each log.
    assert_eq!(tally.of(0), 2 * 2 * 513 + 201 + 1706);
    tally.saw_exactly(&[0, 3]);
}
