//! Splittings of sound logs of all sizes: every number of short logs, many numbers of long ones, outputs of all sizes.

use crate::both::{number_of, Tally};
use crate::splitting_both::{
    count_both, every_splitting, join_both, joins_back, ranks, split_both, split_exactly, Log,
};
use crate::splitting_logs::{large_shape, many_ways, small_shape};
use reference::label::IDLE;
use reference::random::Random;

/// Numbers at the ends, in the middle and at random, all below the count.
fn numbers_below(random: &mut Random, count: usize) -> Vec<usize> {
    let mut numbers = vec![0, count / 2, count - 1];
    numbers.extend((0..4).map(|_| random.below(count)));
    numbers
}

/// Numbers not below the count, near and far; many would be small if a high part were lost.
pub fn numbers_beyond(count: usize) -> Vec<usize> {
    let mut numbers = vec![count, count + 1, 65_535, 65_536, usize::MAX, usize::MAX / 2];
    for turn in [1 << 16, 1 << 31, 1 << 32, 1 << 48, 1 << 63] {
        numbers.extend([turn, turn + 1, turn + count - 1, turn - 1]);
    }
    numbers.retain(|number| *number >= count);
    numbers
}

/// Demands the refusal of every number that is not below the count, whatever the outputs.
fn beyond_is_refused(log: &Log, count: usize, tally: &mut Tally) {
    let exact = log.half_length();
    for number in numbers_beyond(count) {
        for room in [[exact; 2], [0; 2]] {
            assert_eq!(split_both(log, number, room), Err(14), "{number}");
            tally.note(14);
        }
    }
}

/// Every splitting of short logs, and numbers beyond.
#[test]
fn every_number_of_short_logs() {
    let mut tally = Tally::new("splittings of short logs, every number");
    let mut random = Random::new(111);
    for seed in 0..4000 {
        let mut shape = small_shape(&mut random, seed);
        shape.steps = random.from_to(0, 6);
        let log = many_ways(&mut random, shape, 64);
        let count = every_splitting(&log).len();
        (0..count).for_each(|_| tally.note(0));
        beyond_is_refused(&log, count, &mut tally);
    }
    tally.at_least(30_000, &[0, 14]);
}

/// Every one of up to some thousand splittings of a few logs.
#[test]
fn every_number_of_large_counts() {
    let mut tally = Tally::new("splittings of logs with many, every number");
    let mut random = Random::new(112);
    for seed in 0..48 {
        let mut shape = large_shape(&mut random, seed);
        shape.steps = random.from_to(8, 40);
        let most = *random.pick(&[500, 2000, 8000]);
        let log = many_ways(&mut random, shape, most);
        every_splitting(&log).iter().for_each(|_| tally.note(0));
    }
    tally.at_least(20_000, &[0]);
}

/// Logs of up to 200 steps on machines of up to 64 states and 8 rows each.
#[test]
fn many_numbers_of_long_logs() {
    let mut tally = Tally::new("splittings of long logs");
    let mut random = Random::new(113);
    let mut counts = Vec::new();
    for seed in 0..1500 {
        let mut shape = large_shape(&mut random, seed);
        if seed % 5 == 0 {
            shape.steps = [0, 1, 199, 200][seed / 5 % 4];
        }
        let most = *random.pick(&[1, 30, 1000, 65_535, 65_535]);
        let log = many_ways(&mut random, shape, most);
        let count = count_both(&log).unwrap();
        for number in numbers_below(&mut random, count) {
            let halves = split_exactly(&log, number).unwrap();
            joins_back(&log, &halves);
            tally.note(0);
        }
        for number in [count, *random.pick(&numbers_beyond(count))] {
            assert_eq!(split_exactly(&log, number), Err(14), "{number}");
            tally.note(14);
        }
        counts.push(count);
    }
    let large = counts.iter().filter(|count| **count > 20_000).count();
    assert!(large > 200, "{large} logs with over 20,000 splittings");
    tally.at_least(3000, &[0, 14]);
}

/// Logs that go on past 65,535 splittings: 13 by count and by every number, and halves still join to them.
#[test]
fn logs_with_too_many() {
    let mut tally = Tally::new("splittings of logs that have over 65,535");
    let mut random = Random::new(114);
    for seed in 0..1200 {
        let mut shape = large_shape(&mut random, seed);
        shape.steps = random.from_to(10, 200);
        let log = many_ways(&mut random, shape, usize::MAX >> 8);
        let counted = count_both(&log);
        tally.note(number_of(&counted));
        let exact = log.half_length();
        for number in [0, 1, 65_534, 65_535, 65_536, usize::MAX] {
            for room in [exact, 0] {
                let split = split_both(&log, number, [room; 2]);
                assert!(counted.is_ok() || split == Err(13), "{log:?}");
                tally.note(number_of(&split));
            }
        }
    }
    tally.at_least(3000, &[13]);
}

/// Outputs that are empty, one byte long, one byte short, exact, one byte longer and much longer.
fn rooms(exact: usize) -> [usize; 7] {
    [0, 1, exact / 2, exact - 1, exact, exact + 1, exact + 300]
}

/// Every pair of outputs: 18 exactly if either is too short, and then neither is touched.
#[test]
fn outputs_of_all_sizes() {
    let mut tally = Tally::new("splittings into outputs of all sizes");
    let mut random = Random::new(115);
    for seed in 0..700 {
        let mut shape = large_shape(&mut random, seed);
        shape.steps = [0, 1, 2, 3, 7, 60, 199, 200][seed / 4 % 8];
        let log = many_ways(&mut random, shape, 65_535);
        let number = random.below(count_both(&log).unwrap());
        let exact = log.half_length();
        for left in rooms(exact) {
            for right in rooms(exact) {
                let split = split_both(&log, number, [left, right]);
                let short = left < exact || right < exact;
                assert_eq!(number_of(&split), if short { 18 } else { 0 });
                tally.note(number_of(&split));
            }
        }
    }
    tally.saw_exactly(&[0, 18]);
}

/// Every output from empty to more than enough, on either side, and outputs whose length leaves 16 bits.
#[test]
fn every_room_for_a_short_log() {
    let mut tally = Tally::new("a short log split and joined in every room");
    let mut random = Random::new(116);
    let mut shape = small_shape(&mut random, 2);
    shape.steps = 4;
    let log = many_ways(&mut random, shape, 100);
    let long = [65_535, 65_536, 65_537, 65_536 + 9, 1 << 20];
    for left in (0..=20).chain(long) {
        for right in (0..=20).chain(long) {
            let split = split_both(&log, 0, [left, right]);
            let number = if left < 9 || right < 9 { 18 } else { 0 };
            assert_eq!(number_of(&split), number, "{left} {right}");
            tally.note(number);
        }
    }
    let halves = log.halves(split_exactly(&log, 0).unwrap());
    for room in (0..=40).chain(long) {
        let joined = join_both(&halves, room);
        let number = if room < 14 { 18 } else { 0 };
        assert_eq!(number_of(&joined), number, "{room}");
        tally.note(number);
    }
    tally.saw_exactly(&[0, 18]);
}

/// A machine beside itself, also with one slice lent as both tables.
#[test]
fn one_table_lent_as_both() {
    let mut tally = Tally::new("splittings of a machine beside itself");
    let mut random = Random::new(117);
    for seed in 0..400 {
        let shape = small_shape(&mut random, seed);
        let log = many_ways(&mut random, shape, 60);
        // Only what stays of the log: its steps may not be real on the new right machine.
        let twin = Log {
            right: log.left.clone(),
            ..log
        };
        let counted = count_both(&twin);
        let (table, run) = (&twin.left, &twin.run);
        let same = yenuslap::count_splittings(twin.k, table, table, run);
        assert_eq!(same.ok(), counted.ok(), "{twin:?}");
        if counted.is_ok() {
            every_splitting(&twin);
        }
        tally.note(number_of(&counted));
    }
    tally.at_least(50, &[0, 8]);
}

/// What the logs reach: each kind of way, looping or not, at steps with one way and with several.
#[test]
fn logs_reach_every_kind_of_way() {
    let mut random = Random::new(118);
    let mut seen = [[0; 4]; 5];
    for seed in 0..1500 {
        let shape = large_shape(&mut random, seed);
        let log = many_ways(&mut random, shape, 65_535);
        let number = random.below(count_both(&log).unwrap());
        let halves = split_exactly(&log, number).unwrap();
        for (at, rank) in ranks(&halves).into_iter().enumerate() {
            let [left, right] = halves.each_ref().map(|half| &half[2 * at..2 * at + 3]);
            let loops = [left, right].map(|half| usize::from(half[0] == half[2]));
            let kind = match rank {
                0 => 0,
                1 => 1,
                2 => 2,
                odd if odd % 2 == 1 => 3,
                _ => 4,
            };
            assert_eq!(kind == 0, log.run[2 + 3 * at] == IDLE);
            seen[kind][loops[0] + 2 * loops[1]] += 1;
        }
    }
    // Joint idles and steps alone keep the states of those who idle; in a handshake either may loop.
    let possible = [
        [false, false, false, true],
        [false, false, true, true],
        [false, true, false, true],
        [true; 4],
        [true; 4],
    ];
    for (kind, counts) in seen.into_iter().enumerate() {
        for (loops, count) in counts.into_iter().enumerate() {
            assert_eq!(count > 50, possible[kind][loops], "{seen:?}");
        }
    }
}
