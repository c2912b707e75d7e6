//! Verdicts of damaged, cut and random arguments, of empty ones, and at every kind of point.

use crate::both::{number_of, Tally};
use crate::verdict_both::{half_both, joint_both, HalfParts};
use crate::verdict_sound::{Pair, Single};
use reference::casebook::Parts;
use reference::generate::Shape;
use reference::random::Random;
use reference::Refusal;

/// A small joint call.
fn small_joint(random: &mut Random) -> (Parts, usize) {
    let shape = Shape::small(random);
    let pair = Pair::random(random, shape);
    let point = random.from_to(0, shape.steps);
    let formula = pair.fitted(random, point, shape.nodes);
    (pair.asks(&formula), point)
}

/// A small half call.
fn small_half(random: &mut Random) -> (HalfParts, usize) {
    let shape = Shape::small(random);
    let single = Single::random(random, shape);
    let point = random.from_to(0, shape.steps);
    let formula = single.fitted(random, point, shape.nodes);
    (single.asks(&formula), point)
}

/// The lent arguments of a joint call, in order.
fn joint_arguments(parts: &mut Parts) -> [&mut Vec<u8>; 4] {
    let Parts {
        left,
        right,
        run,
        question,
        ..
    } = parts;
    [left, right, run, question]
}

/// The lent arguments of a half call, in order.
fn half_arguments(parts: &mut HalfParts) -> [&mut Vec<u8>; 3] {
    let HalfParts {
        table,
        half,
        formula,
        ..
    } = parts;
    [table, half, formula]
}

/// A joint call with eight rows from one state, four nested forwards and several steps.
fn joint_at_the_limits() -> (Parts, usize) {
    let mut left = vec![8];
    left.extend((0..8).flat_map(|to| [0, 0, to]));
    left.extend([1, 1, 0]);
    let parts = Parts {
        k: 1,
        left,
        right: vec![2, 0, 1, 1, 0, 2, 1],
        run: vec![0, 0, 0, 7, 0, 1, 7, 1, 255, 7, 1],
        question: vec![8, 0, 6, 1, 5, 2, 7, 0, 5, 2, 7, 0, 2, 0, 0, 0],
    };
    (parts, 3)
}

/// Every other value of every byte of every argument of small joint calls, and every k.
#[test]
fn every_change_of_one_byte_of_joint_calls() {
    let mut tally = Tally::new("every one-byte change of joint calls");
    let mut random = Random::new(91);
    let mut calls = vec![joint_at_the_limits()];
    calls.extend((0..24).map(|_| small_joint(&mut random)));
    for (mut parts, point) in calls {
        for argument in 0..4 {
            for at in 0..joint_arguments(&mut parts)[argument].len() {
                let kept = joint_arguments(&mut parts)[argument][at];
                for value in 0..=255 {
                    joint_arguments(&mut parts)[argument][at] = value;
                    tally.note(number_of(&joint_both(&parts, point)));
                }
                joint_arguments(&mut parts)[argument][at] = kept;
            }
        }
        for k in 0..=255 {
            parts.k = k;
            tally.note(number_of(&joint_both(&parts, point)));
        }
    }
    tally.saw_exactly(&[0, 4, 5, 6, 7, 8, 9, 10]);
}

/// Every other value of every byte of every argument of small half calls, and every k.
#[test]
fn every_change_of_one_byte_of_half_calls() {
    let mut tally = Tally::new("every one-byte change of half calls");
    let mut random = Random::new(92);
    let (joint, point) = joint_at_the_limits();
    let half = vec![0, 0, 1, 1, 0, 255, 0];
    let limits = HalfParts {
        k: 1,
        table: joint.left,
        half,
        formula: joint.question,
    };
    let mut calls = vec![(limits, point)];
    calls.extend((0..36).map(|_| small_half(&mut random)));
    for (mut parts, point) in calls {
        for argument in 0..3 {
            for at in 0..half_arguments(&mut parts)[argument].len() {
                let kept = half_arguments(&mut parts)[argument][at];
                for value in 0..=255 {
                    half_arguments(&mut parts)[argument][at] = value;
                    tally.note(number_of(&half_both(&parts, point)));
                }
                half_arguments(&mut parts)[argument][at] = kept;
            }
        }
        for k in 0..=255 {
            parts.k = k;
            tally.note(number_of(&half_both(&parts, point)));
        }
    }
    tally.saw_exactly(&[0, 4, 5, 6, 7, 9, 10, 15]);
}

/// Damages one argument: bytes changed, cut off, added, taken out, or all of it random.
pub fn damage(random: &mut Random, bytes: &mut Vec<u8>) {
    let at = random.below(bytes.len() + 1);
    match random.below(6) {
        0 => bytes.truncate(at),
        1 => bytes.insert(at, random.byte(0, 9)),
        2 if at < bytes.len() => drop(bytes.remove(at)),
        3 => {
            let (count, most) = (random.from_to(0, 20), *random.pick(&[1, 3, 9, 255]));
            *bytes = (0..count).map(|_| random.byte(0, most)).collect();
        }
        4 => {
            let count = random.from_to(1, 4);
            bytes.extend(random.bytes(count));
        }
        _ if at < bytes.len() => bytes[at] = random.byte(0, 9),
        _ => bytes.push(0),
    }
}

/// One to three damaged arguments, points inside and around the end.
#[test]
fn damaged_joint_calls() {
    let mut tally = Tally::new("damaged joint calls");
    let mut random = Random::new(93);
    for _ in 0..40_000 {
        let (mut parts, mut point) = small_joint(&mut random);
        if random.once_in(16) {
            parts.question.splice(..0, [7, 0, 5, 0, 7, 0]);
        }
        for _ in 0..random.from_to(0, 3) {
            let argument = random.below(4);
            damage(&mut random, joint_arguments(&mut parts)[argument]);
        }
        if random.once_in(8) {
            parts.k = random.byte(0, 20);
        }
        if random.once_in(4) {
            point = random.from_to(0, 6);
        }
        tally.note(number_of(&joint_both(&parts, point)));
    }
    tally.at_least(50, &[0, 3, 4, 5, 6, 8, 9, 10, 12]);
}

/// One to three damaged arguments of half calls, points inside and around the end.
#[test]
fn damaged_half_calls() {
    let mut tally = Tally::new("damaged half calls");
    let mut random = Random::new(94);
    for _ in 0..40_000 {
        let (mut parts, mut point) = small_half(&mut random);
        if random.once_in(16) {
            parts.formula.splice(..0, [7, 0, 5, 0, 7, 0]);
        }
        for _ in 0..random.from_to(0, 3) {
            let argument = random.below(3);
            damage(&mut random, half_arguments(&mut parts)[argument]);
        }
        if random.once_in(8) {
            parts.k = random.byte(0, 20);
        }
        if random.once_in(4) {
            point = random.from_to(0, 6);
        }
        tally.note(number_of(&half_both(&parts, point)));
    }
    tally.at_least(50, &[0, 3, 4, 5, 6, 9, 10, 12, 15]);
}

/// Large calls with a changed byte somewhere.
#[test]
fn changed_large_calls() {
    let mut tally = Tally::new("large calls with one byte changed");
    let mut random = Random::new(95);
    for round in 0..1500 {
        let mut shape = Shape::any(&mut random);
        shape.k = (round % 16) as u8;
        let point = random.from_to(0, shape.steps);
        let pair = Pair::random(&mut random, shape);
        let mut joint = pair.asks(&pair.fitted(&mut random, point, 9));
        change_one(&mut random, joint_arguments(&mut joint));
        tally.note(number_of(&joint_both(&joint, point)));
        let single = Single::random(&mut random, shape);
        let mut half = single.asks(&single.fitted(&mut random, point, 9));
        change_one(&mut random, half_arguments(&mut half));
        tally.note(number_of(&half_both(&half, point)));
    }
    tally.at_least(20, &[0, 5, 6, 8, 9, 15]);
}

/// Changes one byte of one of these by a little.
pub fn change_one<const N: usize>(random: &mut Random, bytes: [&mut Vec<u8>; N]) {
    let (argument, change) = (random.below(N), *random.pick(&[1, 2, 255]));
    let at = random.below(bytes[argument].len());
    bytes[argument][at] = bytes[argument][at].wrapping_add(change);
}

/// Points that leave 8, 16, 32 or 64 bits, alone or times two or three; many would be small if a high part were lost.
pub fn far_points() -> Vec<usize> {
    let mut points = Vec::new();
    let turns = [
        1 << 8,
        1 << 16,
        1 << 31,
        1 << 32,
        1 << 62,
        1 << 63,
        usize::MAX / 2,
        usize::MAX / 3,
        usize::MAX / 3 * 2,
    ];
    for turn in turns {
        points.extend((0..6).map(|more| turn + more));
        points.extend((1..3).map(|less| turn - less));
    }
    points.extend((0..4).map(|less| usize::MAX - less));
    points
}

/// Every point near the end and many far ones: 12 exactly beyond the last step, whatever the formula.
#[test]
fn points_at_and_past_the_end() {
    let mut tally = Tally::new("points at, one past and far past the end");
    let mut random = Random::new(96);
    for round in 0..60 {
        let mut shape = Shape::small(&mut random);
        shape.steps = [0, 1, 2, 3, 4, 199, 200][round % 7];
        let pair = Pair::random(&mut random, shape);
        let joint = pair.asks(&pair.fitted(&mut random, shape.steps, 5));
        let single = Single::random(&mut random, shape);
        let half = single.asks(&single.fitted(&mut random, shape.steps, 5));
        let near = shape.steps.saturating_sub(2)..shape.steps + 4;
        for point in near.chain(far_points()) {
            let number = number_of(&joint_both(&joint, point));
            assert_eq!(number == 12, point > shape.steps, "{point}");
            assert_eq!(number_of(&half_both(&half, point)), number, "{point}");
            tally.note(number);
        }
    }
    tally.saw_exactly(&[0, 12]);
}

/// A half of even length has no points, whatever else is true of it.
#[test]
fn even_halves_have_no_points() {
    let mut tally = Tally::new("halves of even length");
    let mut random = Random::new(97);
    for length in (0..=420).step_by(2) {
        let idles = [vec![0], [255, 0].repeat(210)].concat();
        for half in [idles[..length].to_vec(), random.bytes(length)] {
            let parts = HalfParts {
                k: 0,
                table: vec![1],
                half,
                formula: vec![0, 0],
            };
            for point in [0, 1, length / 2, length / 2 + 1, usize::MAX] {
                let verdict = half_both(&parts, point);
                assert_eq!(verdict, Err(12), "{length} {point}");
                tally.note(12);
            }
        }
    }
    tally.saw_exactly(&[12]);
}

/// Every choice of empty arguments: the first of them in the order judged gives the number.
#[test]
fn empty_arguments() {
    let mut tally = Tally::new("empty arguments");
    let mut random = Random::new(98);
    for round in 0..64u32 {
        let (mut joint, point) = small_joint(&mut random);
        let (mut half, half_point) = small_half(&mut random);
        let empty = |argument: usize| round >> argument & 1 == 1;
        for (argument, bytes) in joint_arguments(&mut joint).into_iter().enumerate() {
            if empty(argument) {
                bytes.clear();
            }
        }
        for (argument, bytes) in half_arguments(&mut half).into_iter().enumerate() {
            if empty(argument) {
                bytes.clear();
            }
        }
        // Only the run's own length is judged with the tables' being sound; no argument is damaged otherwise.
        let joint_number = first_empty(&[(0, 3), (1, 3), (2, 3), (3, 9)], empty);
        let half_number = first_empty(&[(0, 3), (2, 9), (1, 12)], empty);
        assert_eq!(number_of(&joint_both(&joint, point)), joint_number);
        assert_eq!(number_of(&half_both(&half, half_point)), half_number);
        tally.note(joint_number);
        tally.note(half_number);
    }
    tally.saw_exactly(&[0, 3, 9, 12]);
}

/// The number of the first empty argument, 0 if there is none.
pub fn first_empty(order: &[(usize, Refusal)], empty: impl Fn(usize) -> bool) -> Refusal {
    let found = order.iter().find(|(argument, _)| empty(*argument));
    found.map_or(0, |(_, number)| *number)
}

/// Arguments of every length up to 1,700 bytes and some far longer, sound as far as they go.
#[test]
fn arguments_of_every_length() {
    let mut tally = Tally::new("verdicts of arguments of every length");
    let rows: Vec<u8> = (0..64u8)
        .flat_map(|from| (0..8).flat_map(move |to| [from, 0, to]))
        .collect();
    for size in (0..=1700).chain([4096, 65_537, 65_538, 131_074, 1 << 20]) {
        let mut table = [vec![64], rows.clone()].concat();
        table.resize(size, 0);
        let mut run = [vec![0, 0], [255, 0, 0].repeat(size / 3 + 1)].concat();
        run.truncate(size);
        let mut half = [vec![0], [255, 0].repeat(size / 2 + 1)].concat();
        half.truncate(size);
        let joint = |left: &[u8], right: &[u8], run: &[u8]| Parts {
            k: 0,
            left: left.to_vec(),
            right: right.to_vec(),
            run: run.to_vec(),
            question: vec![0, 0],
        };
        let single = |table: &[u8], half: &[u8]| HalfParts {
            k: 0,
            table: table.to_vec(),
            half: half.to_vec(),
            formula: vec![0, 0],
        };
        tally.note(number_of(&joint_both(&joint(&table, &[1], &[0, 0]), 0)));
        tally.note(number_of(&joint_both(&joint(&[1], &table, &[0, 0]), 0)));
        tally.note(number_of(&joint_both(&joint(&[1], &[1], &run), 0)));
        tally.note(number_of(&half_both(&single(&table, &[0]), 0)));
        tally.note(number_of(&half_both(&single(&[1], &half), 0)));
    }
    // 0 to 512 rows, three times; 0 to 200 steps, twice.
    assert_eq!(tally.of(0), 3 * 513 + 2 * 201);
    tally.saw_exactly(&[0, 3, 12, 15]);
}
