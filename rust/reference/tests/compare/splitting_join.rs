//! Joining: halves that match and halves that do not, of equal and of unequal length, and outputs of all sizes.

use crate::both::{number_of, Tally};
use crate::splitting_both::{join_both, join_exactly, joins_back, joint_length, Halves, Log};
use crate::splitting_logs::{large_shape, many_ways, random_halves, small_shape};
use reference::generate::{walk_half, Shape};
use reference::label::IDLE;
use reference::random::Random;
use reference::table::read_table;

/// A log of this shape; its machines are what joins need.
fn machines(random: &mut Random, shape: Shape) -> Log {
    many_ways(random, shape, usize::MAX >> 8)
}

/// A half run of each machine, walked without regard to the other.
fn walked(random: &mut Random, log: &Log, steps: [usize; 2]) -> Halves {
    let left = read_table(&log.left, log.k).unwrap();
    let right = read_table(&log.right, log.k).unwrap();
    log.halves([
        walk_half(random, &left, steps[0]).to_bytes(),
        walk_half(random, &right, steps[1]).to_bytes(),
    ])
}

/// Whether two half steps match, from their labels: an idle beside anything, or an odd label and the next one.
fn labels_match(left: u8, right: u8) -> bool {
    let pair = left.min(right);
    left == IDLE || right == IDLE || (pair % 2 == 1 && left.max(right) == pair + 1)
}

/// Whether two halves match, from their labels.
fn halves_match(halves: &Halves) -> bool {
    let (left, right) = (&halves.left_half, &halves.right_half);
    let mut steps = left[1..].chunks(2).zip(right[1..].chunks(2));
    left.len() == right.len() && steps.all(|(own, other)| labels_match(own[0], other[0]))
}

/// Halves walked apart: short ones sometimes match, long ones hardly ever.
#[test]
fn halves_walked_apart() {
    let mut tally = Tally::new("joins of halves walked apart");
    let mut random = Random::new(131);
    for seed in 0..30_000 {
        let mut shape = small_shape(&mut random, seed);
        if seed % 16 == 0 {
            shape = large_shape(&mut random, seed);
        }
        let log = machines(&mut random, shape);
        let steps = match seed % 16 {
            0 => random.from_to(0, 200),
            _ => random.from_to(0, 4),
        };
        let halves = walked(&mut random, &log, [steps; 2]);
        let joined = join_exactly(&halves);
        assert_eq!(joined.is_ok(), halves_match(&halves), "{halves:?}");
        tally.note(number_of(&joined));
    }
    tally.at_least(8000, &[0, 16]);
}

/// Halves of one log, and the same with a step of one half changed to another that its machine can take.
#[test]
fn halves_of_one_log() {
    let mut tally = Tally::new("joins of halves of one log, sound and with one step changed");
    let mut random = Random::new(132);
    for seed in 0..3000 {
        let mut shape = large_shape(&mut random, seed);
        shape.steps = random.from_to(1, [5, 20, 200][seed / 16 % 3]);
        let log = machines(&mut random, shape);
        let halves = random_halves(&mut random, &log);
        joins_back(&log, &halves);
        tally.note(0);
        let mut halves = log.halves(halves);
        if change_a_label(&mut random, &mut halves) {
            let joined = join_exactly(&halves);
            assert_eq!(joined.is_ok(), halves_match(&halves), "{halves:?}");
            tally.note(number_of(&joined));
        }
    }
    tally.at_least(1000, &[0, 16]);
}

/// Gives one step of a half another label under which its machine has the same step; false if there is none.
fn change_a_label(random: &mut Random, halves: &mut Halves) -> bool {
    let (table, half) = match random.below(2) {
        0 => (&halves.left, &mut halves.left_half),
        _ => (&halves.right, &mut halves.right_half),
    };
    let at = 1 + 2 * random.below((half.len() - 1) / 2);
    let (from, label, to) = (half[at - 1], half[at], half[at + 1]);
    let mut labels: Vec<u8> = if from == to { vec![IDLE] } else { vec![] };
    let rows = table[1..]
        .chunks(3)
        .filter(|row| (row[0], row[2]) == (from, to));
    labels.extend(rows.map(|row| row[1]));
    labels.retain(|other| *other != label);
    if labels.is_empty() {
        return false;
    }
    half[at] = *random.pick(&labels);
    true
}

/// Two one-state machines with one loop each.
fn two_loops(left: u8, right: u8) -> Log {
    Log {
        k: 15,
        left: vec![1, 0, left, 0],
        right: vec![1, 0, right, 0],
        run: vec![0, 0],
    }
}

/// Every pair of labels and idles, at the only step, at the first, in the middle and at the last: the label of the log
/// where they match, 16 where they do not.
#[test]
fn every_pair_of_labels() {
    let mut tally = Tally::new("joins of every pair of labels");
    let every = || (0..=30).chain([IDLE]);
    for left in every() {
        for right in every() {
            let log = two_loops(left.min(30), right.min(30));
            for (steps, at) in [(1, 0), (3, 0), (3, 1), (3, 2), (200, 0), (200, 199)] {
                let mut halves =
                    [vec![0], vec![0]].map(|half| [half, [IDLE, 0].repeat(steps)].concat());
                halves[0][1 + 2 * at] = left;
                halves[1][1 + 2 * at] = right;
                let joined = join_exactly(&log.halves(halves));
                let label = match (left, right) {
                    (IDLE, label) | (label, IDLE) => label,
                    _ => 0,
                };
                let mut run = [vec![0, 0], [IDLE, 0, 0].repeat(steps)].concat();
                run[2 + 3 * at] = label;
                let expected = labels_match(left, right).then_some(run).ok_or(16);
                assert_eq!(joined, expected, "{left} and {right} at {at} of {steps}");
                tally.note(number_of(&joined));
            }
        }
    }
    // 30 ordered pairs, and 63 with an idle.
    assert_eq!(tally.of(0), 6 * (30 + 63));
    tally.saw_exactly(&[0, 16]);
}

/// Halves of unequal length never match, also if all steps of the shorter one do.
#[test]
fn unequal_lengths() {
    let mut tally = Tally::new("joins of halves of unequal length");
    let mut random = Random::new(133);
    let mut lengths: Vec<[usize; 2]> = (0..64).map(|n| [n / 8, n % 8]).collect();
    lengths.extend([
        [199, 200],
        [200, 199],
        [0, 200],
        [200, 0],
        [100, 200],
        [128, 0],
    ]);
    lengths.retain(|[left, right]| left != right);
    for [left, right] in lengths {
        for seed in 0..12 {
            let mut shape = small_shape(&mut random, seed);
            shape.steps = left.max(right);
            let log = machines(&mut random, shape);
            let [mut left_half, mut right_half] = random_halves(&mut random, &log);
            left_half.truncate(1 + 2 * left);
            right_half.truncate(1 + 2 * right);
            let prefix = log.halves([left_half, right_half]);
            let apart = walked(&mut random, &log, [left, right]);
            for halves in [prefix, apart] {
                for room in [0, 2, joint_length(&halves), 602, 700] {
                    assert_eq!(join_both(&halves, room), Err(16), "{halves:?}");
                    tally.note(16);
                }
            }
        }
    }
    tally.saw_exactly(&[16]);
}

/// Halves of idles of every length, fit and unfit, beside each other and beside a fit one.
#[test]
fn halves_of_every_length() {
    let mut tally = Tally::new("joins of halves of every length");
    let log = two_loops(1, 2);
    let idles = [vec![0], [IDLE, 0].repeat(33_000)].concat();
    for length in (0..=420).chain([801, 802, 803, 65_535, 65_536, 65_537, 65_938]) {
        let half = idles[..length].to_vec();
        let fits = length % 2 == 1 && length <= 401;
        let both = join_both(&log.halves([half.clone(), half.clone()]), 700);
        assert_eq!(number_of(&both), if fits { 0 } else { 15 }, "{length}");
        tally.note(number_of(&both));
        for pair in [
            [half.clone(), idles[..3].to_vec()],
            [idles[..3].to_vec(), half],
        ] {
            let joined = join_both(&log.halves(pair), 700);
            let expected = match length {
                3 => 0,
                _ if fits => 16,
                _ => 15,
            };
            assert_eq!(number_of(&joined), expected, "{length}");
            tally.note(expected);
        }
    }
    assert_eq!(tally.of(0), 201 + 2);
    tally.saw_exactly(&[0, 15, 16]);
}

/// Outputs of all sizes: 18 exactly when the joint run does not fit, and then nothing is written.
#[test]
fn outputs_of_all_sizes() {
    let mut tally = Tally::new("joins into outputs of all sizes");
    let mut random = Random::new(134);
    for seed in 0..2400 {
        let mut shape = large_shape(&mut random, seed);
        shape.steps = [0, 1, 2, 3, 7, 60, 199, 200][seed / 4 % 8];
        let log = machines(&mut random, shape);
        let halves = log.halves(random_halves(&mut random, &log));
        let exact = joint_length(&halves);
        for room in [0, 1, 2, exact / 2, exact - 1, exact, exact + 1, exact + 300] {
            let joined = join_both(&halves, room);
            let expected = if room < exact { Err(18) } else { Ok(&log.run) };
            assert_eq!(joined.as_ref().map_err(|n| *n), expected, "{room}");
            tally.note(number_of(&joined));
        }
    }
    tally.saw_exactly(&[0, 18]);
}

/// Halves that start elsewhere than the log did join all the same: the starts are theirs.
#[test]
fn every_pair_of_starts() {
    let mut tally = Tally::new("joins from every pair of starts");
    for states in [1u8, 2, 63, 64] {
        let log = Log {
            k: 0,
            left: vec![states],
            right: vec![64],
            run: vec![0, 0],
        };
        for left in 0..=70 {
            for right in (0..=70).chain([128, 255]) {
                let halves = log.halves([vec![left], vec![right]]);
                let joined = join_exactly(&halves);
                let inside = left < states && right < 64;
                let expected = inside.then_some(vec![left, right]).ok_or(15);
                assert_eq!(joined, expected);
                tally.note(number_of(&joined));
            }
        }
    }
    tally.saw_exactly(&[0, 15]);
}
