//! Sheets of sound casebooks of every kind.

use crate::inputs::{
    back_along, looping, loops, made_to_measure, some_two_way, times, AHEAD, NOT, TRUE,
};
use crate::program::{agree, Seen};
use reference::casebook::Parts;
use reference::generate::{many_ways_parts, Shape};
use reference::label::partner;
use reference::random::Random;

/// Few states and up to eight rows from each, any k in turn, so that steps have one to nine ways.
fn small_shape(random: &mut Random, seed: usize) -> Shape {
    let mut shape = Shape::small(random);
    if seed.is_multiple_of(3) {
        shape.k = (seed / 3 % 16) as u8;
    }
    shape.rows = random.from_to(0, 8);
    shape.steps = random.from_to(0, 8);
    shape.nodes = random.from_to(1, 16);
    shape
}

/// Short logs on little machines, with questions that look along them.
#[test]
fn little_machines() {
    let mut seen = Seen::new("short logs on little machines");
    let mut random = Random::new(401);
    for seed in 0..1800 {
        let shape = small_shape(&mut random, seed);
        let most = *random.pick(&[1, 8, 60, 400]);
        seen.compare(&many_ways_parts(&mut random, shape, most).to_bytes());
    }
    seen.at_least(100_000);
    assert!(seen.too_large > 20);
}

/// Logs and machines of all sizes up to the limits, up to 200 steps.
#[test]
fn all_sizes() {
    let mut seen = Seen::new("logs and machines of all sizes");
    let mut random = Random::new(402);
    for seed in 0..240 {
        let mut shape = match seed % 6 {
            0 => Shape::maximal((seed / 6 % 16) as u8),
            _ => Shape::any(&mut random),
        };
        if seed % 3 == 1 {
            (shape.left_states, shape.right_states) = (random.byte(1, 3), random.byte(1, 3));
        }
        if seed % 7 == 0 {
            shape.steps = [0, 1, 199, 200][seed / 7 % 4];
        }
        let most = *random.pick(&[1, 2, 9, 40]);
        seen.compare(&many_ways_parts(&mut random, shape, most).to_bytes());
    }
    seen.at_least(100_000);
    assert!(seen.too_large > 1000);
}

/// 0 to 63 nested backs over logs with two-way steps: the text shows the ways of as many last steps as backs nest, and
/// of no others.
#[test]
fn nested_backs() {
    let mut seen = Seen::new("nested backs");
    let mut random = Random::new(403);
    for backs in 0..64usize {
        for turn in 0..12 {
            let steps = match turn % 3 {
                0 => backs,
                1 => random.from_to(backs.saturating_sub(2), backs + 3),
                _ => random.from_to(0, 200),
            };
            let two_way = random.from_to(1, 6);
            let labels = some_two_way(&mut random, steps, two_way);
            // From the log's end or from a point before it.
            let point = random.from_to(steps / 2, steps);
            let question = back_along(&labels[..point], backs, &TRUE);
            seen.compare(&looping(&labels, question).to_bytes());
        }
    }
    seen.show();
    assert!(
        seen.lines > 200_000 && seen.holding > 5_000,
        "{}",
        seen.holding
    );
    assert!(seen.lines - seen.holding > 50_000);
}

/// Nested backs with the two-way steps exactly where the text still shows them, and one step before.
#[test]
fn two_way_steps_at_the_edge_of_the_text() {
    let mut seen = Seen::new("two-way steps at the edge of the text");
    for backs in 1..64 {
        for before in [0, 1] {
            for more in [0, 1, 5] {
                // Two-way at `backs` and `before` steps before the end, and at the end.
                let mut labels = vec![2; backs + before + more];
                let length = labels.len();
                labels[length - backs] = 1;
                labels[length - 1] = 1;
                if before == 1 {
                    labels[length - backs - 1] = 1;
                }
                let question = back_along(&labels, backs, &TRUE);
                seen.compare(&looping(&labels, question).to_bytes());
            }
        }
    }
    seen.show();
    assert!(seen.holding > 1_000 && seen.lines - seen.holding > 10_000);
}

/// Backs on two branches, the deeper one behind looks ahead that it takes back.
#[test]
fn backs_on_two_branches() {
    let mut seen = Seen::new("backs on two branches, with looks ahead");
    let mut random = Random::new(404);
    for _ in 0..500 {
        let steps = random.from_to(0, 12);
        let two_way = random.from_to(0, 7);
        let labels = some_two_way(&mut random, steps, two_way);
        let ahead = random.from_to(0, 4);
        let shallow = random.from_to(0, 4);
        let deep = random.from_to(0, 16);
        let operator = *random.pick(&[3, 4]);
        let forth: Vec<u8> = (0..ahead).map(|_| *random.pick(&[1, 2, 3, 255])).collect();
        let mut second = Vec::new();
        for label in &forth {
            second.extend(if *label == 255 { [7, 0] } else { [5, *label] });
        }
        second.extend(back_along(&forth, ahead, &back_along(&labels, deep, &TRUE)));
        let first = back_along(&labels, shallow, &[1, 0]);
        let question = [vec![operator, 0], times(1, NOT, &first), second].concat();
        seen.compare(&looping(&labels, question).to_bytes());
    }
    seen.at_least(50_000);
}

/// One to four nested forwards on machines of up to 64 states and up to eight rows from each.
#[test]
fn nested_forwards() {
    let mut seen = Seen::new("nested forwards");
    let mut random = Random::new(405);
    for seed in 0..400 {
        let mut shape = Shape::any(&mut random);
        shape.k = random.byte(0, 3);
        shape.full = true;
        shape.rows = random.from_to(1, 8);
        shape.steps = random.from_to(0, 6);
        let mut parts = many_ways_parts(&mut random, shape, 24);
        let mut question = vec![seed as u8 % 2, 0];
        for _ in 0..=seed % 4 {
            let label = random.byte(0, 2 * shape.k);
            let node = *random.pick(&[[5, label], [5, label], AHEAD, [7, 0]]);
            question = times(random.below(3), NOT, &times(1, node, &question));
        }
        parts.question = question;
        seen.compare(&parts.to_bytes());
    }
    seen.at_least(5_000);
    assert!(seen.too_large > 50);
}

/// Quotients just below 4,096 nodes and just over, on all lines, at some points, and in some splittings alone.
#[test]
fn near_the_largest_quotient() {
    let mut seen = Seen::new("quotients near 4,096 nodes");
    let mut random = Random::new(406);
    for rows in 1..=8u8 {
        for ahead in 1..=4 {
            for nots in some_nots(rows.into(), ahead) {
                let always = times(ahead, AHEAD, &times(nots, NOT, &TRUE));
                let after_a_step = times(1, [6, 1], &always);
                // Only where the last step is the left's alone; the joint verdict is T there.
                let in_some = times(1, NOT, &times(1, [8, 0], &always));
                for question in [always, after_a_step, in_some] {
                    let labels: Vec<u8> = (1..=rows).collect();
                    let steps = random.from_to(0, 2);
                    let parts = Parts {
                        k: 4,
                        left: loops(&[1]),
                        right: loops(&labels),
                        run: [vec![0, 0], [1, 0, 0].repeat(steps)].concat(),
                        question,
                    };
                    seen.compare(&parts.to_bytes());
                }
            }
        }
    }
    seen.show();
    assert!(
        seen.too_large > 300 && seen.mixed > 40,
        "{} mixed",
        seen.mixed
    );
    assert!(seen.lines - seen.too_large > 500 && seen.holding > 100);
}

/// Numbers of "not" around the largest with which so many nested forward by 0, each with so many rows, fit.
fn some_nots(rows: usize, ahead: usize) -> Vec<usize> {
    let size = |nots: usize| (0..ahead).fold(nots + 1, |size, _| (1 + rows) * (1 + size) + rows);
    // Room for two nodes more in a question of 64.
    let most = 62 - ahead;
    let fitting = (0..most).filter(|nots| size(*nots) <= 4096).count();
    (fitting.saturating_sub(3)..most.min(fitting + 3)).collect()
}

/// Exactly 4,096 nodes are shown, one more is 17.
#[test]
fn quotients_made_to_measure() {
    let mut seen = Seen::new("quotients of 4,040 to 4,150 nodes");
    for size in 4040..4150 {
        let parts = Parts {
            k: 4,
            left: loops(&[1, 2]),
            right: loops(&[1, 2, 3, 4, 5, 6, 7, 8]),
            run: vec![0, 0, 0, 0, 0],
            question: made_to_measure(size),
        };
        let sheet = agree(&parts.to_bytes());
        // Two points, two splittings; both handshakes may have made the step.
        let line = if size <= 4096 { 4 * size } else { 2 };
        assert_eq!(sheet.len(), 4 * (line + "0 0 T  T\n".len()), "{size}");
        seen.note(&sheet);
    }
    seen.show();
    assert_eq!(seen.too_large, 4 * 53);
}

/// Handshakes on one to eight pairs at each step, and what the text says of them.
#[test]
fn handshakes() {
    let mut seen = Seen::new("handshakes");
    let mut random = Random::new(407);
    for _ in 0..300 {
        let steps = random.from_to(1, 6);
        let (mut left, mut right) = (vec![steps as u8 + 1], vec![steps as u8 + 1]);
        let mut run = vec![0, 0];
        for state in 0..steps as u8 {
            let mut labels: Vec<u8> = (1..=30).collect();
            let count = random.from_to(1, if steps > 4 { 3 } else { 6 });
            while labels.len() > count {
                labels.remove(random.below(labels.len()));
            }
            left.extend(labels.iter().flat_map(|label| [state, *label, state + 1]));
            let mut answers: Vec<u8> = labels.iter().filter_map(|l| partner(*l)).collect();
            answers.sort();
            right.extend(answers.iter().flat_map(|label| [state, *label, state + 1]));
            run.extend([0, state + 1, state + 1]);
        }
        // Back by silent steps, now and then by a label that the log never shows.
        let mut question = TRUE.to_vec();
        for _ in 0..random.from_to(0, steps) {
            let shown = if random.once_in(9) {
                random.byte(1, 30)
            } else {
                0
            };
            question = times(1, [6, shown], &question);
        }
        if random.once_in(2) {
            question = [vec![4, 0], times(1, AHEAD, &TRUE), question].concat();
        }
        let parts = Parts {
            k: 15,
            left,
            right,
            run,
            question,
        };
        seen.compare(&parts.to_bytes());
    }
    seen.at_least(20_000);
}

/// Counts up to the limit and over it: 13 is the whole sheet.
#[test]
fn counts_around_the_limit() {
    let mut seen = Seen::new("counts around 65,535");
    let mut random = Random::new(408);
    // Loops by silent steps: left alone, right alone and so many handshakes.
    let still = |handshakes: usize| Parts {
        k: 15,
        left: loops(&[0, 1, 3, 5, 7, 9, 11, 13][..=handshakes]),
        right: loops(&[0, 2, 4, 6, 8, 10, 12, 14][..=handshakes]),
        run: vec![0, 0],
        question: TRUE.to_vec(),
    };
    for handshakes in 0..8usize {
        let ways = handshakes + 2;
        // So many steps give more than 65,535.
        let over = (1..).find(|steps| ways.pow(*steps) > 65_535).unwrap() as usize;
        for steps in [over, over + 1, over + random.below(40), 200] {
            let mut parts = still(handshakes);
            parts.run.extend([0, 0, 0].repeat(steps));
            seen.compare(&parts.to_bytes());
        }
        // Idles change no count; one step fewer is below the limit.
        let mut parts = still(handshakes);
        parts.run.extend([0, 0, 0].repeat(over - 1));
        seen.compare(&parts.to_bytes());
        let idles = [255, 0, 0].repeat(200 - over);
        parts.run.extend(&idles);
        parts.run.extend([0, 0, 0]);
        seen.compare(&parts.to_bytes());
    }
    seen.refused_at_least(40, &[13]);
    assert_eq!(seen.sheets - seen.refused[13], 8);
    assert!(seen.lines > 1_000_000);
}
