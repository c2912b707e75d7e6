//! Every formula of one to three nodes, and all pairs of modalities, at every point of runs of little machines.

use crate::verdict_both::{half_both, joint_both, Verdicts, OPERATORS};
use crate::verdict_sound::{Pair, Single};
use reference::formula::{read_formula, QUESTION_NODES};
use reference::generate::Shape;
use reference::random::Random;

/// Every sound formula of one to three nodes with one pair of labels.
pub fn short_formulas() -> Vec<Vec<u8>> {
    let mut nodes = Vec::new();
    for operator in 0..9 {
        for label in 0..3 {
            nodes.push(vec![operator, label]);
        }
    }
    let one = nodes.clone();
    let two = each_with_each(&one, &nodes);
    let three = each_with_each(&two, &nodes);
    let mut all = [one, two, three].concat();
    all.retain(|formula| read_formula(formula, 1, QUESTION_NODES).is_ok());
    all
}

/// Each of the first with each of the second behind it.
fn each_with_each(first: &[Vec<u8>], second: &[Vec<u8>]) -> Vec<Vec<u8>> {
    let mut all = Vec::new();
    for front in first {
        all.extend(second.iter().map(|back| [&front[..], back].concat()));
    }
    all
}

/// One or two states, up to four rows each, one pair of labels and a few steps.
fn little_shape(random: &mut Random) -> Shape {
    Shape {
        k: 1,
        left_states: random.byte(1, 2),
        right_states: random.byte(1, 2),
        rows: random.from_to(0, 4),
        full: random.once_in(2),
        steps: random.from_to(1, 3),
        nodes: 1,
    }
}

/// Every short formula at every point of little logs.
#[test]
fn every_short_formula_on_little_logs() {
    let formulas = short_formulas();
    // Unary: not, 7, 8, and 5 and 6 with 3 labels each: 9. Trees: 2, then 2 * 9, then 2 * 81 + 2 * 4.
    assert_eq!(formulas.len(), 2 + 18 + 170);
    let mut verdicts = Verdicts::new("every short formula on little logs");
    let mut random = Random::new(61);
    for _ in 0..120 {
        let shape = little_shape(&mut random);
        let pair = Pair::random(&mut random, shape);
        for formula in &formulas {
            let call = pair.asks(formula);
            for point in 0..=shape.steps {
                verdicts.note(formula, joint_both(&call, point));
            }
        }
    }
    verdicts.at_least(300, &OPERATORS);
}

/// Every short formula at every point of little half runs.
#[test]
fn every_short_formula_on_little_halves() {
    let formulas = short_formulas();
    let mut verdicts = Verdicts::new("every short formula on little halves");
    let mut random = Random::new(62);
    for _ in 0..120 {
        let shape = little_shape(&mut random);
        let single = Single::random(&mut random, shape);
        for formula in &formulas {
            let call = single.asks(formula);
            for point in 0..=shape.steps {
                verdicts.note(formula, half_both(&call, point));
            }
        }
    }
    verdicts.at_least(300, &OPERATORS);
}

/// Every modality over every other one, over true, with and without "not" between them.
pub fn pairs_of_modalities() -> Vec<Vec<u8>> {
    let modalities = [
        [5, 0],
        [5, 1],
        [5, 2],
        [6, 0],
        [6, 1],
        [6, 2],
        [7, 0],
        [8, 0],
    ];
    let mut all = Vec::new();
    for first in modalities {
        for second in modalities {
            all.push([first, second, [0, 0]].concat());
            all.push([first, [2, 0], second, [0, 0]].concat());
        }
    }
    all
}

/// Every pair of modalities at every point: where a step leads is seen by what can or cannot follow it.
#[test]
fn every_pair_of_modalities() {
    let mut joint = Verdicts::new("every pair of modalities on little logs");
    let mut halves = Verdicts::new("every pair of modalities on little halves");
    let mut random = Random::new(64);
    for _ in 0..160 {
        let shape = little_shape(&mut random);
        let pair = Pair::random(&mut random, shape);
        let single = Single::random(&mut random, shape);
        for formula in pairs_of_modalities() {
            let (asked, half_asked) = (pair.asks(&formula), single.asks(&formula));
            for point in 0..=shape.steps {
                joint.note(&formula, joint_both(&asked, point));
                halves.note(&formula, half_both(&half_asked, point));
            }
        }
    }
    joint.at_least(500, &[5, 6, 7, 8]);
    halves.at_least(500, &[5, 6, 7, 8]);
}

/// One of the short formulas under each modality first, so that what was looked at is looked at again.
#[test]
fn looking_twice_at_one_run() {
    let formulas = short_formulas();
    let mut verdicts = Verdicts::new("two short formulas about one run");
    let mut random = Random::new(63);
    for round in 0..24_000 {
        let shape = little_shape(&mut random);
        let pair = Pair::random(&mut random, shape);
        let label = random.byte(0, 2);
        let around = [[6, label], [8, 0], [5, label], [7, 0]][round % 4];
        let inner = random.pick(&formulas);
        let first = [&around[..], inner].concat();
        let operator = *random.pick(&[3, 4]);
        let second = random.pick(&formulas);
        let formula = [&[operator, 0], &first[..], second].concat();
        let point = random.from_to(0, shape.steps);
        verdicts.note(&formula, joint_both(&pair.asks(&formula), point));
        let single = Single::random(&mut random, shape);
        verdicts.note(&formula, half_both(&single.asks(&formula), point));
    }
    verdicts.at_least(300, &[3, 4]);
}
