//! Verdicts on sound runs of all sizes: every operator, every point, formulas fitted to the run.

use crate::verdict_both::{half_both, joint_both, subtrees, HalfParts, Verdicts, OPERATORS};
use reference::casebook::Parts;
use reference::fitted::{along_half, along_joint};
use reference::formula::{Formula, MOST_NESTING};
use reference::generate::{open_steps, random_formula, random_table, walk, walk_half, Shape};
use reference::half::HalfRun;
use reference::label::{highest, IDLE, SILENT};
use reference::random::Random;
use reference::run::{ways, JointRun, Way};
use reference::table::Table;

/// Two machines and a log.
pub struct Pair {
    pub k: u8,
    pub left: Table,
    pub right: Table,
    pub run: JointRun,
}

/// One machine and a half run.
pub struct Single {
    pub k: u8,
    pub table: Table,
    pub half: HalfRun,
}

impl Pair {
    /// Machines and a walk of this shape.
    pub fn random(random: &mut Random, shape: Shape) -> Pair {
        let left = random_table(random, shape, shape.left_states);
        let right = random_table(random, shape, shape.right_states);
        let run = walk(random, &left, &right, shape.steps);
        Pair {
            k: shape.k,
            left,
            right,
            run,
        }
    }

    /// The parts of a call with this formula.
    pub fn asks(&self, formula: &[u8]) -> Parts {
        Parts {
            k: self.k,
            left: self.left.to_bytes(),
            right: self.right.to_bytes(),
            run: self.run.to_bytes(),
            question: formula.to_vec(),
        }
    }

    /// A formula that looks along the log stopped at a point.
    pub fn fitted(&self, random: &mut Random, point: usize, nodes: usize) -> Vec<u8> {
        let mut along = along_joint(self.k, &self.left, &self.right, &self.run, point);
        along.formula(random, nodes, MOST_NESTING).to_bytes()
    }
}

impl Single {
    /// A machine and a walk of this shape.
    pub fn random(random: &mut Random, shape: Shape) -> Single {
        let table = random_table(random, shape, shape.left_states);
        let half = walk_half(random, &table, shape.steps);
        Single {
            k: shape.k,
            table,
            half,
        }
    }

    /// The parts of a call with this formula.
    pub fn asks(&self, formula: &[u8]) -> HalfParts {
        HalfParts {
            k: self.k,
            table: self.table.to_bytes(),
            half: self.half.to_bytes(),
            formula: formula.to_vec(),
        }
    }

    /// A formula that looks along the half run stopped at a point.
    pub fn fitted(&self, random: &mut Random, point: usize, nodes: usize) -> Vec<u8> {
        let mut along = along_half(self.k, &self.table, &self.half, point);
        along.formula(random, nodes, MOST_NESTING).to_bytes()
    }
}

/// A small shape, with every k in turn.
fn small_shape(random: &mut Random, seed: usize) -> Shape {
    let mut shape = Shape::small(random);
    if seed.is_multiple_of(2) {
        shape.k = (seed / 2 % 16) as u8;
    }
    shape.rows = random.from_to(0, 8);
    shape.steps = random.from_to(0, 6);
    shape
}

/// An arbitrary or a maximal shape, with every k in turn.
fn large_shape(random: &mut Random, seed: usize) -> Shape {
    let mut shape = Shape::any(random);
    if seed.is_multiple_of(3) {
        shape = Shape::maximal(0);
    }
    shape.k = (seed % 16) as u8;
    shape
}

/// Every subformula of fitted and random formulas, at every point of short logs.
#[test]
fn joint_verdicts_on_short_logs() {
    let mut verdicts = Verdicts::new("joint verdicts on short logs");
    let mut random = Random::new(41);
    for seed in 0..2400 {
        let shape = small_shape(&mut random, seed);
        let pair = Pair::random(&mut random, shape);
        let about = random.from_to(0, shape.steps);
        let nodes = random.from_to(2, 14);
        let formula = match random.below(8) {
            0 => random_formula(&mut random, shape.k, nodes, MOST_NESTING).to_bytes(),
            _ => pair.fitted(&mut random, about, nodes),
        };
        for part in subtrees(&formula) {
            let call = pair.asks(part);
            for point in 0..=shape.steps {
                verdicts.note(part, joint_both(&call, point));
            }
        }
    }
    verdicts.at_least(500, &OPERATORS);
}

/// Every subformula of fitted and random formulas, at every point of short half runs.
#[test]
fn half_verdicts_on_short_halves() {
    let mut verdicts = Verdicts::new("half verdicts on short halves");
    let mut random = Random::new(42);
    for seed in 0..2400 {
        let shape = small_shape(&mut random, seed);
        let single = Single::random(&mut random, shape);
        let about = random.from_to(0, shape.steps);
        let nodes = random.from_to(2, 14);
        let formula = match random.below(8) {
            0 => random_formula(&mut random, shape.k, nodes, MOST_NESTING).to_bytes(),
            _ => single.fitted(&mut random, about, nodes),
        };
        for part in subtrees(&formula) {
            let call = single.asks(part);
            for point in 0..=shape.steps {
                verdicts.note(part, half_both(&call, point));
            }
        }
    }
    verdicts.at_least(500, &OPERATORS);
}

/// Machines of up to 64 states with up to 8 rows each and logs of up to 200 steps, at every point.
#[test]
fn joint_verdicts_at_every_point_of_long_logs() {
    let mut verdicts = Verdicts::new("joint verdicts at every point of long logs");
    let mut random = Random::new(43);
    for seed in 0..144 {
        let shape = large_shape(&mut random, seed);
        let pair = Pair::random(&mut random, shape);
        let about = random.from_to(0, shape.steps);
        let nodes = random.from_to(2, 9);
        let call = pair.asks(&pair.fitted(&mut random, about, nodes));
        for point in 0..=shape.steps {
            verdicts.note(&call.question, joint_both(&call, point));
        }
    }
    verdicts.at_least(40, &[2, 3, 4, 5, 6, 7, 8]);
}

/// A machine of up to 64 states with up to 8 rows each and half runs of up to 200 steps, at every point.
#[test]
fn half_verdicts_at_every_point_of_long_halves() {
    let mut verdicts = Verdicts::new("half verdicts at every point of long halves");
    let mut random = Random::new(44);
    for seed in 0..144 {
        let shape = large_shape(&mut random, seed);
        let single = Single::random(&mut random, shape);
        let about = random.from_to(0, shape.steps);
        let nodes = random.from_to(2, 9);
        let call = single.asks(&single.fitted(&mut random, about, nodes));
        for point in 0..=shape.steps {
            verdicts.note(&call.formula, half_both(&call, point));
        }
    }
    verdicts.at_least(40, &[2, 3, 4, 5, 6, 7, 8]);
}

/// At each point of long runs a formula made for that very point.
#[test]
fn formulas_made_for_their_point() {
    let mut joint = Verdicts::new("joint verdicts under formulas made for their point");
    let mut halves = Verdicts::new("half verdicts under formulas made for their point");
    let mut random = Random::new(45);
    for seed in 0..3000 {
        let shape = large_shape(&mut random, seed);
        // The whole run now and then, so that looking ahead goes past 200 steps.
        let point = match random.below(3) {
            0 => shape.steps,
            _ => random.from_to(0, shape.steps),
        };
        let nodes = random.from_to(2, 12);
        let pair = Pair::random(&mut random, shape);
        let formula = pair.fitted(&mut random, point, nodes);
        joint.note(&formula, joint_both(&pair.asks(&formula), point));
        let single = Single::random(&mut random, shape);
        let formula = single.fitted(&mut random, point, nodes);
        halves.note(&formula, half_both(&single.asks(&formula), point));
    }
    joint.at_least(30, &[2, 3, 4, 5, 6, 7, 8]);
    halves.at_least(30, &[2, 3, 4, 5, 6, 7, 8]);
}

/// Every step that may follow the log, and every other label: forward and back again, with each of the labels.
#[test]
fn every_step_ahead_and_back() {
    let mut verdicts = Verdicts::new("one step ahead and back by every label");
    let mut random = Random::new(46);
    for seed in 0..48 {
        let mut shape = large_shape(&mut random, seed);
        shape.steps = random.from_to(0, 3);
        let pair = Pair::random(&mut random, shape);
        for ahead in (0..=highest(shape.k)).chain([IDLE]) {
            for back in (0..=highest(shape.k)).chain([IDLE]) {
                let formula = [modality(5, ahead), modality(6, back), [0, 0]].concat();
                verdicts.note(&formula, joint_both(&pair.asks(&formula), shape.steps));
            }
        }
    }
    verdicts.at_least(30, &[5]);
}

/// A forward (5) or back (6) modality by a label, or by idle.
fn modality(operator: u8, label: u8) -> [u8; 2] {
    match label {
        IDLE => [operator + 2, 0],
        _ => [operator, label],
    }
}

/// What the log did at its last step, asked by every label and by idle.
#[test]
fn every_label_of_the_last_step() {
    let mut verdicts = Verdicts::new("back by every label");
    let mut random = Random::new(47);
    let mut seen = [0; 5];
    for seed in 0..160 {
        let mut shape = large_shape(&mut random, seed);
        if seed % 4 > 0 {
            shape.left_states = random.byte(1, 3);
            shape.right_states = random.byte(1, 3);
        }
        shape.steps = random.from_to(1, 12);
        let pair = Pair::random(&mut random, shape);
        for point in 1..=shape.steps {
            seen[kind_of_step(&pair, point - 1)] += 1;
            for label in (0..=highest(shape.k)).chain([IDLE]) {
                let formula = [modality(6, label), [0, 0]].concat();
                verdicts.note(&formula, joint_both(&pair.asks(&formula), point));
            }
        }
    }
    verdicts.at_least(100, &[6, 8]);
    // A joint idle, a looping step, a looping handshake, another handshake, a step alone.
    assert!(seen.iter().all(|count| *count >= 10), "{seen:?}");
}

/// Which kind of step this is: joint idle, looping alone, looping handshake, other handshake, other.
fn kind_of_step(pair: &Pair, at: usize) -> usize {
    let step = pair.run.steps[at];
    let (p, q) = match at {
        0 => (pair.run.left, pair.run.right),
        _ => (pair.run.steps[at - 1].left, pair.run.steps[at - 1].right),
    };
    let shake = |way: &Way| matches!(way, Way::Handshake(_));
    let found = ways(&pair.left, &pair.right, p, q, step);
    let loops = (step.left, step.right) == (p, q);
    match (loops, found.iter().any(shake)) {
        _ if step.label == IDLE => 0,
        (true, false) => 1,
        (true, true) => 2,
        (false, true) => 3,
        (false, false) => 4,
    }
}

/// Four forward modalities nested along a walk, then back along it: the whole way, and with one label changed.
#[test]
fn four_ahead_and_four_back() {
    let mut verdicts = Verdicts::new("four steps ahead and four back");
    let mut random = Random::new(48);
    for seed in 0..1600 {
        let mut shape = small_shape(&mut random, seed);
        if seed % 4 == 0 {
            shape = large_shape(&mut random, seed);
            shape.steps = [0, 1, 196, 200][seed / 4 % 4];
        }
        let pair = Pair::random(&mut random, shape);
        let labels = labels_ahead(&mut random, &pair);
        let mut modalities: Vec<[u8; 2]> = labels.iter().map(|l| modality(5, *l)).collect();
        modalities.extend(labels.iter().rev().map(|l| modality(6, *l)));
        if random.once_in(2) {
            let at = random.below(8);
            modalities[at] = modality(5 + at as u8 / 4, random.byte(0, highest(shape.k)));
        }
        modalities.push([0, 0]);
        let formula = modalities.concat();
        let point = shape.steps;
        verdicts.note(&formula, joint_both(&pair.asks(&formula), point));
    }
    verdicts.at_least(100, &[5, 7]);
}

/// The labels of four steps that may follow the log one after the other.
fn labels_ahead(random: &mut Random, pair: &Pair) -> Vec<u8> {
    let (mut p, mut q) = pair.run.last();
    let mut labels = Vec::new();
    while labels.len() < 4 {
        let mut open = open_steps(&pair.left, &pair.right, p, q);
        open.retain(|steps| !steps.is_empty());
        let steps = random.pick(&open);
        let step = *random.pick(steps);
        labels.push(step.label);
        (p, q) = (step.left, step.right);
    }
    labels
}

/// Tables without rows beside tables with many: only idles, or only one side's steps.
#[test]
fn machines_without_rows() {
    let mut verdicts = Verdicts::new("joint verdicts beside machines without rows");
    let mut random = Random::new(49);
    for seed in 0..600 {
        let mut shape = small_shape(&mut random, seed);
        shape.rows = random.from_to(0, 8);
        let mut pair = Pair::random(&mut random, shape);
        let empty = Table::new(random.byte(1, 64), Vec::new());
        match seed % 3 {
            0 => pair.left = empty,
            1 => pair.right = empty,
            _ => (pair.left, pair.right) = (empty.clone(), empty),
        }
        pair.run = walk(&mut random, &pair.left, &pair.right, shape.steps);
        let nodes = random.from_to(2, 8);
        let formula = pair.fitted(&mut random, shape.steps, nodes);
        for part in subtrees(&formula) {
            verdicts.note(part, joint_both(&pair.asks(part), shape.steps));
        }
    }
    verdicts.at_least(20, &OPERATORS);
}

/// The same slice lent as both tables, and a machine beside itself.
#[test]
fn one_table_lent_as_both() {
    let mut random = Random::new(50);
    let mut verdicts = Verdicts::new("joint verdicts of a machine beside itself");
    for seed in 0..400 {
        let shape = small_shape(&mut random, seed);
        let mut pair = Pair::random(&mut random, shape);
        pair.right = pair.left.clone();
        pair.run = walk(&mut random, &pair.left, &pair.right, shape.steps);
        let nodes = random.from_to(2, 8);
        let call = pair.asks(&pair.fitted(&mut random, shape.steps, nodes));
        let verdict = joint_both(&call, shape.steps);
        let (table, run, formula) = (&call.left, &call.run, &call.question);
        let same = yenuslap::joint_verdict(call.k, table, table, run, formula, shape.steps);
        assert_eq!(same.ok(), verdict.ok(), "{call:?}");
        verdicts.note(formula, verdict);
    }
    verdicts.at_least(5, &[2, 3, 4, 5, 6, 7, 8]);
}

/// What the fitted formulas and their runs reach: every nesting, loops, handshakes that loop, idles in logs.
#[test]
fn fitted_formulas_reach_everything() {
    let mut random = Random::new(51);
    let mut nesting = [0; 5];
    let mut silent_shakes = 0;
    for seed in 0..1200 {
        let shape = small_shape(&mut random, seed);
        let pair = Pair::random(&mut random, shape);
        let mut along = along_joint(pair.k, &pair.left, &pair.right, &pair.run, shape.steps);
        let formula = along.formula(&mut random, 14, MOST_NESTING);
        nesting[formula.nesting()] += 1;
        let (p, q) = pair.run.last();
        let shakes = &open_steps(&pair.left, &pair.right, p, q)[2];
        silent_shakes += (!shakes.is_empty() && asks_silent(&formula)) as u32;
    }
    assert!(nesting.iter().all(|count| *count > 10), "{nesting:?}");
    assert!(silent_shakes > 20, "{silent_shakes}");
}

/// Whether a formula's root looks ahead by the silent label.
fn asks_silent(formula: &Formula) -> bool {
    matches!(formula, Formula::Forward(SILENT, _))
}
