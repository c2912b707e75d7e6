//! Refused verdicts: each number alone, every pair of faulty arguments, and all later arguments faulty at once.

use crate::book::{random_book, unfit_body, Book};
use crate::both::Tally;
use crate::faults::{Fault, OF_TABLES};
use crate::verdict_both::{half_both, joint_both, with_a_large_stack, HalfParts};
use reference::casebook::Parts;
use reference::formula::QUOTIENT_NODES;
use reference::generate::walk_half;
use reference::label::highest;
use reference::random::Random;
use reference::table::read_table;
use reference::Refusal;

/// A call that may be damaged: a book's parts, the point, and a half run of the left machine.
#[derive(Clone, Debug)]
struct Call {
    book: Book,
    half: Vec<u8>,
    point: usize,
}

impl Call {
    /// A sound call for both kinds of verdict.
    fn random(random: &mut Random) -> Call {
        let book = random_book(random);
        let steps = (book.records[3].body.len() - 2) / 3;
        let table = read_table(&book.records[1].body, book.k).unwrap();
        Call {
            point: random.from_to(0, steps),
            half: walk_half(random, &table, steps).to_bytes(),
            book,
        }
    }

    /// The parts for a joint verdict.
    fn joint(&self) -> Parts {
        self.book.parts()
    }

    /// The parts for a half verdict.
    fn half(&self) -> HalfParts {
        let Parts {
            k, left, question, ..
        } = self.book.parts();
        HalfParts {
            k,
            table: left,
            half: self.half.clone(),
            formula: question,
        }
    }
}

/// One kind of damage to a call.
#[derive(Clone, Copy, PartialEq, Eq, Debug)]
enum Flaw {
    /// A fault in the contents of a part, by its record.
    Part(Fault, usize),
    /// A table or joint run of unfit length, by its record.
    Length(usize),
    /// A formula of odd length, of none, or of too many nodes.
    FormulaLength,
    /// A joint verdict's point beyond the run.
    Point,
    /// A half verdict's point beyond the half.
    HalfPoint,
    /// A half of even length.
    EvenHalf,
    /// A half of over 200 steps.
    LongHalf,
    /// A half with a start state that is none.
    HalfStart,
    /// A half with a step that its machine cannot take.
    HalfStep,
}

/// The flaws of a joint call's arguments, in the order in which they are judged.
fn joint_flaws() -> [Vec<Flaw>; 6] {
    [
        vec![Flaw::Part(Fault::Pairs, 0)],
        table_flaws(1),
        table_flaws(2),
        vec![
            Flaw::Length(3),
            Flaw::Part(Fault::Start, 3),
            Flaw::Part(Fault::Step, 3),
        ],
        formula_flaws(),
        vec![Flaw::Point],
    ]
}

/// The flaws of a half call's arguments, in the order in which they are judged.
fn half_flaws() -> [Vec<Flaw>; 5] {
    [
        vec![Flaw::Part(Fault::Pairs, 0)],
        table_flaws(1),
        formula_flaws(),
        vec![Flaw::HalfPoint, Flaw::EvenHalf],
        vec![Flaw::LongHalf, Flaw::HalfStart, Flaw::HalfStep],
    ]
}

/// The flaws of a table.
fn table_flaws(record: usize) -> Vec<Flaw> {
    let mut flaws = vec![Flaw::Length(record)];
    flaws.extend(OF_TABLES.map(|fault| Flaw::Part(fault, record)));
    flaws
}

/// The flaws of a formula.
fn formula_flaws() -> Vec<Flaw> {
    vec![
        Flaw::FormulaLength,
        Flaw::Part(Fault::Tree, 4),
        Flaw::Part(Fault::Nesting, 4),
    ]
}

impl Flaw {
    /// The number that this flaw gets.
    fn number(self) -> Refusal {
        match self {
            Flaw::Part(fault, _) => fault.number(),
            Flaw::Length(_) => 3,
            Flaw::FormulaLength => 9,
            Flaw::Point | Flaw::HalfPoint | Flaw::EvenHalf => 12,
            Flaw::LongHalf | Flaw::HalfStart | Flaw::HalfStep => 15,
        }
    }

    /// Puts the flaw into a call; false if this call has no place for it.
    fn make(self, call: &mut Call, random: &mut Random) -> bool {
        match self {
            Flaw::Part(fault, record) => return fault.make(&mut call.book, record, random),
            Flaw::Length(record) => {
                let body = unfit_body(&call.book, record, random);
                call.book.set_body(record, body);
            }
            Flaw::FormulaLength => {
                let body = unfit_formula(random, &call.book.records[4].body);
                call.book.set_body(4, body);
            }
            Flaw::Point => {
                let steps = call.book.records[3].body.len().saturating_sub(2) / 3;
                call.point = beyond(random, steps);
            }
            Flaw::HalfPoint => {
                let steps = call.half.len().saturating_sub(1) / 2;
                call.point = beyond(random, steps);
            }
            Flaw::EvenHalf => change_parity(random, &mut call.half),
            Flaw::LongHalf => call.half = long_half(random, call.half[0]),
            Flaw::HalfStart => call.half[0] = random.byte(call.book.records[1].body[0], 255),
            Flaw::HalfStep => return break_half_step(random, call),
        }
        true
    }
}

/// A point beyond the last one, near or far.
fn beyond(random: &mut Random, steps: usize) -> usize {
    let far = steps + random.from_to(1, 300);
    *random.pick(&[steps + 1, far, usize::MAX])
}

/// A formula that no length check lets pass.
fn unfit_formula(random: &mut Random, formula: &[u8]) -> Vec<u8> {
    match random.below(4) {
        0 => Vec::new(),
        1 => [formula, &[0]].concat(),
        2 => formula[..formula.len() - 1].to_vec(),
        _ => {
            let more = random.from_to(0, 3);
            [[2, 0].repeat(QUOTIENT_NODES + more), vec![0, 0]].concat()
        }
    }
}

/// Takes a byte from a half or adds one.
pub fn change_parity(random: &mut Random, half: &mut Vec<u8>) {
    if random.once_in(2) {
        half.pop();
    } else {
        half.push(random.byte(0, 255));
    }
}

/// A half of 201 or more idles.
pub fn long_half(random: &mut Random, start: u8) -> Vec<u8> {
    let steps = *random.pick(&[201, 202, 300, 32_768]);
    [vec![start], [255, start].repeat(steps)].concat()
}

/// Makes one step of the half wrong: a label that no table has, a state that is none, or an idle that moves.
fn break_half_step(random: &mut Random, call: &mut Call) -> bool {
    let steps = (call.half.len() - 1) / 2;
    if steps == 0 {
        return false;
    }
    let at = 1 + 2 * random.below(steps);
    match random.below(3) {
        0 => call.half[at] = random.byte(highest(call.book.k) + 1, 254),
        1 => call.half[at + 1] = random.byte(call.book.records[1].body[0], 255),
        _ => {
            // The state before it stands right before the step, in the start or in the step before.
            call.half[at] = 255;
            call.half[at + 1] = call.half[at - 1] ^ 1;
        }
    }
    true
}

/// A call with all these flaws, given in the order judged; later arguments are damaged first, and the point last.
fn flawed(random: &mut Random, flaws: &[Flaw]) -> Call {
    let is_point = |flaw: &&Flaw| matches!(flaw, Flaw::Point | Flaw::HalfPoint);
    let others = flaws.iter().rev().filter(|flaw| !is_point(flaw));
    let in_turn: Vec<Flaw> = others
        .chain(flaws.iter().filter(is_point))
        .copied()
        .collect();
    loop {
        let mut call = Call::random(random);
        if in_turn.iter().all(|flaw| flaw.make(&mut call, random)) {
            return call;
        }
    }
}

/// Demands the first flaw's number of a joint verdict with these flaws.
fn joint_gives(tally: &mut Tally, random: &mut Random, flaws: &[Flaw]) {
    let call = flawed(random, flaws);
    let verdict = joint_both(&call.joint(), call.point);
    assert_eq!(verdict, Err(flaws[0].number()), "{flaws:?}");
    tally.note(flaws[0].number());
}

/// Demands the first flaw's number of a half verdict with these flaws.
fn half_gives(tally: &mut Tally, random: &mut Random, flaws: &[Flaw]) {
    let call = flawed(random, flaws);
    let verdict = half_both(&call.half(), call.point);
    assert_eq!(verdict, Err(flaws[0].number()), "{flaws:?}");
    tally.note(flaws[0].number());
}

/// The sound calls that are damaged below are answered.
#[test]
fn sound_calls_are_answered() {
    let mut random = Random::new(81);
    for _ in 0..400 {
        let call = Call::random(&mut random);
        assert!(joint_both(&call.joint(), call.point).is_ok());
        assert!(half_both(&call.half(), call.point).is_ok());
    }
}

/// Each flaw alone gets its number.
#[test]
fn each_flaw_alone() {
    with_a_large_stack(|| {
        let mut joint = Tally::new("joint verdicts refused for one flaw");
        let mut half = Tally::new("half verdicts refused for one flaw");
        let mut random = Random::new(82);
        for flaw in joint_flaws().into_iter().flatten() {
            for _ in 0..200 {
                joint_gives(&mut joint, &mut random, &[flaw]);
            }
        }
        for flaw in half_flaws().into_iter().flatten() {
            for _ in 0..200 {
                half_gives(&mut half, &mut random, &[flaw]);
            }
        }
        joint.saw_exactly(&[3, 4, 5, 6, 7, 8, 9, 10, 12]);
        half.saw_exactly(&[3, 4, 5, 6, 7, 9, 10, 12, 15]);
    });
}

/// All pairs of flaws in two arguments, in the order judged.
pub fn pairs<Flaw: Copy>(arguments: &[Vec<Flaw>]) -> Vec<[Flaw; 2]> {
    let mut pairs = Vec::new();
    for (place, first) in arguments.iter().enumerate() {
        for second in arguments[place + 1..].iter().flatten() {
            pairs.extend(first.iter().map(|first| [*first, *second]));
        }
    }
    pairs
}

/// Two flaws at once: the argument that is judged first gives the number.
#[test]
fn every_pair_of_flaws() {
    with_a_large_stack(|| {
        let mut joint = Tally::new("joint verdicts refused for two flaws at once");
        let mut half = Tally::new("half verdicts refused for two flaws at once");
        let mut random = Random::new(83);
        let of_joint = pairs(&joint_flaws());
        let of_half = pairs(&half_flaws());
        assert_eq!((of_joint.len(), of_half.len()), (127, 74));
        for _ in 0..24 {
            for flaws in &of_joint {
                joint_gives(&mut joint, &mut random, flaws);
            }
            for flaws in &of_half {
                half_gives(&mut half, &mut random, flaws);
            }
        }
        joint.saw_exactly(&[3, 4, 5, 6, 7, 8, 9, 10]);
        half.saw_exactly(&[3, 4, 5, 6, 7, 9, 10, 12]);
    });
}

/// From one argument on, all are faulty: the first of them gives the number.
#[test]
fn everything_faulty_from_one_argument_on() {
    with_a_large_stack(|| {
        let mut joint = Tally::new("joint verdicts with all later arguments faulty");
        let mut half = Tally::new("half verdicts with all later arguments faulty");
        let mut random = Random::new(84);
        for round in 0..1200 {
            let flaws = one_of_each(&mut random, &joint_flaws()[round % 6..]);
            joint_gives(&mut joint, &mut random, &flaws);
            let flaws = one_of_each(&mut random, &half_flaws()[round % 5..]);
            half_gives(&mut half, &mut random, &flaws);
        }
        joint.saw_exactly(&[3, 4, 5, 6, 7, 8, 9, 10, 12]);
        half.saw_exactly(&[3, 4, 5, 6, 7, 9, 10, 12, 15]);
    });
}

/// One flaw for each of these arguments.
fn one_of_each(random: &mut Random, arguments: &[Vec<Flaw>]) -> Vec<Flaw> {
    let pick = |flaws: &Vec<Flaw>| *random.pick(flaws);
    arguments.iter().map(pick).collect()
}

/// A formula as an argument of a small sound call of both kinds.
fn formula_gives(formula: &[u8], expected: Result<bool, Refusal>) {
    let joint = Parts {
        k: 1,
        left: vec![1, 0, 0, 0],
        right: vec![1],
        run: vec![0, 0, 0, 0, 0],
        question: formula.to_vec(),
    };
    let half = HalfParts {
        k: 1,
        table: vec![1, 0, 0, 0],
        half: vec![0, 0, 0],
        formula: formula.to_vec(),
    };
    let about = &formula[..formula.len().min(24)];
    assert_eq!(joint_both(&joint, 1), expected, "{about:?}");
    assert_eq!(half_both(&half, 1), expected, "{about:?}");
}

/// `count` times a node, then the rest.
pub fn times(count: usize, node: [u8; 2], rest: &[u8]) -> Vec<u8> {
    [&node.repeat(count)[..], rest].concat()
}

/// 1 to 4,096 nodes are a formula, 64 being no limit here; none and 4,097 are 9.
#[test]
fn node_limits() {
    with_a_large_stack(|| {
        formula_gives(&[0, 0], Ok(true));
        formula_gives(&[], Err(9));
        for nodes in [63, 64, 65, 66, 127, 128, 129, 4094, 4095, 4096] {
            formula_gives(&times(nodes - 1, [2, 0], &[0, 0]), Ok(nodes % 2 == 1));
            let ands = times(nodes / 2, [3, 0], &[0, 0].repeat(nodes / 2 + 1));
            if ands.len() / 2 <= QUOTIENT_NODES {
                formula_gives(&ands, Ok(true));
            }
        }
        for nodes in [4097, 4098, 4099, 8192, 65_537] {
            formula_gives(&times(nodes - 1, [2, 0], &[0, 0]), Err(9));
        }
        // 4,097 nodes whose nesting is too deep: still 9.
        formula_gives(&times(4096, [5, 0], &[0, 0]), Err(9));
        formula_gives(&times(4095, [5, 0], &[0, 0]), Err(10));
    });
}

/// Four nested forward modalities of both kinds are fine, five are 10; back modalities and other branches count not.
#[test]
fn nesting_limits() {
    for mask in 0..32u8 {
        let forward = |bit: u8| if mask >> bit & 1 == 0 { [5, 0] } else { [7, 0] };
        let four: Vec<u8> = (0..4).flat_map(forward).collect();
        let five: Vec<u8> = (0..5).flat_map(forward).collect();
        formula_gives(&[&four[..], &[0, 0]].concat(), Ok(true));
        formula_gives(&[&four[..], &[1, 0]].concat(), Ok(false));
        formula_gives(&[&five[..], &[0, 0]].concat(), Err(10));
        formula_gives(
            &[&four[..], &[6, 0, 8, 0, 0, 0]].concat(),
            Ok(mask & 12 == 4),
        );
        let both = [&[3, 0], &four[..], &[0, 0], &four, &[0, 0]].concat();
        formula_gives(&both, Ok(true));
        let second = [&[3, 0, 0, 0], &five[..], &[0, 0]].concat();
        formula_gives(&second, Err(10));
        let apart = [&four[..], &[4, 0, 1, 0, 2, 0, 5, 0, 0, 0]].concat();
        formula_gives(&apart, Err(10));
        let back = [&[6, 0, 8, 0, 6, 0], &four[..], &[0, 0]].concat();
        formula_gives(&back, Ok(false));
    }
}

/// 9 anywhere in a formula comes before a nesting of 5 elsewhere in it.
#[test]
fn whole_tree_comes_before_nesting() {
    let deep = times(5, [5, 0], &[0, 0]);
    let faults: [&[u8]; 6] = [&[9, 0], &[0, 1], &[5, 3, 0, 0], &[2, 1, 0, 0], &[2, 0], &[]];
    for fault in faults {
        formula_gives(&[&[3, 0], &deep[..], fault].concat(), Err(9));
    }
    formula_gives(&[&deep[..], &[0, 0]].concat(), Err(9));
    formula_gives(&[&deep[..], &[0]].concat(), Err(9));
    formula_gives(&[&[3, 0], &deep[..], &[0, 0]].concat(), Err(10));
}

/// Labels go up to 2k, operators to 8, and label bytes are 0 where there is no label.
#[test]
fn nodes_are_judged_one_by_one() {
    for label in 0..=255 {
        let sound = label <= 2;
        for operator in [5, 6] {
            let expected = if sound { Ok(label == 0) } else { Err(9) };
            formula_gives(&[operator, label, 0, 0], expected);
        }
        for operator in [0, 1] {
            let expected = if label == 0 {
                Ok(operator == 0)
            } else {
                Err(9)
            };
            formula_gives(&[operator, label], expected);
        }
        for (operator, verdict) in [(2, false), (7, true), (8, false)] {
            let expected = if label == 0 { Ok(verdict) } else { Err(9) };
            formula_gives(&[operator, label, 0, 0], expected);
        }
        for (operator, verdict) in [(3, false), (4, true)] {
            let expected = if label == 0 { Ok(verdict) } else { Err(9) };
            formula_gives(&[operator, label, 0, 0, 1, 0], expected);
        }
    }
    for operator in 9..=255 {
        formula_gives(&[operator, 0], Err(9));
        formula_gives(&[operator, 0, 0, 0], Err(9));
        formula_gives(&[operator, 0, 0, 0, 0, 0], Err(9));
        formula_gives(&[2, 0, operator, 0], Err(9));
    }
}

/// Damage behind the point is refused like damage before it.
#[test]
fn the_whole_run_is_judged() {
    let mut parts = Parts {
        k: 1,
        left: vec![2, 0, 1, 1],
        right: vec![1],
        run: [vec![0, 0, 1, 1, 0], [255, 1, 0].repeat(199)].concat(),
        question: vec![0, 0],
    };
    let mut half = HalfParts {
        k: 1,
        table: vec![2, 0, 1, 1],
        half: [vec![0, 1, 1], [255, 1].repeat(199)].concat(),
        formula: vec![0, 0],
    };
    for point in [0, 1, 2, 199, 200] {
        assert_eq!(joint_both(&parts, point), Ok(true));
        assert_eq!(half_both(&half, point), Ok(true));
    }
    for at in [1, 2, 100, 199] {
        parts.run[2 + 3 * at] = 1;
        half.half[1 + 2 * at] = 1;
        for point in [0, 1, at, at + 1, 200] {
            assert_eq!(joint_both(&parts, point), Err(8), "{at} {point}");
            assert_eq!(half_both(&half, point), Err(15), "{at} {point}");
        }
        parts.run[2 + 3 * at] = 255;
        half.half[1 + 2 * at] = 255;
    }
}

/// 200 steps are the most: more are 3 in a log and 15 in a half, once the point lies inside.
#[test]
fn at_most_200_steps() {
    for steps in [198, 199, 200, 201, 202, 255, 256, 400, 65_536] {
        let parts = Parts {
            k: 0,
            left: vec![1],
            right: vec![1],
            run: [vec![0, 0], [255, 0, 0].repeat(steps)].concat(),
            question: vec![8, 0, 0, 0],
        };
        let half = HalfParts {
            k: 0,
            table: vec![1],
            half: [vec![0], [255, 0].repeat(steps)].concat(),
            formula: vec![8, 0, 0, 0],
        };
        for point in [0, 1, 199, 200, 201, steps, steps + 1] {
            let verdict = Ok(point > 0);
            let joint = if steps > 200 { Err(3) } else { verdict };
            let single = if steps > 200 { Err(15) } else { verdict };
            let past = |inside| if point > steps { Err(12) } else { inside };
            let joint = if steps > 200 { joint } else { past(joint) };
            assert_eq!(joint_both(&parts, point), joint, "{steps} {point}");
            assert_eq!(half_both(&half, point), past(single), "{steps} {point}");
        }
    }
}
