//! Quotients of all sizes up to the limit, just over it and far over it, and the deepest questions.

use crate::both::{knows_left, number_of, Tally};
use crate::quotient_both::{
    numbered_both, numbered_in_rooms, office_both, quotient_both, quotient_in_rooms, Given, Logged,
    Stop, LARGEST,
};
use crate::quotient_inputs::fitted_question;
use crate::splitting_both::Log;
use crate::splitting_logs::{many_ways, random_halves};
use crate::verdict_refused::times;
use reference::formula::{QUESTION_NODES, QUOTIENT_NODES};
use reference::generate::{random_formula, Shape};
use reference::label::IDLE;
use reference::random::Random;
use reference::Refusal;

/// Nodes of questions.
const TRUE: [u8; 2] = [0, 0];
const NOT: [u8; 2] = [2, 0];
const AND: [u8; 2] = [3, 0];

/// One-state machines, the known one with loops of so many labels, all of which shake hands, at their start.
fn loops(side: u8, rows: u8, question: Vec<u8>) -> Logged {
    let rows = (1..=rows).flat_map(|label| [0, label, 0]);
    let known: Vec<u8> = [1].into_iter().chain(rows).collect();
    let (left, right) = if knows_left(side) {
        (known, vec![1])
    } else {
        (vec![1], known)
    };
    let log = Log {
        k: 4,
        left,
        right,
        run: vec![0, 0],
    };
    Logged { log, question }
}

/// The quotient at the start of such machines, on which by number, by halves and the line office agree.
fn at_the_start(side: u8, logged: &Logged) -> Result<Vec<u8>, Refusal> {
    let stop = Stop { side, point: 0 };
    let given = logged.with([vec![0], vec![0]]);
    let answer = quotient_in_rooms(&given, stop);
    assert_eq!(numbered_in_rooms(logged, 0, stop), answer);
    assert_eq!(number_of(&office_both(&given, stop)), number_of(&answer));
    answer
}

/// How large a forward by 0 over a quotient of so many nodes is with so many rows: a disjunct for the idle and one for
/// each row, and an "or" between each two.
fn forward_size(rows: usize, operand: usize) -> usize {
    (1 + rows) * (1 + operand) + rows
}

/// The size of so many nested forward by 0 over so many times "not", over true.
fn nested_size(rows: usize, forwards: usize, nots: usize) -> usize {
    (0..forwards).fold(nots + 1, |size, _| forward_size(rows, size))
}

/// The bytes of a quotient of so many nodes; 17 over the limit.
fn bytes_of(size: usize) -> Result<usize, Refusal> {
    match size {
        1..=QUOTIENT_NODES => Ok(2 * size),
        _ => Err(17),
    }
}

/// The length of an answer.
fn length_of(answer: &Result<Vec<u8>, Refusal>) -> Result<usize, Refusal> {
    answer.as_ref().map(Vec::len).map_err(|number| *number)
}

/// Every number of rows, every nesting and every operand's length: the size is known, and 17 comes exactly where it is
/// over the limit.
#[test]
fn nested_forwards_have_known_sizes() {
    let mut tally = Tally::new("quotients of nested forward by 0 over not, all sizes");
    let mut largest = 0;
    for rows in 0..=8 {
        for forwards in 0..=4 {
            // From the longest operand down.
            for nots in (0..QUESTION_NODES - forwards)
                .rev()
                .step_by(1 + (8 - rows) % 3)
            {
                let question = times(forwards, [5, 0], &times(nots, NOT, &TRUE));
                let size = nested_size(rows, forwards, nots);
                let side = 1 + (nots % 2) as u8;
                let answer = at_the_start(side, &loops(side, rows as u8, question));
                assert_eq!(length_of(&answer), bytes_of(size));
                tally.note(number_of(&answer));
                largest = largest.max(size);
            }
        }
    }
    assert_eq!(largest, 407_600);
    tally.at_least(300, &[0, 17]);
}

/// A question whose quotient by eight loops has exactly so many nodes: the largest nested forwards that fit, and beside
/// them what is left.
fn made_to_measure(size: usize) -> Vec<u8> {
    for forwards in [3, 2, 1] {
        let fits = |nots: &usize| nested_size(8, forwards, *nots) + 2 <= size;
        if let Some(nots) = (0..26).rev().find(fits) {
            let rest = size - 1 - nested_size(8, forwards, nots);
            let first = times(forwards, [5, 0], &times(nots, NOT, &TRUE));
            return [&AND[..], &first, &made_to_measure(rest)].concat();
        }
    }
    times(size - 1, NOT, &TRUE)
}

/// Quotients of exactly so many nodes, from 1 to some beyond the limit.
#[test]
fn sizes_made_to_measure() {
    let mut tally = Tally::new("quotients made to measure");
    let some = (1..3900)
        .step_by(41)
        .chain(4000..4200)
        .chain([4400, 4462, 4463]);
    for size in some {
        let question = made_to_measure(size);
        assert!(question.len() <= 2 * QUESTION_NODES, "{size}");
        for side in [1, 2] {
            let answer = at_the_start(side, &loops(side, 8, question.clone()));
            assert_eq!(length_of(&answer), bytes_of(size));
            tally.note(number_of(&answer));
        }
    }
    tally.saw_exactly(&[0, 17]);
}

/// A log on dense tables, with the halves of one splitting.
fn dense(random: &mut Random, steps: usize) -> (Log, [Vec<u8>; 2]) {
    let shape = Shape {
        k: random.byte(1, 15),
        left_states: random.byte(2, 64),
        right_states: random.byte(2, 64),
        rows: random.from_to(4, 8),
        full: true,
        steps,
        nodes: 1,
    };
    let log = many_ways(random, shape, usize::MAX >> 8);
    let halves = random_halves(random, &log);
    (log, halves)
}

/// Adds random parts to a question while its quotient has room for them and the question for "not" up to the limit.
fn grown(random: &mut Random, log: &Log, halves: &[Vec<u8>; 2], stop: Stop) -> (Given, usize) {
    let size = |question: &[u8]| {
        let question = question.to_vec();
        let logged = Logged {
            log: log.clone(),
            question,
        };
        let given = logged.with(halves.clone());
        let answer = quotient_both(&given, stop, LARGEST);
        (
            given,
            answer.map_or(QUOTIENT_NODES + 1, |bytes| bytes.len() / 2),
        )
    };
    let mut question = TRUE.to_vec();
    for nesting in [4, 3, 3, 2, 2, 2, 2, 1, 1, 1, 1, 1, 1] {
        let nodes = random.from_to(1, 4) + nesting;
        let part = random_formula(random, log.k, nodes - nesting, 0).to_bytes();
        let part = times(nesting, [5, 0], &part);
        let more = [&AND[..], &part, &question].concat();
        if more.len() / 2 <= 50 && size(&more).1 <= QUOTIENT_NODES {
            question = more;
        }
    }
    size(&question)
}

/// Random questions on dense tables, filled up by "not" at the root to 4,094 to 4,098 nodes.
#[test]
fn the_limit_on_dense_tables() {
    let mut tally = Tally::new("quotients around 4,096 nodes on dense tables");
    let mut random = Random::new(181);
    let mut measured = 0;
    while measured < 60 {
        let steps = random.from_to(0, 200);
        let (log, halves) = dense(&mut random, steps);
        let point = random.from_to(0, steps);
        let side = random.byte(0, 2);
        let stop = Stop { side, point };
        let (given, size) = grown(&mut random, &log, &halves, stop);
        let room = QUESTION_NODES - given.question.len() / 2;
        if size + room < QUOTIENT_NODES + 2 {
            continue;
        }
        measured += 1;
        for wanted in (QUOTIENT_NODES - 2).max(size)..=QUOTIENT_NODES + 2 {
            let question = times(wanted - size, NOT, &given.question);
            let given = Given {
                question,
                ..given.clone()
            };
            let answer = quotient_in_rooms(&given, stop);
            assert_eq!(length_of(&answer), bytes_of(wanted));
            assert_eq!(number_of(&office_both(&given, stop)), number_of(&answer));
            tally.note(number_of(&answer));
        }
    }
    tally.at_least(100, &[0, 17]);
}

/// Questions whose quotients have 170,000 to 407,600 nodes with eight rows, the large part at different places.
fn huge_questions() -> [Vec<u8>; 5] {
    let huge = |nots: usize| times(4, [5, 0], &times(nots, NOT, &TRUE));
    let beside = [&AND[..], &times(4, NOT, &TRUE), &huge(42)].concat();
    [
        huge(59),
        [&AND[..], &TRUE, &huge(57)].concat(),
        [&AND[..], &huge(57), &TRUE].concat(),
        times(10, NOT, &beside),
        [&AND[..], &huge(26), &huge(27)].concat(),
    ]
}

/// Demands 17 by every side, whatever output is lent, and of the line office.
fn is_huge(tally: &mut Tally, given: &Given, point: usize) {
    for side in [0, 1, 2] {
        let stop = Stop { side, point };
        for room in [0, 1, 2, 8191, LARGEST, LARGEST + 2, 900_000] {
            assert_eq!(quotient_both(given, stop, room), Err(17));
            tally.note(17);
        }
        assert_eq!(office_both(given, stop), Err(17));
    }
}

/// Huge trees are refused by 17 at the end of logs of all lengths on the largest machines.
#[test]
fn huge_trees() {
    let mut tally = Tally::new("quotients of up to 407,600 nodes");
    let mut random = Random::new(182);
    for round in 0..12 {
        let steps = [0, 1, 60, 200][round % 4];
        let shape = Shape {
            steps,
            ..Shape::maximal(1 + (round % 15) as u8)
        };
        let log = many_ways(&mut random, shape, usize::MAX >> 8);
        let halves = random_halves(&mut random, &log);
        for question in huge_questions() {
            let log = log.clone();
            let given = Logged { log, question }.with(halves.clone());
            is_huge(&mut tally, &given, steps);
        }
    }
    tally.saw_exactly(&[17]);
}

/// A huge tree by number: 17 after 14, and whatever output is lent.
#[test]
fn huge_trees_by_number() {
    let mut tally = Tally::new("quotients of huge trees by number");
    let question = times(4, [5, 0], &times(59, NOT, &TRUE));
    for side in [0, 1, 2] {
        let mut logged = loops(side, 8, question.clone());
        // Five idles, and on the way both machines loop where only one can.
        let label = if knows_left(side) {
            [1, 0, 0]
        } else {
            [8, 0, 0]
        };
        logged.log.run = [vec![0, 0], [IDLE, 0, 0].repeat(5), label.to_vec()].concat();
        for point in [0, 5, 6] {
            let stop = Stop { side, point };
            for room in [0, 1, LARGEST, 900_000] {
                assert_eq!(numbered_both(&logged, 0, stop, room), Err(17));
                assert_eq!(numbered_both(&logged, 1, stop, room), Err(14));
                tally.note(17);
                tally.note(14);
            }
        }
    }
    tally.saw_exactly(&[14, 17]);
}

/// Questions of 64 nodes that go back along logs of 200 steps and more than that ahead of them.
#[test]
fn far_back_on_long_halves() {
    let mut tally = Tally::new("quotients of 64 nodes on halves of 200 steps");
    let mut random = Random::new(183);
    for _ in 0..80 {
        let (log, halves) = dense(&mut random, 200);
        for point in [200, 199, 63, 62, 61, 30, random.from_to(0, 200)] {
            // Back along the log for 63 steps, so that only the first step that differs ends it.
            let labels: Vec<u8> = log.run[2..].chunks(3).map(|step| step[0]).collect();
            let back = |at: usize| match labels[point - 1 - at] {
                IDLE => [8, 0],
                label => [6, label],
            };
            let along: Vec<u8> = (0..point.min(63)).flat_map(back).collect();
            let question = [along, TRUE.to_vec()].concat();
            let logged = Logged {
                log: log.clone(),
                question,
            };
            let given = logged.with(halves.clone());
            for side in [1, 2] {
                let stop = Stop { side, point };
                // Where the log goes, both halves went.
                let answer = quotient_in_rooms(&given, stop).unwrap();
                assert_eq!(answer.len(), given.question.len());
                assert_eq!(office_both(&given, stop), Ok(true));
                tally.note(0);
            }
        }
    }
    tally.saw_exactly(&[0]);
}

/// Four forwards at the end of 200 steps, with steps back between them and after them: known halves of 204 steps.
#[test]
fn ahead_of_200_steps() {
    let mut tally = Tally::new("quotients that look ahead of 200 steps and back");
    let mut random = Random::new(184);
    for _ in 0..400 {
        let (log, halves) = dense(&mut random, 200);
        let point = *random.pick(&[200, 200, 199, 197]);
        let ahead: Vec<u8> = (0..4).flat_map(|_| forward(&mut random, log.k)).collect();
        let nodes = random.from_to(1, 60);
        let fitted = fitted_question(&mut random, &log, point, [nodes, 0]);
        let other = random_formula(&mut random, log.k, nodes, 0).to_bytes();
        for rest in [fitted, other] {
            let question = [ahead.clone(), rest].concat();
            let logged = Logged {
                log: log.clone(),
                question,
            };
            let given = logged.with(halves.clone());
            let side = random.byte(0, 2);
            let stop = Stop { side, point };
            let answer = quotient_in_rooms(&given, stop);
            assert_eq!(number_of(&office_both(&given, stop)), number_of(&answer));
            tally.note(number_of(&answer));
        }
    }
    tally.at_least(20, &[0, 17]);
}

/// A forward modality by idle, by silence or by another label.
fn forward(random: &mut Random, k: u8) -> [u8; 2] {
    match random.below(4) {
        0 => [7, 0],
        1 => [5, random.byte(1, 2 * k)],
        _ => [5, 0],
    }
}

/// Long questions without forward modalities on long halves: as many nodes as the question or fewer.
#[test]
fn no_forwards() {
    let mut tally = Tally::new("quotients of questions that look only back");
    let mut random = Random::new(185);
    for _ in 0..300 {
        let (log, halves) = dense(&mut random, 200);
        let nodes = random.from_to(1, 64);
        let question = random_formula(&mut random, log.k, nodes, 0).to_bytes();
        let logged = Logged { log, question };
        let given = logged.with(halves);
        let point = random.from_to(0, 200);
        for side in [1, 2] {
            let answer = quotient_in_rooms(&given, Stop { side, point });
            assert!(answer.unwrap().len() <= given.question.len());
            tally.note(0);
        }
    }
    tally.saw_exactly(&[0]);
}
