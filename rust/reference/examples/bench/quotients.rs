//! Benches of quotients, by halves and by number, and of the line office.

use std::cell::RefCell;

use reference::cut::Side;
use reference::label::IDLE;
use reference::quotient::{by_halves, by_number, line_office, Asked, Known};
use reference::splitting;
use reference::table::Table;
use reference::Refusal;
use yenuslap::bare;

use crate::inputs::{dense, times, way_back, wide, Build};
use crate::splittings::{as_bare, dense_log};
use crate::timing::{on_both, Bench, Group};

/// Nodes of questions: true, not, forward by 0.
const TRUE: [u8; 2] = [0, 0];
const NOT: [u8; 2] = [2, 0];
const AHEAD: [u8; 2] = [5, 0];

/// The bytes of the largest quotient, and of the longest half run.
const OUT: usize = 8192;
const HALF: usize = 401;

/// All benches of quotients.
pub fn groups() -> Vec<Group> {
    let group = |name, benches| Group { name, benches };
    vec![
        group("quotient: small calls", small_calls()),
        group("quotient: near 4,096 nodes", large_quotients()),
        group("quotient: linear in the answer", growing_quotients()),
        group("quotient: halves of 200 steps", long_halves()),
        group("quotient: over 400,000 nodes", huge_quotients()),
        group("quotient: by number, 200 steps", by_numbers()),
        group("quotient: line office", offices()),
    ]
}

/// The byte of the known side, and the point.
#[derive(Clone, Copy)]
struct Stop {
    side: u8,
    point: usize,
}

impl Stop {
    /// The same for the reference.
    fn known(self) -> Known {
        let side = match self.side {
            1 => Side::Left,
            2 => Side::Right,
            _ => Side::Unnamed,
        };
        let point = self.point;
        Known { side, point }
    }
}

/// The left half as the known one, stopped at a point.
fn left(point: usize) -> Stop {
    Stop { side: 1, point }
}

/// The right half as the known one, stopped at a point.
fn right(point: usize) -> Stop {
    Stop { side: 2, point }
}

/// Two machines, two halves and a question, as bytes.
#[derive(Clone)]
struct Given {
    k: u8,
    left: Vec<u8>,
    right: Vec<u8>,
    halves: [Vec<u8>; 2],
    question: Vec<u8>,
}

impl Given {
    /// The same with another question.
    fn asks(&self, question: &[u8]) -> Given {
        let question = question.to_vec();
        Given {
            question,
            ..self.clone()
        }
    }

    /// The machines and the question, for the reference.
    fn asked(&self) -> Asked<'_> {
        Asked {
            k: self.k,
            left: &self.left,
            right: &self.right,
            question: &self.question,
        }
    }

    /// The bytes of both halves.
    fn both_halves(&self) -> [&[u8]; 2] {
        [&self.halves[0], &self.halves[1]]
    }

    /// The bench of one quotient by halves.
    fn quotient(&self, what: &str, stop: Stop) -> Bench {
        // The output is the caller's: it is made once, not in each call.
        let out = RefCell::new([0; OUT]);
        let engine = move |it: &Given| {
            let (left, right, question) = (&it.left, &it.right, &it.question);
            let [left_half, right_half] = it.both_halves();
            let (side, point) = (stop.side, stop.point);
            let lent = &mut *out.borrow_mut();
            bare::quotient(
                it.k, left, right, left_half, right_half, question, side, point, lent,
            )
        };
        let plain = move |it: &Given| {
            let quotient = by_halves(it.asked(), it.both_halves(), stop.known(), OUT);
            as_bare(quotient.map(|bytes| bytes.len()))
        };
        on_both(what, self.clone(), engine, plain)
    }

    /// The bench of one line office.
    fn office(&self, what: &str, stop: Stop) -> Bench {
        let engine = move |it: &Given| {
            let (left, right, question) = (&it.left, &it.right, &it.question);
            let [left_half, right_half] = it.both_halves();
            let (side, point) = (stop.side, stop.point);
            bare::line_office(
                it.k, left, right, left_half, right_half, question, side, point,
            )
        };
        let plain = move |it: &Given| {
            let verdicts = line_office(it.asked(), it.both_halves(), stop.known());
            as_bare(verdicts.map(|[joint, half]| 2 * usize::from(joint) + usize::from(half)))
        };
        on_both(what, self.clone(), engine, plain)
    }
}

/// Two machines, a log, a question and a splitting's number.
#[derive(Clone)]
struct Numbered {
    k: u8,
    left: Vec<u8>,
    right: Vec<u8>,
    run: Vec<u8>,
    question: Vec<u8>,
    number: usize,
}

impl Numbered {
    /// The plain quotient of this number.
    fn plain(&self, stop: Stop) -> Result<Vec<u8>, Refusal> {
        let asked = Asked {
            k: self.k,
            left: &self.left,
            right: &self.right,
            question: &self.question,
        };
        by_number(asked, &self.run, self.number, stop.known(), OUT)
    }

    /// The bench of one quotient by number.
    fn bench(&self, what: &str, stop: Stop) -> Bench {
        let out = RefCell::new([0; OUT]);
        let engine = move |it: &Numbered| {
            let (left, right, run, question) = (&it.left, &it.right, &it.run, &it.question);
            let (number, side, point) = (it.number, stop.side, stop.point);
            let lent = &mut *out.borrow_mut();
            bare::quotient_of_splitting(it.k, left, right, run, question, number, side, point, lent)
        };
        let plain = move |it: &Numbered| as_bare(it.plain(stop).map(|bytes| bytes.len()));
        on_both(what, self.clone(), engine, plain)
    }
}

/// Case A with a question, and the halves of its splitting 0.
fn case_a(question: &[u8]) -> Given {
    Given {
        k: 2,
        left: vec![2, 0, 1, 1, 0, 3, 1],
        right: vec![2, 0, 2, 1, 0, 4, 1],
        halves: [vec![0, 1, 1], vec![0, 2, 1]],
        question: question.to_vec(),
    }
}

/// Document 01's case A: what a call costs apart from its work.
fn small_calls() -> Vec<Bench> {
    let back = case_a(&[6, 0, 0, 0]);
    let ahead = case_a(&[5, 0, 0, 0]);
    let numbered = |k| Numbered {
        k,
        left: back.left.clone(),
        right: back.right.clone(),
        run: vec![0, 0, 0, 1, 1],
        question: back.question.clone(),
        number: 1,
    };
    let refused = Given {
        k: 16,
        ..back.clone()
    };
    vec![
        back.quotient("case A at point 1, back by 0 over true", right(1)),
        back.quotient("the same by the left half", left(1)),
        ahead.quotient("case A at point 0, forward by 0 over true", right(0)),
        numbered(2).bench("case A at point 1, by number 1", right(1)),
        refused.quotient("case A with k 16", right(1)),
        numbered(16).bench("case A with k 16, by number 1", right(1)),
    ]
}

/// Two machines at their start.
fn at_the_start(left: &[u8], right: &[u8]) -> Given {
    Given {
        k: 4,
        left: left.to_vec(),
        right: right.to_vec(),
        halves: [vec![0], vec![0]],
        question: TRUE.to_vec(),
    }
}

/// Document 01's machine of one state with rows of labels 1 to 8 to itself, as the known one.
fn eight_loops() -> Given {
    let rows = (1..=8).flat_map(|label| [0, label, 0]);
    let loops: Vec<u8> = [1].into_iter().chain(rows).collect();
    at_the_start(&[1], &loops)
}

/// Two machines of 64 states with a row for each of the labels 1 to 8 from each state.
fn dense_tables() -> Given {
    let table = dense([1, 2, 3, 4, 5, 6, 7, 8]).to_bytes();
    at_the_start(&table, &table)
}

/// Forward by 0 and by 1 in turn, four of them, over nine times "not": 4,076 nodes with eight rows that shake hands.
fn four_forwards() -> Vec<u8> {
    [[5, 0, 5, 1].repeat(2), times(9, NOT, &TRUE)].concat()
}

/// Quotients that nearly fill the limit.
fn large_quotients() -> Vec<Bench> {
    let three = times(3, AHEAD, &times(2, NOT, &TRUE));
    let loops = eight_loops();
    let tables = dense_tables();
    let alone = dense([1, 1, 1, 1, 2, 2, 2, 2]).to_bytes();
    let four_rows = at_the_start(&alone, &alone);
    let by_one = times(4, [5, 1], &times(3, NOT, &TRUE));
    vec![
        loops.asks(&three).quotient(
            "3 nested forward by 0 over not not true, eight loops",
            right(0),
        ),
        tables
            .asks(&three)
            .quotient("the same, 512 rows a side", right(0)),
        tables.asks(&four_forwards()).quotient(
            "4 nested forward by 0, 1, 0, 1 over nine times not, 512 rows a side",
            right(0),
        ),
        tables
            .asks(&four_forwards())
            .quotient("the same by the left half", left(0)),
        four_rows.asks(&by_one).quotient(
            "4 nested forward by 1 over three times not, four rows of label 1 from each state",
            right(0),
        ),
    ]
}

/// Quotients of about 500, 1,000, 2,000 and 4,000 nodes: two nested forward by 0 over ever more times "not".
fn growing_quotients() -> Vec<Bench> {
    let bench = |nots: usize| {
        let question = times(2, AHEAD, &times(nots, NOT, &TRUE));
        let what = format!("2 nested forward by 0 over {nots} times not, eight loops");
        eight_loops().asks(&question).quotient(&what, right(0))
    };
    [3, 9, 21, 46].map(bench).into()
}

/// The halves of the middle splitting of a log of 200 handshakes on machines of 64 states and 512 rows.
fn long_given() -> Given {
    let log = dense_log();
    let (left, right, run) = (&log.left, &log.right, &log.run);
    let count = splitting::count(log.k, left, right, run).unwrap();
    let halves = splitting::split(log.k, left, right, run, count / 2, [HALF; 2]).unwrap();
    Given {
        k: log.k,
        left: log.left,
        right: log.right,
        halves,
        question: TRUE.to_vec(),
    }
}

/// Halves of idles on machines without rows.
fn idle_given() -> Given {
    let still = Table::new(1, Vec::new()).to_bytes();
    let half = [vec![0], [IDLE, 0].repeat(200)].concat();
    Given {
        k: 0,
        left: still.clone(),
        right: still,
        halves: [half.clone(), half],
        question: TRUE.to_vec(),
    }
}

/// Questions of 63 and 64 nodes on halves of 200 steps.
fn long_halves() -> Vec<Bench> {
    let given = long_given();
    // Every step of the log is a handshake.
    let back = |steps: usize| [way_back(&vec![0; steps]), TRUE.to_vec()].concat();
    let two = wide(Build::Right, 3, &back(30), 2);
    let ahead = times(4, [5, 1], &back(56));
    vec![
        given.quotient("true: the checks alone", right(200)),
        given
            .asks(&back(63))
            .quotient("back by 0 for 63 steps", right(200)),
        given
            .asks(&back(63))
            .quotient("the same by the left half", left(200)),
        given
            .asks(&two)
            .quotient("and over 2 times back by 0 for 30 steps", right(200)),
        given.asks(&ahead).quotient(
            "4 nested forward by 1, then back by 0 for 56 steps",
            right(200),
        ),
        given
            .asks(&wide(Build::Balanced, 3, &TRUE, 32))
            .quotient("and over 32 times true, balanced", right(200)),
        given
            .asks(&times(63, NOT, &TRUE))
            .quotient("63 times not", right(200)),
        idle_given()
            .asks(&times(63, [8, 0], &TRUE))
            .quotient("back by idle for 63 steps, no rows", right(200)),
    ]
}

/// Quotients that are refused for their size: counting need not go on past the limit.
fn huge_quotients() -> Vec<Bench> {
    let huge = |nots: usize| times(4, AHEAD, &times(nots, NOT, &TRUE));
    let last = [vec![3, 0], times(2, NOT, &TRUE), huge(54)].concat();
    let short = times(4, AHEAD, &TRUE);
    let tables = dense_tables();
    vec![
        tables
            .asks(&huge(59))
            .quotient("4 nested forward by 0 over 59 times not", right(0)),
        tables
            .asks(&last)
            .quotient("the same as the second operand of and", right(0)),
        tables
            .asks(&short)
            .quotient("4 nested forward by 0 over true", right(0)),
        eight_loops()
            .asks(&huge(59))
            .quotient("the first, eight loops", right(0)),
        tables
            .asks(&huge(59))
            .office("the first, line office", right(0)),
    ]
}

/// Quotients by number on a log of 200 steps that has 32,768 splittings.
fn by_numbers() -> Vec<Bench> {
    let log = dense_log();
    let numbered = |number: usize, question: &[u8]| Numbered {
        k: log.k,
        left: log.left.clone(),
        right: log.right.clone(),
        run: log.run.clone(),
        question: question.to_vec(),
        number,
    };
    let back = [way_back(&[0; 63]), TRUE.to_vec()].concat();
    let mut benches = Vec::new();
    for (which, number) in [("first", 0), ("middle", 16_384), ("last", 32_767)] {
        let what = format!("back by 0 for 63 steps, by the {which} number");
        benches.push(numbered(number, &back).bench(&what, right(200)));
    }
    let three = times(3, AHEAD, &times(2, NOT, &TRUE));
    let four = "3 nested forward by 0 over not not true, by the middle number";
    benches.push(numbered(16_384, &three).bench(four, right(200)));
    benches.push(numbered(32_768, &back).bench("a number beyond", right(200)));
    benches
}

/// Both verdicts at once.
fn offices() -> Vec<Bench> {
    let back = [way_back(&[0; 63]), TRUE.to_vec()].concat();
    let three = times(3, AHEAD, &times(2, NOT, &TRUE));
    let none = times(3, AHEAD, &times(3, NOT, &TRUE));
    let tables = dense_tables();
    vec![
        case_a(&[6, 0, 0, 0]).office("case A at point 1, back by 0 over true", right(1)),
        long_given()
            .asks(&back)
            .office("back by 0 for 63 of 200 steps", right(200)),
        tables.asks(&three).office(
            "3 nested forward by 0 over not not true, 512 rows a side",
            right(0),
        ),
        tables.asks(&four_forwards()).office(
            "4 nested forward by 0, 1, 0, 1 over nine times not, 512 rows a side",
            right(0),
        ),
        tables
            .asks(&none)
            .office("3 nested forward by 0 over three times not", right(0)),
    ]
}
