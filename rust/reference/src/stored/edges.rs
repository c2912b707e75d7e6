//! The cases at the edges: quotients just below and above 4,096 nodes, splittings just below and above 65,535.

use super::cases::{halves, joined, ROOM};
use super::show::{answer, truth};
use crate::casebook::Parts;
use crate::cut::Side;
use crate::hex::{hex, unhex};
use crate::quotient::{by_halves, by_number, line_office, Asked, Known};
use crate::splitting::count;

/// One state with rows of labels 1 to 8 to itself.
const EIGHT_LOOPS: [u8; 25] = [
    1, 0, 1, 0, 0, 2, 0, 0, 3, 0, 0, 4, 0, 0, 5, 0, 0, 6, 0, 0, 7, 0, 0, 8, 0,
];

/// A quotient's nodes, two bytes each, or the number of its refusal.
fn nodes(quotient: Result<Vec<u8>, u8>) -> String {
    answer(quotient, |bytes| format!("{} nodes", bytes.len() / 2))
}

/// Each byte is added to 31 times the sum so far, modulo 65,521.
fn checksum(bytes: &[u8]) -> usize {
    let add = |sum: usize, byte: &u8| (31 * sum + *byte as usize) % 65_521;
    bytes.iter().fold(0, add)
}

/// The sizes of the two large quotients, for outputs of several lengths: three nested forward by 0 over "not not true"
/// and over one "not" more, on machines without rows and with eight loops.
pub fn sizes() -> Vec<String> {
    let given = unhex("0500 0500 0500 0200 0200 0000");
    let refused = unhex("0500 0500 0500 0200 0200 0200 0000");
    let same = "the same";
    let nested = "three nested forward by 0 over";
    vec![
        size(&format!("{nested} not not true"), &given, ROOM),
        size("the same, 7468 bytes lent", &given, 7468),
        size("the same, 7467 bytes lent", &given, 7467),
        size_by_number(same, &given),
        office(same, &given),
        size(&format!("{nested} not not not true"), &refused, ROOM),
        size("the same, nothing lent", &refused, 0),
        size_by_number(same, &refused),
        office(same, &refused),
    ]
}

/// The question, asked of these machines.
fn asked(question: &[u8]) -> Asked<'_> {
    Asked {
        k: 4,
        left: &[1],
        right: &EIGHT_LOOPS,
        question,
    }
}

/// The right half, stopped at a point.
fn right(point: usize) -> Known {
    Known {
        side: Side::Right,
        point,
    }
}

/// The nodes of the quotient by halves of no steps, and a checksum of the lent bytes afterwards, which were all 9.
fn size(name: &str, question: &[u8], room: usize) -> String {
    let quotient = by_halves(asked(question), [&[0], &[0]], right(0), room);
    let mut lent = vec![9; room];
    if let Ok(bytes) = &quotient {
        lent[..bytes.len()].copy_from_slice(bytes);
    }
    let (nodes, sum) = (nodes(quotient), checksum(&lent));
    format!("{name}: {nodes}, checksum of the output {sum}")
}

/// The same by the number of the log's one splitting.
fn size_by_number(name: &str, question: &[u8]) -> String {
    let quotient = by_number(asked(question), &[0, 0], 0, right(0), ROOM);
    format!("{name}, by number: {}", nodes(quotient))
}

/// The line office's two verdicts on the same.
fn office(name: &str, question: &[u8]) -> String {
    let verdicts = line_office(asked(question), [&[0], &[0]], right(0));
    let words = answer(verdicts, |both| both.map(truth).join(" "));
    format!("{name}, line office: {words}")
}

/// Two machines of one loop, and a run of so many steps that either may have made.
fn two_way(steps: usize) -> Parts {
    Parts {
        k: 1,
        left: vec![1, 0, 1, 0],
        right: vec![1, 0, 1, 0],
        run: [vec![0, 0], [1, 0, 0].repeat(steps)].concat(),
        question: vec![6, 1, 0, 0],
    }
}

/// How many splittings a run has of 0, 15 and 16 two-way steps, and what is had of them by number and by halves.
pub fn counts() -> Vec<String> {
    let mut lines = Vec::new();
    for (name, steps, number) in [
        ("run of 0 steps", 0, 0),
        ("15 two-way steps", 15, 32_767),
        ("16 two-way steps", 16, 0),
    ] {
        let parts = two_way(steps);
        let counted = count(parts.k, &parts.left, &parts.right, &parts.run);
        let counted = answer(counted, |n| n.to_string());
        lines.push(format!("{name}, splittings: {counted}"));
        let halves = halves(&parts, number);
        lines.push(format!("{name}, splitting {number}: {halves}"));
    }
    lines.extend(by_sixteen());
    lines
}

/// 16 loops of the left and 16 idles of the right: what they are joined to, and the quotient of back by 1 over true by
/// the right one.
fn by_sixteen() -> [String; 2] {
    let parts = two_way(16);
    let moves = [vec![0], [1, 0].repeat(16)].concat();
    let idles = [vec![0], [255, 0].repeat(16)].concat();
    let joined = joined(&parts, &moves, &idles, ROOM);
    let asked = Asked {
        k: parts.k,
        left: &parts.left,
        right: &parts.right,
        question: &parts.question,
    };
    let quotient = by_halves(asked, [&moves, &idles], right(16), 128);
    let quotient = answer(quotient, |bytes| hex(&bytes));
    let name = "16 two-way steps";
    [
        format!("{name}, joined from halves: {joined}"),
        format!("{name}, back by 1 over true, by halves: {quotient}"),
    ]
}
