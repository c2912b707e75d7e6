//! Case A, whole, and the questions of document 01 on its machines; then those on machines of one state each.

use super::show::{answer, truth, verdict};
use crate::casebook::{read, write, Parts};
use crate::cut::{cut, Side};
use crate::hex::{hex, unhex};
use crate::quotient::{by_halves, by_number, line_office, Asked, Known};
use crate::splitting::{count, join, split};
use crate::verdict::{half, joint};
use crate::Refusal;

/// Room for the longest half, and for the largest quotient.
pub const HALF_ROOM: [usize; 2] = [401, 401];
pub const ROOM: usize = 8192;

/// Case A, as document 01 prints it.
pub fn case_a() -> Vec<u8> {
    unhex(
        "0300 0100 02  0900 0200 02 000101 000301  0900 0300 02 000201 000401
         0700 0400 0000 000101  0600 0500 06000000",
    )
}

/// Case A's parts.
pub fn parts_a() -> Parts {
    let bytes = case_a();
    read(&bytes).expect("case A is sound").parts(&bytes)
}

/// Where the parts of case A lie, and what they are written back to.
pub fn records() -> Vec<String> {
    let bytes = case_a();
    let book = read(&bytes).expect("case A is sound");
    let mut lines = vec![format!("case A, k: {}", book.k)];
    let names = ["left table", "right table", "joint run", "question"];
    for (name, body) in names.iter().zip(&book.bodies[1..]) {
        let (length, start) = (body.len(), body.start);
        lines.push(format!("case A, {name}: {length} bytes from {start}"));
    }
    let written = answer(write(&book.parts(&bytes), ROOM), |written| {
        let which = match written == bytes {
            true => "those that were read",
            false => "others than were read",
        };
        format!("{} bytes, {which}", written.len())
    });
    lines.push(format!("case A, written back: {written}"));
    lines
}

/// The splittings of case A's log.
pub fn splittings() -> Vec<String> {
    let a = parts_a();
    let counted = answer(count(a.k, &a.left, &a.right, &a.run), |n| n.to_string());
    let mut lines = vec![format!("case A, splittings: {counted}")];
    for number in 0..2 {
        let halves = halves(&a, number);
        lines.push(format!("case A, splitting {number}: {halves}"));
    }
    lines
}

/// Both halves of a splitting of a log.
fn halves_of(parts: &Parts, number: usize) -> Result<[Vec<u8>; 2], Refusal> {
    split(
        parts.k,
        &parts.left,
        &parts.right,
        &parts.run,
        number,
        HALF_ROOM,
    )
}

/// Both halves of a splitting of a log, and what they are joined to.
pub fn halves(parts: &Parts, number: usize) -> String {
    let found = halves_of(parts, number);
    answer(found, |[left, right]| {
        let joined = joined(parts, &left, &right, ROOM);
        let [left, right] = [hex(&left), hex(&right)];
        format!("left half {left}, right half {right}, joined {joined}")
    })
}

/// The joint run of two halves, for an output of `room` bytes.
pub fn joined(parts: &Parts, left: &[u8], right: &[u8], room: usize) -> String {
    let run = join(parts.k, &parts.left, &parts.right, left, right, room);
    answer(run, |run| hex(&run))
}

/// The answers to the questions of document 01, by either half: operator, label, point and splitting on case A, then
/// case A with no side named, then the machines of one state each.
pub fn questions() -> Vec<String> {
    let on_a = [
        ("back by 0 over true", [6, 0], 0, 0),
        ("back by 0 over true", [6, 0], 0, 1),
        ("back by 0 over true", [6, 0], 1, 0),
        ("back by 0 over true", [6, 0], 1, 1),
        ("back by 1 over true", [6, 1], 1, 0),
        ("back by 1 over true", [6, 1], 1, 1),
        ("forward by 0 over true", [5, 0], 0, 0),
        ("forward by 2 over true", [5, 2], 0, 0),
    ];
    let mut lines = Vec::new();
    for (name, node, point, number) in on_a {
        let mut parts = parts_a();
        parts.question = [node, [0, 0]].concat();
        for side in [Side::Right, Side::Left] {
            lines.push(asked(name, &parts, number, Known { side, point }));
        }
    }
    let unnamed = Known {
        side: Side::Unnamed,
        point: 1,
    };
    lines.push(asked("back by 0 over true", &parts_a(), 0, unnamed));
    let name = "one state each, back by 1 over true";
    for number in [0, 1] {
        for side in [Side::Right, Side::Left] {
            lines.push(asked(name, &loops(), number, Known { side, point: 1 }));
        }
    }
    lines
}

/// One state each, k 1, both with the single row 000100, one step 01 00 00, question back by 1 over true.
fn loops() -> Parts {
    Parts {
        k: 1,
        left: unhex("01 000100"),
        right: unhex("01 000100"),
        run: unhex("0000 010000"),
        question: unhex("0601 0000"),
    }
}

/// What is asked, then what the calls answer to it.
fn asked(name: &str, parts: &Parts, number: usize, known: Known) -> String {
    let side = match known.side {
        Side::Unnamed => "unnamed",
        Side::Left => "left",
        Side::Right => "right",
    };
    let found = halves_of(parts, number);
    let answers = answer(found, |halves| answers(parts, number, &halves, known));
    let point = known.point;
    format!("{name}, point {point}, splitting {number}, known side {side}: {answers}")
}

/// The verdict on the log; the quotient and the other half's verdict under it; the quotient by number; the line
/// office's two verdicts; the cut.
fn answers(parts: &Parts, number: usize, [left, right]: &[Vec<u8>; 2], known: Known) -> String {
    let a = Asked {
        k: parts.k,
        left: &parts.left,
        right: &parts.right,
        question: &parts.question,
    };
    let log = joint(a.k, a.left, a.right, &parts.run, a.question, known.point);
    let quotient = by_halves(a, [left, right], known, ROOM);
    let other = other_verdict(a, [left, right], known, &quotient);
    let numbered = by_number(a, &parts.run, number, known, ROOM);
    let office = line_office(a, [left, right], known);
    let cut = cut(left, right, known.side, known.point).unwrap_or(&[]);
    [
        format!("joint verdict {}", verdict(log)),
        format!("quotient {}", answer(quotient, |bytes| hex(&bytes))),
        format!("other half's verdict {}", verdict(other)),
        format!(
            "quotient by number {}",
            answer(numbered, |bytes| hex(&bytes))
        ),
        format!(
            "line office {}",
            answer(office, |both| both.map(truth).join(" "))
        ),
        format!("cut {}", hex(cut)),
    ]
    .join(", ")
}

/// The verdict of the half that is not known, under the quotient's bytes; a refused quotient has none.
fn other_verdict(
    asked: Asked,
    [left, right]: [&[u8]; 2],
    known: Known,
    quotient: &Result<Vec<u8>, Refusal>,
) -> Result<bool, Refusal> {
    let formula = quotient.as_deref().unwrap_or(&[]);
    if known.side.knows_left() {
        half(asked.k, asked.right, right, formula, known.point)
    } else {
        half(asked.k, asked.left, left, formula, known.point)
    }
}
