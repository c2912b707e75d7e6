//! The deepest formulas are judged by the engine on a stack of 8 MiB, and the deepest questions divided; their sheets are
//! written on a stack of 2 MiB, which is what Rust gives a thread; Aldebaran texts are read and written on one of 200
//! KiB. They stand in a program of their own: a stack that does not suffice ends the whole program. What is expected is
//! known from how the inputs are made.

use std::thread;

/// The most nodes of a formula.
const NODES: usize = 4096;

/// Judges a formula on 200 idles stopped at a point, as a joint run and as a half run, on a stack of 8 MiB.
fn judged(formula: Vec<u8>, point: usize) -> (Option<bool>, Option<bool>) {
    let verdicts = move || {
        let run = [vec![0, 0], [255, 0, 0].repeat(200)].concat();
        let half = [vec![0], [255, 0].repeat(200)].concat();
        // Loops of label 0, so that looking ahead finds something to try on either side.
        let table = [1, 0, 0, 0];
        let joint = yenuslap::joint_verdict(1, &table, &table, &run, &formula, point);
        let single = yenuslap::half_verdict(1, &table, &half, &formula, point);
        (joint.ok(), single.ok())
    };
    let thread = thread::Builder::new().stack_size(8 << 20);
    thread.spawn(verdicts).unwrap().join().unwrap()
}

/// Demands this verdict of a formula of so many nodes, at a point, of both calls.
fn demand(formula: &[u8], nodes: usize, point: usize, verdict: bool) {
    assert_eq!(formula.len(), 2 * nodes);
    let both = judged(formula.to_vec(), point);
    assert_eq!(both, (Some(verdict), Some(verdict)), "{:?}", &formula[..16]);
}

/// 4,095 times "not" over a constant: an odd number of negations.
#[test]
fn a_chain_of_not() {
    for (leaf, verdict) in [(0, false), (1, true)] {
        let formula = [[2, 0].repeat(NODES - 1), vec![leaf, 0]].concat();
        demand(&formula, NODES, 200, verdict);
    }
}

/// "Back by idle" up to 4,095 times: the run of 200 idles goes back 200 times.
#[test]
fn a_chain_of_back_by_idle() {
    for (backs, verdict) in [(199, true), (200, true), (201, false), (NODES - 1, false)] {
        let formula = [[8, 0].repeat(backs), vec![0, 0]].concat();
        demand(&formula, backs + 1, 200, verdict);
    }
    // The same depth with all of it judged: each step back is followed by "not not" many times.
    let step = [vec![8, 0], [2, 0].repeat(18)].concat();
    let nots = NODES - 1 - 200 * 19;
    let formula = [step.repeat(200), [2, 0].repeat(nots), vec![0, 0]].concat();
    demand(&formula, NODES, 200, nots.is_multiple_of(2));
}

/// Four forward modalities, then "not" to the limit, so that the deep part is judged once for each longer run.
#[test]
fn four_forwards_over_a_chain_of_not() {
    for forward in [[5, 0], [7, 0]] {
        let nots = NODES - 5;
        for leaf in [0, 1] {
            let formula = [forward.repeat(4), [2, 0].repeat(nots), vec![leaf, 0]].concat();
            let verdict = (leaf == 0) == nots.is_multiple_of(2);
            demand(&formula, NODES, 200, verdict);
        }
    }
}

/// "Not" to the limit, then four forward modalities at the bottom.
#[test]
fn four_forwards_under_a_chain_of_not() {
    let nots = NODES - 5;
    for (leaf, holds) in [(0, true), (1, false)] {
        let formula = [[2, 0].repeat(nots), [5, 0].repeat(4), vec![leaf, 0]].concat();
        demand(&formula, NODES, 100, holds == nots.is_multiple_of(2));
    }
}

/// "And" and "or" nested 2,047 deep in the left operand, and in the right one.
#[test]
fn and_or_nested_to_the_left_and_to_the_right() {
    let inner = NODES / 2 - 1;
    for (operator, leaf) in [(3, 0), (4, 1)] {
        // All leaves have to be judged: true under "and", false under "or".
        let left = [[operator, 0].repeat(inner), [leaf, 0].repeat(inner + 1)].concat();
        demand(&left, NODES - 1, 200, operator == 3);
        let right = [[operator, 0, leaf, 0].repeat(inner), vec![leaf, 0]].concat();
        demand(&right, NODES - 1, 200, operator == 3);
        // The last leaf, which is the deepest on the right and the last one judged on the left, turns the verdict.
        for mut formula in [left, right] {
            let last = formula.len() - 2;
            formula[last] = 1 - leaf;
            demand(&formula, NODES - 1, 200, operator == 4);
        }
    }
}

/// "Not" between "and" and "or" to the left: the deepest mix of operators with one and two operands.
#[test]
fn not_and_or_nested_to_the_left() {
    // Not or (not or (.. false) false) false: three nodes a level, and each level turns the verdict.
    let levels = (NODES - 1) / 3;
    let formula = [
        [2, 0, 4, 0].repeat(levels),
        vec![1, 0],
        [1, 0].repeat(levels),
    ]
    .concat();
    demand(&formula, 3 * levels + 1, 200, levels % 2 == 1);
}

/// What the three calls of a quotient answer to a question at the end of 200 idles: the nodes by halves and by number,
/// and the verdict on which both halves of the line office agree. Nothing stands for a refusal.
fn divide(question: &[u8]) -> [Option<usize>; 3] {
    let run = [vec![0, 0], [255, 0, 0].repeat(200)].concat();
    let half = [vec![0], [255, 0].repeat(200)].concat();
    // Eight loops on the known side, all of which shake hands.
    let rows = (1..=8).flat_map(|label| [0, label, 0]);
    let table: Vec<u8> = [1].into_iter().chain(rows).collect();
    let (k, left, right, side) = (4, &[1], &table, yenuslap::Side::Right);
    let mut out = [0; 2 * NODES];
    let given = yenuslap::quotient(k, left, right, &half, &half, question, side, 200, &mut out);
    let numbered =
        yenuslap::quotient_of_splitting(k, left, right, &run, question, 0, side, 200, &mut out);
    let office = yenuslap::line_office(k, left, right, &half, &half, question, side, 200);
    let verdict = office.map(|verdicts| {
        assert_eq!(verdicts.joint, verdicts.half);
        usize::from(verdicts.joint)
    });
    [
        given.ok().map(|length| length / 2),
        numbered.ok().map(|length| length / 2),
        verdict.ok(),
    ]
}

/// The same on a stack of 8 MiB.
fn divided(question: Vec<u8>) -> [Option<usize>; 3] {
    let thread = thread::Builder::new().stack_size(8 << 20);
    let quotients = thread.spawn(move || divide(&question));
    quotients.unwrap().join().unwrap()
}

/// The deepest questions, and those with the largest quotients: 64 nodes in a chain, forward modalities at its top and
/// at its end.
#[test]
fn quotients_of_the_deepest_questions() {
    let chain = |nodes: &[(usize, [u8; 2])]| {
        let nodes = nodes.iter().flat_map(|(count, node)| node.repeat(*count));
        nodes.chain([0, 0]).collect::<Vec<u8>>()
    };
    let answered = |nodes, verdict| [Some(nodes), Some(nodes), Some(verdict)];
    assert_eq!(divided(chain(&[(63, [2, 0])])), answered(64, 0));
    assert_eq!(divided(chain(&[(63, [8, 0])])), answered(64, 1));
    assert_eq!(
        divided(chain(&[(4, [7, 0]), (59, [8, 0])])),
        answered(64, 1)
    );
    // Three nested forward by 0 over 3 nodes have 3,734; with 58 nodes above them one for each.
    let deep = chain(&[(58, [2, 0]), (3, [5, 0]), (2, [2, 0])]);
    assert_eq!(divided(deep), answered(58 + 3734, 0));
    // Four nested forward by 0, over 59 times "not" or under it: too large.
    assert_eq!(divided(chain(&[(4, [5, 0]), (59, [2, 0])])), [None; 3]);
    assert_eq!(divided(chain(&[(59, [2, 0]), (4, [5, 0])])), [None; 3]);
}

/// Lines of the sheet of a question at 200 idles, on a stack of 2 MiB: how many, and the last line's ending.
fn sheet_ending(question: Vec<u8>) -> (usize, String) {
    let lines = move || {
        let run = [vec![0, 0], [255, 0, 0].repeat(200)].concat();
        let rows = (1..=8).flat_map(|label| [0, label, 0]);
        let table: Vec<u8> = [1].into_iter().chain(rows).collect();
        let mut casebook = [0; yenuslap::MOST_CASEBOOK];
        let length = yenuslap::write_casebook(4, &[1], &table, &run, &question, &mut casebook);
        let mut out = vec![0; 201 * yenuslap::MOST_LINE];
        let casebook = &casebook[..length.unwrap()];
        let written = yenuslap::sheet_lines(casebook, 0, 300, &mut out).unwrap();
        let text = String::from_utf8(out[..written.bytes].to_vec()).unwrap();
        (written.lines, text[text.len() - 5..].to_string())
    };
    let thread = thread::Builder::new().stack_size(2 << 20);
    thread.spawn(lines).unwrap().join().unwrap()
}

/// 63 times "not" over true, 63 times "back by idle", and the largest quotients.
#[test]
fn sheets_of_the_deepest_questions() {
    let chain = |count: usize, node: [u8; 2]| [node.repeat(count), vec![0, 0]].concat();
    assert_eq!(sheet_ending(chain(63, [2, 0])), (201, "00 F\n".into()));
    assert_eq!(sheet_ending(chain(63, [8, 0])), (201, "00 T\n".into()));
    let deep = [[2, 0].repeat(57), [5, 0].repeat(3), chain(2, [2, 0])].concat();
    assert_eq!(sheet_ending(deep), (201, "00 T\n".into()));
    let too_large = [[2, 0].repeat(58), [5, 0].repeat(4), chain(1, [2, 0])].concat();
    assert_eq!(sheet_ending(too_large), (201, "17 -\n".into()));
}

/// A table of 64 states with eight rows each, to the state itself.
fn full_table() -> Vec<u8> {
    let rows = (0..64).flat_map(|state| (1..=8).flat_map(move |label| [state, label, state]));
    [64].into_iter().chain(rows).collect()
}

/// The full table is written and read back, and a text of 99,999 lines is refused for its ninth rows.
#[test]
fn aldebaran_texts() {
    let rows = (0..99_999).map(|n| (n / 1984, n / 64 % 31, n % 64));
    let lines = rows.map(|(from, label, to)| {
        let pair = (label + 1) / 2;
        let label = match label {
            0 => "i".to_string(),
            odd if odd % 2 == 1 => format!("a{pair}!"),
            _ => format!("a{pair}?"),
        };
        format!("({from},\"{label}\",{to})\n")
    });
    let long = "des (0,99999,64)\n".to_string() + &lines.collect::<String>();
    let calls = move || {
        let (mut text, mut table) = (vec![0; yenuslap::MOST_TEXT], vec![0; yenuslap::MOST_TABLE]);
        let length = yenuslap::write_aldebaran(&full_table(), 63, &mut text).unwrap();
        let read = yenuslap::read_aldebaran(&text[..length], &mut table).unwrap();
        assert_eq!((read.length, read.first), (yenuslap::MOST_TABLE, 63));
        assert_eq!(table, full_table());
        let refused = yenuslap::read_aldebaran(long.as_bytes(), &mut table).unwrap_err();
        assert_eq!(refused.number(), 7);
    };
    let thread = thread::Builder::new().stack_size(200 << 10);
    thread.spawn(calls).unwrap().join().unwrap();
}
