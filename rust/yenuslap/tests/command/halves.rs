//! `split` and `join`.

use std::collections::HashSet;

use reference::casebook::read;
use reference::splitting::count;

use crate::books::{shipped_and_seeded, CASE_A};
use crate::program::{complains, prints, run_with};

/// Case A's two splittings, by document 01: handshakes on 1 and on 3.
#[test]
fn case_a() {
    let lines = "0 --left 0,1:1 --right 0,2:1\n1 --left 0,3:1 --right 0,4:1\n";
    prints(&["split", "-"], &CASE_A, lines);
    let bytes = "0 --left 000101 --right 000201\n1 --left 000301 --right 000401\n";
    prints(&["split", "--hex", "cases/a.casebook"], b"", bytes);
    let last = "1 --left 0,3:1 --right 0,4:1\n";
    prints(&["split", "--number", "1", "-"], &CASE_A, last);
    let log = "log 0 0\n  0 1 1\n";
    prints(
        &["join", "-", "--left", "0,3:1", "--right", "0,4:1"],
        &CASE_A,
        log,
    );
    let halves = ["--left=000101", "--right=000201", "--hex"];
    prints(
        &[&["join", "-"], &halves[..]].concat(),
        &CASE_A,
        "0000000101\n",
    );
}

/// One state each, both with a loop by 1: a step by 1 is the left's or the right's.
#[test]
fn loops() {
    let lines = "0 --left 0,1:0 --right 0,idle\n1 --left 0,idle --right 0,1:0\n";
    prints(&["split", "cases/loops.casebook"], b"", lines);
    let log = "log 0 0\n  1 0 0\n  idle 0 0\n  1 0 0\n  0 0 0\n";
    let arguments = [
        "--left",
        "0,1:0,idle,idle,1:0",
        "--right",
        "0,idle,idle,1:0,2:0",
    ];
    let text = "pairs 1\nleft 1\n0 1 0\nright 1\n0 1 0\n0 2 0\nlog 0 0\nquestion true";
    let book = run_with(&["write", "-"], text.as_bytes()).out;
    prints(&[&["join", "-"], &arguments[..]].concat(), &book, log);
}

/// A log without steps.
#[test]
fn no_steps() {
    prints(
        &["split", "cases/no_steps.casebook"],
        b"",
        "0 --left 0 --right 0\n",
    );
    let arguments = [
        "join",
        "cases/no_steps.casebook",
        "--left",
        "1",
        "--right",
        "0",
    ];
    prints(&arguments, b"", "log 1 0\n");
}

/// What `split` prints joins to the casebook's log; and it prints as many splittings as the plain implementation counts,
/// none of them twice.
#[test]
fn round_trips() {
    let mut joined = 0;
    for book in shipped_and_seeded(48) {
        let Ok(parts) = read(&book).map(|read| read.parts(&book)) else {
            continue;
        };
        let Ok(splittings) = count(parts.k, &parts.left, &parts.right, &parts.run) else {
            continue;
        };
        for hex in [false, true] {
            joined += round_trip(&book, &parts.run, hex, splittings);
        }
    }
    assert!(joined > 200, "{joined} splittings");
}

/// Joins every splitting of a casebook, at most 20; gives how many.
fn round_trip(book: &[u8], run: &[u8], hex: bool, splittings: usize) -> usize {
    let options: &[&str] = if hex { &["--hex"] } else { &[] };
    let split = run_with(&[&["split", "-"], options].concat(), book).text();
    assert_eq!(split.lines().count(), splittings, "{book:?}");
    let halves = split.lines().filter_map(|line| line.split_once(' '));
    let distinct: HashSet<&str> = halves.map(|(_, halves)| halves).collect();
    assert_eq!(distinct.len(), splittings, "{book:?}");
    let log = run_with(&["show", "--text", "-"], book).text();
    let (begin, end) = (log.find("log ").unwrap(), log.find("question ").unwrap());
    let expected = match hex {
        true => run.iter().map(|b| format!("{b:02x}")).collect::<String>() + "\n",
        false => log[begin..end].to_string(),
    };
    for (number, line) in split.lines().enumerate().take(20) {
        let words: Vec<&str> = line.split(' ').collect();
        assert_eq!(words[0], number.to_string());
        let arguments = [&["join", "-"], &words[1..], options].concat();
        prints(&arguments, book, &expected);
    }
    splittings.min(20)
}

/// 15: which half, which step, and why.
#[test]
fn halves_that_are_no_runs() {
    let idles = ",idle".repeat(201);
    let faults = [
        ("2,1:1", "0,2:1", "start state 2 of the left half is out of range; the left table has 2 states, counted from 0"),
        ("0", "7", "start state 7 of the right half is out of range; the right table has 2 states, counted from 0"),
        ("0,1:1,1:1", "0,2:1,idle", "step 2 of the left half goes from 1 by label 1 to 1, and the left table has no such row"),
        ("0,idle", "0,1:1", "step 1 of the right half goes from 0 by label 1 to 1, and the right table has no such row"),
    ];
    for (left, right, sentence) in faults {
        refused(&[left, right], &[], 15, sentence);
    }
    let long = format!("0{idles}");
    let sentence = "the left half has a step 201; a half has at most 200 steps";
    refused(&[&long, &long], &[], 15, sentence);
    // Only bytes can spell an idle that changes the state, or half a step.
    let sentence = "step 1 of the left half is an idle from state 0 to 1; an idle keeps the state";
    refused(&["00ff01", "00ff00"], &["--hex"], 15, sentence);
    let sentence = "the right half has 2 bytes; a half has one byte, and two for each step";
    refused(&["00", "00ff"], &["--hex"], 15, sentence);
    let sentence = "the left half has 0 bytes; a half has one byte, and two for each step";
    refused(&["", "00"], &["--hex"], 15, sentence);
}

/// 16: which step, or unequal lengths; 15 comes first.
#[test]
fn halves_that_do_not_match() {
    let rule =
        "a move matches an idle or a move by its label's partner, and an idle matches an idle";
    let sentence = format!(
        "at step 2 the left half moves by label 1 and the right half moves by label 4; {rule}"
    );
    refused(&["0,idle,1:1", "0,idle,4:1"], &[], 16, &sentence);
    let sentence =
        "the left half has 2 steps and the right half 1 step; matching halves are equally long";
    refused(&["0,1:1,idle", "0,2:1"], &[], 16, sentence);
    let sentence =
        "step 2 of the left half goes from 1 by label 1 to 1, and the left table has no such row";
    refused(&["0,1:1,1:1", "0,4:1,idle"], &[], 15, sentence);
}

/// Demands that a join on case A's machines is refused.
fn refused(halves: &[&str; 2], options: &[&str], number: u8, sentence: &str) {
    let given = ["join", "-", "--left", halves[0], "--right", halves[1]];
    let complaint = format!("standard input: refused {number}: {sentence}");
    complains(&[&given, options].concat(), &CASE_A, 1, &complaint);
}

/// 13 and 14: numbers that name no splitting.
#[test]
fn numbers_without_a_splitting() {
    let sentence = |number: &str| {
        format!("standard input: refused 14: there is no splitting {number}; the log has 2 splittings, counted from 0")
    };
    for number in ["2", "65536", "18446744073709551615"] {
        let arguments = ["split", "--number", number, "-"];
        complains(&arguments, &CASE_A, 1, &sentence(number));
    }
    let name = "cases/refused_13_sixteen_two_way_steps.casebook";
    let sentence = format!("{name}: refused 13: the log has over 65,535 splittings, from step 16 on; no number names one of so many");
    complains(&["split", name], b"", 1, &sentence);
    complains(&["split", name, "--number", "0"], b"", 1, &sentence);
}

/// Halves that are no text of a half.
#[test]
fn wrong_halves() {
    let byte = "(a number from 0 to 255)";
    let faults = [
        (
            "",
            format!("item 1: expected a start state {byte}, found ``"),
        ),
        (
            "x",
            format!("item 1: expected a start state {byte}, found `x`"),
        ),
        (
            "0,1:256",
            format!("item 2: expected a target {byte}, found `256`"),
        ),
        (
            "0,idle,-1:0",
            format!("item 3: expected a label {byte}, found `-1`"),
        ),
        (
            "0,+1:0",
            format!("item 2: expected a label {byte}, found `+1`"),
        ),
        (
            "0,",
            "item 2: expected idle or label:target, found ``".to_string(),
        ),
        (
            "0,Idle",
            "item 2: expected idle or label:target, found `Idle`".to_string(),
        ),
    ];
    for (half, wrong) in faults {
        let complaint = format!("join: --left: {wrong}; see yenuslap join --help");
        complains(
            &["join", "-", "--left", half, "--right", "0"],
            &CASE_A,
            2,
            &complaint,
        );
    }
    let hex = [
        (
            "0",
            "expected two hexadecimal digits a byte, found an odd number",
        ),
        (
            "00ffzz",
            "column 5: expected a hexadecimal digit, found `z`",
        ),
        ("0é", "column 2: expected a hexadecimal digit, found `é`"),
    ];
    for (half, wrong) in hex {
        let complaint = format!("join: --right: {wrong}; see yenuslap join --help");
        let arguments = ["join", "-", "--hex", "--left", "00", "--right", half];
        complains(&arguments, &CASE_A, 2, &complaint);
    }
}
