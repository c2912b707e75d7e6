//! `quotient`: in the usual notation and as bytes.

use crate::books::{case_a_asking, CASE_A};
use crate::program::{complains, prints, run};

/// Demands these quotients on case A's machines and log, under this question, by the side that the options name.
fn quotients(question: &[u8], options: &[&str], expected: &str) {
    let book = case_a_asking(question);
    prints(&[&["quotient", "-"], options].concat(), &book, expected);
}

/// The same by the right half, as all of document 01's.
fn by_the_right(question: &[u8], options: &[&str], expected: &str) {
    quotients(question, &[&["--known=right"], options].concat(), expected);
}

/// Back by 0 over true: case A's own question.
const BACK_BY_0: [u8; 4] = [6, 0, 0, 0];

/// Document 01's quotients on case A's machines, known side right.
#[test]
fn document_01() {
    let hex = |options: &[&'static str]| [&["--hex"], options].concat();
    by_the_right(&BACK_BY_0, &[], "0 <-1> true\n1 <-3> true\n");
    by_the_right(&BACK_BY_0, &hex(&[]), "0 06010000\n1 06030000\n");
    by_the_right(&BACK_BY_0, &hex(&["--point", "0"]), "0 0100\n1 0100\n");
    by_the_right(&BACK_BY_0, &["--point=0"], "0 false\n1 false\n");
    // Back by 1 over true, at point 1.
    by_the_right(&[6, 1, 0, 0], &hex(&["--splitting", "0"]), "0 0100\n");
    // Forward by 0 over true, at point 0.
    let ahead = ["--point", "0", "--splitting", "1"];
    by_the_right(
        &[5, 0, 0, 0],
        &hex(&ahead),
        "1 04000500000004000501000005030000\n",
    );
    by_the_right(
        &[5, 0, 0, 0],
        &ahead,
        "1 <0> true or <1> true or <3> true\n",
    );
    // Forward by 2 over true, at point 0.
    by_the_right(&[5, 2, 0, 0], &hex(&ahead), "1 04000502000007000000\n");
    by_the_right(&[5, 2, 0, 0], &ahead, "1 <2> true or <idle> true\n");
}

/// Both sides: by the left half partners are the right's labels.
#[test]
fn known_sides() {
    let by_left = "0 <-2> true\n1 <-4> true\n";
    quotients(&BACK_BY_0, &["--known", "left"], by_left);
    quotients(&BACK_BY_0, &["--known=right"], "0 <-1> true\n1 <-3> true\n");
    let loops = ["quotient", "cases/loops.casebook", "--hex"];
    let with = |side| [&loops[..], &[side]].concat();
    prints(&with("--known=right"), b"", "0 06010000\n1 08000000\n");
    prints(&with("--known=left"), b"", "0 08000000\n1 06010000\n");
}

/// 3,734 nodes are given, and spelled; 4,463 are refused.
#[test]
fn sizes() {
    let name = "cases/largest_quotient_3734_nodes.casebook";
    let ran = run(&["quotient", "--known=right", "--hex", name]);
    assert_eq!(ran.text().len(), "0 \n".len() + 3_734 * 4);
    let spelled = run(&["quotient", "--known=right", name]).text();
    let words = spelled
        .split([' ', '\n', '(', ')'])
        .filter(|word| !word.is_empty());
    // Each node is one word; the number of the splitting is one more.
    assert_eq!(words.count(), 3_734 + 1);
    let name = "cases/too_large_4463_nodes.casebook";
    let ran = run(&["quotient", "--known=right", name]);
    let sentence = "the quotient at point 0 has over 4,096 nodes, and no larger one is written";
    assert_eq!(ran.text(), "0 refused 17\n");
    assert_eq!(
        ran.err,
        format!("yenuslap: {name}: refused 17: {sentence}\n")
    );
    assert_eq!(ran.status, Some(1));
}

/// One quotient that is too large hides no other: the lines are those of the stored sheet at the last point.
#[test]
fn too_large_in_some_splittings() {
    let name = "cases/too_large_in_some_splittings";
    let sheet =
        std::fs::read_to_string(crate::program::root().join(format!("{name}.sheet"))).unwrap();
    let expected: Vec<String> = sheet
        .lines()
        .map(|line| line.split(' ').collect::<Vec<&str>>())
        .filter(|fields| fields[0] == "3")
        .map(|fields| match fields[3] {
            "17" => format!("{} refused 17", fields[1]),
            hex => format!("{} {hex}", fields[1]),
        })
        .collect();
    let ran = run(&[
        "quotient",
        "--hex",
        "--known=right",
        &format!("{name}.casebook"),
    ]);
    assert_eq!(ran.text().lines().collect::<Vec<&str>>(), expected);
    assert!(expected.iter().any(|line| line.ends_with("refused 17")));
    assert!(!expected.iter().all(|line| line.ends_with("refused 17")));
    assert_eq!(ran.status, Some(1));
}

/// 12, 13 and 14; 12 comes first.
#[test]
fn refused() {
    let refused = |file: &str, options: &[&str], complaint: &str| {
        let call = [&["quotient", file, "--known=right"], options].concat();
        complains(&call, &CASE_A, 1, complaint);
    };
    let beyond = "standard input: refused 12: point 9 is beyond the log; it has 1 step, so its points are 0 to 1";
    refused("-", &["--point", "9"], beyond);
    refused("-", &["--point=9", "--splitting=9"], beyond);
    let none = "standard input: refused 14: there is no splitting 9; the log has 2 splittings, counted from 0";
    refused("-", &["--splitting=9"], none);
    let name = "cases/refused_13_sixteen_two_way_steps.casebook";
    let many = format!("{name}: refused 13: the log has over 65,535 splittings, from step 16 on; no number names one of so many");
    refused(name, &[], &many);
    refused(name, &["--splitting=0"], &many);
}

/// By halves that are given: those of a splitting have its quotient, and no number is needed.
#[test]
fn by_halves() {
    let first = ["--left", "0,1:1", "--right", "0,2:1"];
    let with = |more: &[&'static str]| [&first[..], more].concat();
    by_the_right(&BACK_BY_0, &first, "<-1> true\n");
    quotients(&BACK_BY_0, &with(&["--known=left"]), "<-2> true\n");
    by_the_right(&BACK_BY_0, &with(&["--point=0"]), "false\n");
    let hex = ["--hex", "--left=000301", "--right=000401"];
    by_the_right(&BACK_BY_0, &hex, "06030000\n");
    // Halves need not be those of the casebook's log: here the left moves alone.
    by_the_right(
        &[6, 1, 0, 0],
        &["--left=0,1:1", "--right=0,idle"],
        "<-1> true\n",
    );
    // Sixteen two-way steps by label 1 have over 65,535 splittings; in this one the right made the last.
    let name = "cases/refused_13_sixteen_two_way_steps.casebook";
    let left = format!("--left=0{},idle", ",1:0".repeat(15));
    let right = format!("--right=0{},1:0", ",idle".repeat(15));
    let call = |side| ["quotient", name, left.as_str(), right.as_str(), side];
    prints(&call("--known=right"), b"", "<-idle> true\n");
    prints(&call("--known=left"), b"", "<-1> true\n");
}

/// 12, 15, 16 and 17 of halves that are given.
#[test]
fn refused_halves() {
    let refused = |halves: [&str; 2], more: &[&str], number: u8, sentence: &str| {
        let given = ["quotient", "-", "--left", halves[0], "--right", halves[1]];
        let complaint = format!("standard input: refused {number}: {sentence}");
        complains(&[&given, more].concat(), &CASE_A, 1, &complaint);
    };
    let beyond = |side: &str| {
        format!("point 2 is beyond the known half, the {side} one; it has 1 step, so its points are 0 to 1")
    };
    let (longer, shorter) = (["0,1:1,idle", "0,2:1"], ["0,1:1", "0,2:1,idle"]);
    let (by_left, by_right) = (
        ["--point=2", "--known=left"],
        ["--point=2", "--known=right"],
    );
    refused(longer, &by_right, 12, &beyond("right"));
    refused(shorter, &by_left, 12, &beyond("left"));
    let unequal =
        "the left half has 2 steps and the right half 1 step; matching halves are equally long";
    refused(longer, &by_left, 16, unequal);
    let no_row =
        "step 1 of the left half goes from 0 by label 2 to 1, and the left table has no such row";
    refused(["0,2:1", "0,2:1"], &["--known=right"], 15, no_row);
    let even = "the right half has 2 bytes; a half has one byte, and two for each step";
    refused(["00", "00ff"], &["--hex", "--known=right"], 12, even);
    refused(["00", "00ff"], &["--hex", "--known=left"], 15, even);
    let name = "cases/too_large_4463_nodes.casebook";
    let large = format!("{name}: refused 17: the quotient at point 0 has over 4,096 nodes, and no larger one is written");
    let call = ["quotient", name, "--left=0", "--right=0", "--known=right"];
    complains(&call, b"", 1, &large);
}
