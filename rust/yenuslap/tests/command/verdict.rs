//! `verdict`: on the log, on a half, for the line office.

use crate::books::CASE_A;
use crate::program::{complains, prints, root, run, run_with};

/// Demands these verdicts on case A.
fn verdicts(options: &[&str], expected: &str) {
    prints(&[&["verdict", "-"], options].concat(), &CASE_A, expected);
}

/// The joint verdicts that document 01 states for case A's machines.
#[test]
fn on_the_log() {
    verdicts(&[], "point 0: F\npoint 1: T\n");
    verdicts(&["--point", "1"], "point 1: T\n");
    verdicts(&["--formula", "<-1> true", "--point=1"], "point 1: F\n");
    verdicts(&["--formula", "<0> true", "--point", "0"], "point 0: T\n");
    verdicts(&["--formula", "<2> true", "--point", "0"], "point 0: T\n");
    verdicts(&["--formula", "<idle> true"], "point 0: T\npoint 1: T\n");
    verdicts(
        &["--formula", "<-idle> true or not <1> true"],
        "point 0: F\npoint 1: T\n",
    );
}

/// On halves: splitting 0 has the left move by 1 and the right by 2; a handshake is no step of one machine.
#[test]
fn on_a_half() {
    let left = ["--half", "left", "--splitting", "0"];
    let with = |formula| [&left[..], &["--formula", formula]].concat();
    verdicts(&left, "point 0: F\npoint 1: F\n");
    verdicts(&with("<-1> true"), "point 0: F\npoint 1: T\n");
    verdicts(&with("<1> true"), "point 0: T\npoint 1: F\n");
    verdicts(&with("<2> true"), "point 0: F\npoint 1: F\n");
    verdicts(&with("<0> true"), "point 0: F\npoint 1: F\n");
    let right = [
        "--side=right",
        "--splitting=1",
        "--formula=<-4> true",
        "--point=1",
    ];
    verdicts(&right, "point 1: T\n");
}

/// For the line office: both verdicts, and the machine that is judged.
#[test]
fn for_the_line_office() {
    let office = ["--line-office", "--splitting", "1"];
    let with = |more: &[&'static str]| [&office[..], more].concat();
    let by_right = "point 0: line F, left machine F\npoint 1: line T, left machine T\n";
    verdicts(&with(&["--known", "right"]), by_right);
    let by_left = "point 0: line F, right machine F\npoint 1: line T, right machine T\n";
    verdicts(&with(&["--known", "left"]), by_left);
    let ahead = "point 0: line T, right machine T\n";
    verdicts(
        &with(&["--known=left", "--point=0", "--formula=<2> true"]),
        ahead,
    );
}

/// 12, 13, 14 and 17.
#[test]
fn refused() {
    let beyond = "standard input: refused 12: point 2 is beyond the log; it has 1 step, so its points are 0 to 1";
    let halves = ["--splitting", "0"];
    complains(&["verdict", "-", "--point", "2"], &CASE_A, 1, beyond);
    let subjects: [(&[&str], &str); 4] = [
        (&["--half", "left"], "the left half"),
        (&["--half", "right"], "the right half"),
        (
            &["--line-office", "--known=left"],
            "the known half, the left one",
        ),
        (
            &["--line-office", "--known=right"],
            "the known half, the right one",
        ),
    ];
    for (more, judged) in subjects {
        let arguments = [&["verdict", "-", "--point", "2"], &halves[..], more].concat();
        let beyond = beyond.replace("the log", judged);
        complains(&arguments, &CASE_A, 1, &beyond);
    }
    let none = "standard input: refused 14: there is no splitting 2; the log has 2 splittings, counted from 0";
    let office = ["verdict", "-", "--line-office", "--known=right"];
    let arguments = [&office[..], &["--splitting", "2"]].concat();
    complains(&arguments, &CASE_A, 1, none);
    let ran = run(&[
        "verdict",
        "cases/refused_13_sixteen_two_way_steps.casebook",
        "--half=left",
        "--splitting=0",
    ]);
    assert!(ran
        .err
        .contains(": refused 13: the log has over 65,535 splittings, from step 16 on;"));
    let name = "cases/too_large_4463_nodes.casebook";
    let large = format!("yenuslap: {name}: refused 17: the quotient at point 0 has over 4,096 nodes, and no larger one is written\n");
    let ran = run(&[
        "verdict",
        name,
        "--line-office",
        "--splitting=0",
        "--known=right",
    ]);
    assert_eq!(ran.text(), "point 0: refused 17\n");
    assert_eq!((ran.err, ran.status), (large, Some(1)));
    // The log's own verdict needs no quotient, and its splittings need not be few.
    prints(&["verdict", name], b"", "point 0: F\n");
    let ran = run(&["verdict", "cases/refused_13_sixteen_two_way_steps.casebook"]);
    assert_eq!((ran.status, ran.text().lines().count()), (Some(0), 17));
}

/// 9 and 10 of a statement, with its column; its limits are those of a verdict or of a question.
#[test]
fn refused_statements() {
    let refused = |options: &[&str], number: u8, sentence: &str| {
        let complaint = format!("standard input: refused {number}: --formula: {sentence}");
        complains(
            &[&["verdict", "-"], options].concat(),
            &CASE_A,
            1,
            &complaint,
        );
    };
    let label = "line 1, column 10: label 5 is out of range; with k 2 the labels are 0 to 4";
    refused(&["--formula", "true and <5> true"], 9, label);
    let deep = "line 1, column 13: it is a forward modality under four others; forward modalities nest at most 4 deep";
    refused(&["--formula", "<0><1><2><3><4> true"], 10, deep);
    let most = format!("{}true", "not ".repeat(4_095));
    verdicts(&["--formula", &most, "--point", "0"], "point 0: F\n");
    let over = format!("(true or true) and {}true", "not ".repeat(4_092));
    let large = "line 1, column 16384: with this node the tree is too large; a formula has at most 4,096 nodes";
    refused(&["--formula", &over], 9, large);
    let question = format!("{}true", "not ".repeat(64));
    let large =
        "line 1, column 253: with this node the tree is too large; a question has at most 64 nodes";
    let office = ["--line-office", "--splitting=0", "--known=right"];
    refused(&[&office[..], &["--formula", &question]].concat(), 9, large);
}

/// Statements that are no text of a statement.
#[test]
fn wrong_statements() {
    let ran = run_with(&["verdict", "-", "--formula", "true and\nor"], &CASE_A);
    let wrong = "expected a statement (true, false, not, <label> or a parenthesis), found `or`";
    assert_eq!(
        ran.err,
        format!("yenuslap: verdict: --formula: line 2, column 1: {wrong}; see yenuslap verdict --help\n")
    );
    assert_eq!(ran.status, Some(2));
}

/// By halves that are given: no number is needed, and they need not be those of the casebook's log.
#[test]
fn by_halves() {
    let alone = ["--left=0,1:1", "--right=0,idle"];
    let with = |more: &[&'static str]| [&alone[..], more].concat();
    let formula = "--formula=<-1> true";
    verdicts(&with(&["--half=left", formula]), "point 0: F\npoint 1: T\n");
    verdicts(
        &with(&["--half=right", formula]),
        "point 0: F\npoint 1: F\n",
    );
    let both = "point 0: line F, left machine F\npoint 1: line T, left machine T\n";
    let office = ["--line-office", "--known=right"];
    verdicts(&with(&[&office[..], &[formula]].concat()), both);
    // Case A's own question is back by 0, and the left moved alone by 1.
    let last = "point 1: line F, left machine F\n";
    verdicts(&with(&[&office[..], &["--point=1"]].concat()), last);
    // Longer halves than the log have more points.
    let longer = ["--left=0,1:1,idle", "--right=0,2:1,idle", "--half=left"];
    verdicts(&longer, "point 0: F\npoint 1: F\npoint 2: F\n");
}

/// 15 and 16 of halves that are given: the half that is judged, and the step.
#[test]
fn refused_halves() {
    let refused = |halves: [&str; 2], subject: &[&str], number: u8, sentence: &str| {
        let given = ["verdict", "-", "--left", halves[0], "--right", halves[1]];
        let complaint = format!("standard input: refused {number}: {sentence}");
        complains(&[&given, subject].concat(), &CASE_A, 1, &complaint);
    };
    let no_row = |side: &str| {
        format!("step 1 of the {side} half goes from 0 by label 9 to 1, and the {side} table has no such row")
    };
    let wrong = ["0,9:1", "0,9:1"];
    let office = ["--line-office", "--known=right"];
    refused(wrong, &["--half=right"], 15, &no_row("right"));
    refused(wrong, &["--half=left"], 15, &no_row("left"));
    refused(wrong, &office, 15, &no_row("left"));
    let rule =
        "a move matches an idle or a move by its label's partner, and an idle matches an idle";
    let sentence = format!(
        "at step 1 the left half moves by label 1 and the right half moves by label 4; {rule}"
    );
    refused(["0,1:1", "0,4:1"], &office, 16, &sentence);
}

/// A quotient that is too large at one point hides no other point: the lines are those of the stored sheet.
#[test]
fn too_large_at_some_points() {
    let name = "cases/too_large_at_some_points";
    let sheet = std::fs::read_to_string(root().join(format!("{name}.sheet"))).unwrap();
    let fields = sheet
        .lines()
        .map(|line| line.split(' ').collect::<Vec<&str>>());
    let first = fields.filter(|fields| fields[1] == "0");
    let expected = first.map(|fields| match fields[3] {
        "17" => format!("point {}: refused 17\n", fields[0]),
        _ => format!(
            "point {}: line {}, left machine {}\n",
            fields[0], fields[2], fields[4]
        ),
    });
    let expected: String = expected.collect();
    let book = format!("{name}.casebook");
    let ran = run(&[
        "verdict",
        &book,
        "--line-office",
        "--splitting=0",
        "--known=right",
    ]);
    assert_eq!(ran.text(), expected);
    assert!(expected.contains("refused 17") && expected.contains("machine"));
    assert_eq!(ran.status, Some(1));
}
