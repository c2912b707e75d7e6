//! Texts that are refused, with the line of the fault, and texts that are of another form.

use crate::program::{complains, run_with};

/// A text in five sections, one of which is replaced.
fn text_with(section: usize, replaced: &str) -> String {
    let mut sections = [
        "pairs 2\n",
        "left 2\n  0 1 1\n  0 3 1\n",
        "right 2\n  0 2 1\n  0 4 1\n",
        "log 0 0\n  0 1 1\n",
        "question <-0> true\n",
    ];
    sections[section] = replaced;
    sections.concat()
}

/// Demands a refusal of the text with this section replaced.
fn refused(section: usize, replaced: &str, number: u8, sentence: &str) {
    let complaint = format!("standard input: refused {number}: {sentence}");
    complains(
        &["write", "-"],
        text_with(section, replaced).as_bytes(),
        1,
        &complaint,
    );
}

/// Numbers 4 to 10, each with its line; the lines are those of the whole text.
#[test]
fn refused_with_its_line() {
    refused(
        0,
        "# a comment\n\npairs 16\n",
        4,
        "line 3, column 1: k: there are 16 pairs; a casebook has at most 15",
    );
    refused(
        1,
        "left 0\n",
        5,
        "line 2, column 1: n of the left table: n is 0; a table has 1 to 64 states",
    );
    refused(
        2,
        "right 65\n",
        5,
        "line 5, column 1: n of the right table: n is 65; a table has 1 to 64 states",
    );
    refused(1, "left 2\n  0 1 1\n  # no row\n  0 5 1\n", 5, "line 5, column 3: row 2 of the left table: label 5 is out of range; with k 2 the labels are 0 to 4");
    refused(2, "right 2\n 0 2 2\n", 5, "line 6, column 2: row 1 of the right table: to 2 is out of range; the table has 2 states, counted from 0");
    refused(1, "left 2\n  0 3 1\n  0 1 1\n", 6, "line 4, column 3: row 2 of the left table: 0 1 1 is not above the row before it, 0 3 1; rows rise strictly by from, label and to");
    refused(3, "log 0 2\n", 8, "line 8, column 1: the log's start states: right start state 2 is out of range; the right table has 2 states, counted from 0");
    refused(3, "log 0 0\n  idle 0 0\n\n  1 1 1\n", 8, "line 11, column 3: step 2 of the log: label 1 from (0, 0) to (1, 1) is not real; neither machine makes this step alone, no handshake makes it, and it is no joint idle");
    refused(4, "question not\n  <9> true\n", 9, "line 11, column 3: node 2 of the question: label 9 is out of range; with k 2 the labels are 0 to 4");
    refused(4, "question <1><1><1><1>\n<idle> true\n", 10, "line 11, column 1: node 5 of the question: it is a forward modality under four others; forward modalities nest at most 4 deep");
}

/// 7, and 3 for a part that is too long: 513 rows, 201 steps; 9 for 65 nodes.
#[test]
fn too_many_entries() {
    let rows: String = (0..9).map(|to| format!("0 0 {to}\n")).collect();
    refused(1, &format!("left 9\n{rows}"), 7, "line 11, column 1: row 9 of the left table: it is a ninth row from state 0; at most 8 rows leave one state");
    let rows: String = (0..=64)
        .flat_map(|from| (0..8).map(move |to| format!("{from} 0 {to}\n")))
        .collect();
    refused(1, &format!("left 64\n{rows}"), 3, "line 515, column 1: row 513 of the left table: with this row the table is too long; its record has a length of at most 1,539");
    // The length is judged before the rows, so an earlier fault is not meant.
    let faulty = rows.replacen("0 0 0", "0 99 0", 1);
    refused(1, &format!("left 64\n{faulty}"), 3, "line 515, column 1: row 513 of the left table: with this row the table is too long; its record has a length of at most 1,539");
    let steps = "idle 0 0\n".repeat(250);
    refused(3, &format!("log 0 0\n{steps}"), 3, "line 209, column 1: step 201 of the log: with this step the log is too long; it has at most 200 steps");
    let nots = "not ".repeat(64);
    refused(4, &format!("question {nots}true"), 9, "line 10, column 262: node 64 of the question: with this node the tree is too large; a question has at most 64 nodes");
    let most = "not ".repeat(63);
    assert_eq!(
        run_with(
            &["write", "-"],
            text_with(4, &format!("question {most}true")).as_bytes()
        )
        .status,
        Some(0)
    );
}

/// Demands a syntax error: status 2, and nothing written.
fn wrong(text: &str, place: &str, message: &str) {
    let complaint = format!("standard input: {place}: {message}");
    complains(&["write", "-"], text.as_bytes(), 2, &complaint);
}

/// Line, column and what was expected.
#[test]
fn syntax_errors() {
    let byte = "(a number from 0 to 255)";
    wrong(
        "",
        "line 1, column 1",
        "expected `pairs`, found the end of the text",
    );
    wrong(
        "# nothing\n",
        "line 1, column 10",
        "expected `pairs`, found the end of the text",
    );
    wrong(
        "pair 2",
        "line 1, column 1",
        "expected `pairs`, found `pair`",
    );
    wrong(
        "pairs\n2",
        "line 1, column 6",
        "expected the number of pairs, found the end of the line",
    );
    wrong(
        "pairs 2 3",
        "line 1, column 9",
        "expected the end of the line, found `3`",
    );
    wrong(
        "pairs two",
        "line 1, column 7",
        &format!("expected the number of pairs {byte}, found `two`"),
    );
    wrong(
        "pairs -1",
        "line 1, column 7",
        &format!("expected the number of pairs {byte}, found `-`"),
    );
    wrong(
        "pairs 256",
        "line 1, column 7",
        &format!("expected the number of pairs {byte}, found `256`"),
    );
    wrong(
        "pairs 2\nright 2",
        "line 2, column 1",
        "expected `left`, found `right`",
    );
    wrong(
        &text_with(1, "left 2\n  0 1\n"),
        "line 3, column 6",
        "expected a target, found the end of the line",
    );
    wrong(
        &text_with(1, "left 2\n  0 1 1 1\n"),
        "line 3, column 9",
        "expected the end of the line, found `1`",
    );
    wrong(
        &text_with(1, "left 2\n  0 idle 1\n"),
        "line 3, column 5",
        &format!("expected a label {byte}, found `idle`"),
    );
    wrong(
        &text_with(1, "left 2\n  0 1 99999999999999999999\n"),
        "line 3, column 7",
        &format!("expected a target {byte}, found `99999999999999999999`"),
    );
    wrong(
        &text_with(2, ""),
        "line 5, column 1",
        "expected a row (from, label, to) or `right`, found `log`",
    );
    wrong(
        &text_with(3, ""),
        "line 8, column 1",
        "expected a row (from, label, to) or `log`, found `question`",
    );
    wrong(
        &text_with(3, "log 0\n"),
        "line 8, column 6",
        "expected the right start state, found the end of the line",
    );
    wrong(
        &text_with(3, "log 0 0\n  rest 1 1\n"),
        "line 9, column 3",
        "expected a step (label, left target, right target) or `question`, found `rest`",
    );
    wrong(&text_with(4, ""), "line 9, column 8", "expected a step (label, left target, right target) or `question`, found the end of the text");
    // Columns are characters: this blank has two bytes.
    let expected = format!("expected the number of pairs {byte}, found `x`");
    wrong("pairs\u{a0}x", "line 1, column 7", &expected);
    wrong(
        "\u{1b}[31m",
        "line 1, column 1",
        "expected `pairs`, found `\\u{1b}`",
    );
}

/// The same for statements.
#[test]
fn wrong_statements() {
    let statement = "expected a statement (true, false, not, <label> or a parenthesis)";
    let label = "expected a label or idle (a number from 0 to 255)";
    let after = "expected and, or, or the end of the statement";
    let faults = [
        ("", 9, format!("{statement}, found the end of the text")),
        ("yes", 10, format!("{statement}, found `yes`")),
        ("and true", 10, format!("{statement}, found `and`")),
        ("not", 13, format!("{statement}, found the end of the text")),
        (
            "true and",
            18,
            format!("{statement}, found the end of the text"),
        ),
        ("()", 11, format!("{statement}, found `)`")),
        ("<> true", 11, format!("{label}, found `>`")),
        ("<300> true", 11, format!("{label}, found `300`")),
        ("<-Idle> true", 12, format!("{label}, found `Idle`")),
        ("<1 true", 13, "expected `>`, found `true`".to_string()),
        ("true false", 15, format!("{after}, found `false`")),
        ("true)", 14, format!("{after}, found `)`")),
        ("true & true", 15, format!("{after}, found `&`")),
        (
            "(true",
            15,
            "expected `)` for the parenthesis at line 10, column 10, found the end of the text"
                .to_string(),
        ),
        (
            "(true true)",
            16,
            "expected and, or, or `)`, found `true`".to_string(),
        ),
    ];
    for (text, column, message) in faults {
        let text = text_with(4, format!("question {text}").trim_end());
        wrong(&text, &format!("line 10, column {column}"), &message);
    }
}

/// Nesting without end, on any operator, is told and does not overflow the stack.
#[test]
fn deep_nesting() {
    for (open, width) in [
        ("(", 1),
        ("not ", 4),
        ("<1>", 3),
        ("true and ", 9),
        ("(true or ", 9),
    ] {
        let nested = open.repeat(100_000);
        let text = text_with(4, &format!("question {nested}true"));
        let ran = run_with(&["write", "-"], text.as_bytes());
        assert!(
            ran.err.ends_with(": a statement nests at most 4096 deep\n"),
            "{open}: {}",
            ran.err
        );
        assert_eq!(ran.status, Some(2), "{open} of {width}");
    }
    // The limit itself is taken: what is refused then is the engine's to say.
    let text = text_with(
        4,
        &format!("question {}true{}", "(".repeat(4_096), ")".repeat(4_096)),
    );
    assert_eq!(run_with(&["write", "-"], text.as_bytes()).status, Some(0));
    let text = text_with(4, &format!("question {}true", "not ".repeat(4_096)));
    assert_eq!(run_with(&["write", "-"], text.as_bytes()).status, Some(1));
    // Chains to the left are no nesting.
    let text = text_with(
        4,
        &format!("question {}true", "true and true or ".repeat(2_000)),
    );
    assert_eq!(run_with(&["write", "-"], text.as_bytes()).status, Some(1));
}

/// A text of more than a megabyte is not read to its end.
#[test]
fn long_texts() {
    let text = format!(
        "{}{}",
        "# much\n".repeat(150_000),
        text_with(0, "pairs 2\n")
    );
    let complaint = "standard input: a text has at most 1048576 bytes";
    complains(&["write", "-"], text.as_bytes(), 2, complaint);
}
