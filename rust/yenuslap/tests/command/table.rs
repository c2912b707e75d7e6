//! `table`: Aldebaran texts read into tables.

use std::fs;

use crate::program::{complains, prints, run_with};

/// A machine, its rows not in our order, and its table.
const TEXT: &str = "des (1,3,2)\n(1,\"i\",0)\n(0,\"a2?\",1)\n(0,\"a1!\",1)\n";
const SECTION: &str = "# first state 1, pairs 2 or more\nleft 2\n  0 1 1\n  0 4 1\n  1 0 0\n";

/// The section of either side, from standard input and from a file.
#[test]
fn sections() {
    prints(&["table", "-"], TEXT.as_bytes(), SECTION);
    prints(&["table", "-", "--left"], TEXT.as_bytes(), SECTION);
    let right = SECTION.replace("left", "right");
    prints(&["table", "--right", "-"], TEXT.as_bytes(), &right);
    let stand = "# first state 0, pairs 2 or more\nleft 2\n  0 1 1\n  0 3 1\n  1 0 0\n";
    prints(&["table", "cases/stand.aut"], b"", stand);
}

/// The least number of pairs is that of the highest label.
#[test]
fn least_pairs() {
    for (label, number, pairs) in [
        ("i", 0, 0),
        ("a1!", 1, 1),
        ("a1?", 2, 1),
        ("a2!", 3, 2),
        ("a15?", 30, 15),
    ] {
        let text = format!("des (0,1,1)\n(0,\"{label}\",0)\n");
        let section = format!("# first state 0, pairs {pairs} or more\nleft 1\n  0 {number} 0\n");
        prints(&["table", "-"], text.as_bytes(), &section);
    }
}

/// Both sections, pasted into a text, make a casebook with these tables.
#[test]
fn pasted() {
    let section = |side: &str| run_with(&["table", "-", side], TEXT.as_bytes()).text();
    let (left, right) = (section("--left"), section("--right"));
    let text = format!("pairs 2\n{left}{right}log 1 1\nquestion true\n");
    let book = run_with(&["write", "-"], text.as_bytes());
    assert_eq!(book.status, Some(0), "{}", book.err);
    prints(&["aut", "-", "--right"], &book.out, &sorted(TEXT));
}

/// A text with its rows in our order, by hand.
fn sorted(text: &str) -> String {
    let lines: Vec<&str> = text.lines().collect();
    format!("{}\n{}\n{}\n{}\n", lines[0], lines[3], lines[2], lines[1])
}

/// `--dot` draws the machine, with an arrow to its first state.
#[test]
fn graph() {
    let graph =
        "digraph table {\n  label=\"standard input\";\n  rankdir=LR;\n  node [shape=circle];\n  \
         state_start [shape=point];\n  state_0 [label=\"0\"];\n  state_1 [label=\"1\"];\n  \
         state_start -> state_1;\n  state_0 -> state_1 [label=\"1\"];\n  \
         state_0 -> state_1 [label=\"4\"];\n  state_1 -> state_0 [label=\"0\"];\n}\n";
    prints(&["table", "--dot", "-"], TEXT.as_bytes(), graph);
}

/// `-o` writes a file, section or graph; what is refused is not written.
#[test]
fn output_option() {
    let path = std::env::temp_dir().join(format!("yenuslap-table-{}", std::process::id()));
    let name = path.to_str().unwrap();
    prints(&["table", "-", "-o", name], TEXT.as_bytes(), "");
    assert_eq!(fs::read_to_string(&path).unwrap(), SECTION);
    prints(&["table", "-", "--dot", "-o", name], TEXT.as_bytes(), "");
    let graph = fs::read_to_string(&path).unwrap();
    assert!(graph.starts_with("digraph table {\n"), "{graph}");
    fs::remove_file(&path).unwrap();
    prints(&["table", "-", "-o-"], TEXT.as_bytes(), SECTION);
    let ran = run_with(&["table", "-", "-o", name], b"des (0,0,65)\n");
    assert_eq!((ran.status, path.exists()), (Some(1), false));
}

/// Demands that a text is refused under a number with a sentence.
fn refused(text: &[u8], number: u32, sentence: &str) {
    let complaint = format!("standard input: refused {number}: {sentence}");
    complains(&["table", "-"], text, 1, &complaint);
}

/// 19 in the header: what was expected, and where.
#[test]
fn headers_not_of_form() {
    let header = "expected the header des (first,rows,states)";
    for (text, place, sentence) in [
        ("", 1, format!("{header}, found the end of the text")),
        ("\n", 1, format!("{header}, found the end of the line")),
        ("(0,\"i\",0)\n", 1, format!("{header}, found `(`")),
        ("Des (0,0,1)\n", 1, format!("{header}, found `Des`")),
        (
            "desk (0,0,1)\n",
            4,
            "expected one blank behind des, found `k`".into(),
        ),
        ("des x(0,0,1)\n", 5, "expected `(`, found `x`".into()),
        (
            "des (,0,1)\n",
            6,
            "expected a number (the first state), found `,`".into(),
        ),
        (
            "des (-1,0,1)\n",
            6,
            "expected a number (the first state), found `-`".into(),
        ),
        (
            "des (0;0,1)\n",
            7,
            "expected `,` behind the first state, found `;`".into(),
        ),
        (
            "des (0,)\n",
            8,
            "expected a number (the row count), found `)`".into(),
        ),
        (
            "des (0,100000,1)\n",
            8,
            "expected a number of at most five digits (the row count), found `100000`".into(),
        ),
        (
            "des (0,0)\n",
            9,
            "expected `,` behind the row count, found `)`".into(),
        ),
        (
            "des (0,0,x1)\n",
            10,
            "expected a number (the number of states), found `x1`".into(),
        ),
        (
            "des (0,0,1,1)\n",
            11,
            "expected `)` behind the number of states, found `,`".into(),
        ),
        (
            "des (0,0,1)\u{e9}\n",
            12,
            "expected the end of the line, found `\u{e9}`".into(),
        ),
    ] {
        let place = format!("line 1, column {place}: {sentence}");
        refused(text.as_bytes(), 19, &place);
    }
    refused(
        b"\xff\n",
        19,
        &format!("line 1, column 1: {header}, found byte ff"),
    );
}

/// 19 in a row; columns count characters.
#[test]
fn rows_not_of_form() {
    for (row, column, sentence) in [
        (
            "0,\"i\",0)",
            1,
            "expected `(` of a row (from,\"label\",to), found `0`",
        ),
        (
            "des (0,1,1)",
            1,
            "expected `(` of a row (from,\"label\",to), found `des`",
        ),
        ("(x,\"i\",0)", 2, "expected a number (from), found `x`"),
        (
            "(123456,\"i\",0)",
            2,
            "expected a number of at most five digits (from), found `123456`",
        ),
        ("(0\"i\",0)", 3, "expected `,` behind from, found `\\\"`"),
        ("(0,i)", 4, "expected `\"` before the label, found `i`"),
        (
            "(0,'i\",0)",
            4,
            "expected `\"` before the label, found `\\'`",
        ),
        (
            "(0,\"\u{e9}\u{e9},0)",
            10,
            "expected `\"` behind the label, found the end of the line",
        ),
        (
            "(0,\"\u{e9}\"i\",0)",
            7,
            "expected `,` behind the label, found `i`",
        ),
        ("(0,\"i\")", 7, "expected `,` behind the label, found `)`"),
        ("(0,\"i\",)", 8, "expected a number (to), found `)`"),
        (
            "(0,\"i\",0",
            9,
            "expected `)` behind to, found the end of the line",
        ),
        (
            "(0,\"i\",0);",
            10,
            "expected the end of the line, found `;`",
        ),
    ] {
        let text = format!("des (0,2,1)\n(0,\"i\",0)\n{row}\n");
        let place = format!("line 3, column {column}: {sentence}");
        refused(text.as_bytes(), 19, &place);
    }
    // A blank line that is not at the end is not repaired either.
    let text = b"des (0,1,1)\n\n(0,\"i\",0)\n";
    let sentence = "expected `(` of a row (from,\"label\",to), found the end of the line";
    refused(text, 19, &format!("line 2, column 1: {sentence}"));
}

/// 20: the lines against the header, the first state against the states, or both.
#[test]
fn wrong_headers() {
    for (header, column, sentence) in [
        (
            "(0,2,1)",
            8,
            "the header says 2 rows, but has 1 line below it; a row count of 1 would be right",
        ),
        (
            "(0,0,1)",
            8,
            "the header says 0 rows, but has 1 line below it; a row count of 1 would be right",
        ),
        (
            "(3,1,3)",
            6,
            "the first state, 3, is not below the number of states, 3; the states are 0 to 2",
        ),
        (
            "(1,1,1)",
            6,
            "the first state, 1, is not below the number of states, 1; the only state is 0",
        ),
        (
            "(0,1,0)",
            6,
            "the first state, 0, is not below the number of states, 0; a table has 1 to 64 states",
        ),
        (
            "(256,99999,1)",
            6,
            "the first state, 256, is not below the number of states, 1; the only state is 0; \
             also, the header says 99999 rows, but has 1 line below it; a row count of 1 would be right",
        ),
    ] {
        let text = format!("des {header}\n(9,\"no label\",9)\n");
        let place = format!("line 1, column {column}: {sentence}");
        refused(text.as_bytes(), 20, &place);
    }
}

/// How labels are spelled, as a refusal says it.
const LABELS: &str = "labels are spelled i for the silent step, and a1! and a1? to a15! and a15?";

/// 21: the first label that is not spelled as one, as the text has it.
#[test]
fn unknown_labels() {
    for label in [
        "", "I", "a0!", "a16?", "a01!", "a1", "a1!!", " i", "i\r", "a,b)", "\u{e9}", "taus",
    ] {
        let text = format!("des (0,3,65)\n(0,\"i\",9)\n(12,\"{label}\",0)\n(0,\"j\",0)\n");
        let label = label.replace('\r', "\\r");
        let sentence = format!(
            "line 3, column 6: label `{label}` is not one of ours; {LABELS}; \
             --labels MAP renames those of other tools"
        );
        refused(text.as_bytes(), 21, &sentence);
    }
    let sentence = format!(
        "line 2, column 5: label `tau` is not one of ours; {LABELS}; --tidy writes it as i"
    );
    refused(b"des (0,1,1)\n(0,\"tau\",0)\n", 21, &sentence);
}

/// 5, 6 and 7, each with its line, whatever faults of later numbers stand before it.
#[test]
fn wrong_rows() {
    for (header, rows, number, sentence) in [
        (
            "0,1,65",
            "(99,\"i\",0)",
            5,
            "line 1, column 10: there are 65 states; a table has 1 to 64",
        ),
        (
            "0,0,99999",
            "",
            5,
            "line 1, column 10: there are 99999 states; a table has 1 to 64",
        ),
        (
            "0,3,2",
            "(0,\"i\",0) (0,\"i\",0) (2,\"i\",2)",
            5,
            "line 4, column 2: from 2 is out of range; the table has 2 states, counted from 0",
        ),
        (
            "0,1,1",
            "(0,\"a15?\",256)",
            5,
            "line 2, column 11: to 256 is out of range; the table has 1 state, counted from 0",
        ),
        (
            "0,4,2",
            "(1,\"a1!\",0) (0,\"i\",1) (0,\"i\",0) (1,\"a1!\",0)",
            6,
            "line 5, column 1: (1,\"a1!\",0) stands in line 2 too; a row is given once",
        ),
        (
            "0,10,2",
            "(0,\"i\",0) (0,\"i\",1) (0,\"a1!\",0) (0,\"a1!\",1) (0,\"a1?\",0) (1,\"i\",0) \
             (0,\"a1?\",1) (0,\"a2!\",0) (0,\"a2!\",1) (0,\"a2?\",1)",
            7,
            "line 11, column 1: it is a ninth row from state 0; at most 8 rows leave one state",
        ),
    ] {
        let rows: String = rows
            .split_whitespace()
            .map(|row| format!("{row}\n"))
            .collect();
        let text = format!("des ({header})\n{rows}");
        refused(text.as_bytes(), number, sentence);
    }
}

/// A casebook is no text, and a text is no casebook; input without end is not read to its end.
#[test]
fn other_files() {
    let sentence = "expected the header des (first,rows,states), found `\\u{3}`";
    let complaint = format!("cases/a.casebook: refused 19: line 1, column 1: {sentence}");
    complains(&["table", "cases/a.casebook"], b"", 1, &complaint);
    complains(
        &["table", "/dev/zero"],
        b"",
        2,
        "/dev/zero: a text has at most 16777216 bytes",
    );
    complains(
        &["table", "none"],
        b"",
        2,
        "none: No such file or directory",
    );
}

/// A text of 99,999 lines is looked through whole.
#[test]
fn many_lines() {
    let rows = (0..99_999).map(|row| format!("({},\"j{row}\",0)\n", row % 64));
    let text = format!("des (0,99999,64)\n{}", rows.collect::<String>());
    let sentence = format!(
        "line 2, column 5: label `j0` is not one of ours; {LABELS}; --labels MAP renames those of other tools"
    );
    refused(text.as_bytes(), 21, &sentence);
    let text = text.replace("99999", "99998");
    refused(
        text.as_bytes(),
        20,
        "line 1, column 8: the header says 99998 rows, but has 99999 lines below it; \
         a table has at most 512 rows",
    );
}

/// Of 99,999 lines the last one gives the row of the first again.
#[test]
fn double_in_the_last_line() {
    let row = |n: usize| {
        let (from, label, to) = (n / 1920, n / 64 % 30, n % 64);
        format!(
            "({from},\"a{}{}\",{to})\n",
            label / 2 + 1,
            ["!", "?"][label % 2]
        )
    };
    let rows: String = (0..99_998).map(row).collect();
    refused(
        format!("des (0,99999,64)\n{rows}{}", row(0)).as_bytes(),
        6,
        "line 100000, column 1: (0,\"a1!\",0) stands in line 2 too; a row is given once",
    );
}

/// Options and operands that are wrong.
#[test]
fn misuse() {
    let faults: [(&[&str], &str); 7] = [
        (&["table"], "a file is missing (- is standard input)"),
        (&["table", "-", "b"], "one file is enough: `b`"),
        (
            &["table", "-", "--left", "--right"],
            "options --left and --right do not go together",
        ),
        (
            &["table", "-", "--dot", "--right"],
            "options --dot and --right do not go together",
        ),
        (
            &["table", "-", "--left", "--dot"],
            "options --dot and --left do not go together",
        ),
        (&["table", "-", "--labels"], "option --labels needs a value"),
        (
            &["table", "-", "--labels", "-"],
            "- stands more than once, and can be read only once",
        ),
    ];
    for (arguments, fault) in faults {
        let complaint = format!("table: {fault}; see yenuslap table --help");
        complains(arguments, TEXT.as_bytes(), 2, &complaint);
    }
}
