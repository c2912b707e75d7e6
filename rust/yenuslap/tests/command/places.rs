//! Refusals 1 to 11 of a file: the number, the place, what was found and the rule, each written out by hand.

use std::fs;

use crate::books::{case_a_asking, case_a_with, record, CASE_A};
use crate::program::{root, run_with};

/// Demands the explanation of these bytes.
fn explained(bytes: &[u8], number: u8, sentence: &str) {
    let ran = run_with(&["check", "-"], bytes);
    let line = format!("standard input: refused {number}: {sentence}\n");
    assert_eq!(ran.text(), line);
    assert_eq!((ran.status, ran.err.as_str()), (Some(1), ""));
}

/// 1: where the bytes end, and which record was due.
#[test]
fn bytes_that_end_early() {
    let ends = [
        (0, "byte 0, where the pairs record (kind 1) is due"),
        (
            1,
            "byte 1, inside the header of the pairs record (kind 1) that begins at byte 0; a header has 4 bytes",
        ),
        (2, "byte 2, inside the header of the pairs record (kind 1) that begins at byte 0; a header has 4 bytes"),
        (4, "byte 4, inside the pairs record (kind 1) that begins at byte 0 and by its length goes to byte 4"),
        (5, "byte 5, where the left table record (kind 2) is due"),
        (8, "byte 8, inside the header of the left table record (kind 2) that begins at byte 5; a header has 4 bytes"),
        (15, "byte 15, inside the left table record (kind 2) that begins at byte 5 and by its length goes to byte 15"),
        (16, "byte 16, where the right table record (kind 3) is due"),
        (20, "byte 20, inside the right table record (kind 3) that begins at byte 16 and by its length goes to byte 26"),
        (27, "byte 27, where the log record (kind 4) is due"),
        (35, "byte 35, inside the log record (kind 4) that begins at byte 27 and by its length goes to byte 35"),
        (36, "byte 36, where the question record (kind 5) is due"),
        (43, "byte 43, inside the question record (kind 5) that begins at byte 36 and by its length goes to byte 43"),
    ];
    for (length, sentence) in ends {
        explained(
            &CASE_A[..length],
            1,
            &format!("the bytes end before {sentence}"),
        );
    }
}

/// 2: the kind that was found, and the one that was due.
#[test]
fn wrong_kinds() {
    let kinds = [
        (2, 9, "kind 9 (bytes 2 to 3: 09 00) where the pairs record is due, which has kind 1"),
        (7, 3, "kind 3 (bytes 7 to 8: 03 00) where the left table record is due, which has kind 2"),
        (19, 1, "kind 259 (bytes 18 to 19: 03 01) where the right table record is due, which has kind 3"),
        (29, 5, "kind 5 (bytes 29 to 30: 05 00) where the log record is due, which has kind 4"),
        (38, 0, "kind 0 (bytes 38 to 39: 00 00) where the question record is due, which has kind 5"),
    ];
    for (at, byte, sentence) in kinds {
        explained(&case_a_with(&[(at, byte)]), 2, sentence);
        // The header alone shows it: the kind is its last two bytes.
        let header_end = [4, 9, 20, 31, 40]
            .into_iter()
            .find(|end| *end > at)
            .unwrap();
        explained(&case_a_with(&[(at, byte)])[..header_end], 2, sentence);
    }
}

/// 3: the length that was found, and the lengths that there are.
#[test]
fn wrong_lengths() {
    let table = "its length is a multiple of 3 from 3 to 1,539";
    let lengths = [
        (0, 0, "the pairs record has length 0 (bytes 0 to 1: 00 00); its length is 3".to_string()),
        (0, 4, "the pairs record has length 4 (bytes 0 to 1: 04 00); its length is 3".to_string()),
        (5, 10, format!("the left table record has length 10 (bytes 5 to 6: 0a 00); {table}")),
        (17, 7, format!("the right table record has length 1801 (bytes 16 to 17: 09 07); {table}")),
        (27, 8, "the log record has length 8 (bytes 27 to 28: 08 00); its length is 4 and 3 for each step, at most 604".to_string()),
        (36, 5, "the question record has length 5 (bytes 36 to 37: 05 00); its length is even and 4 to 130".to_string()),
    ];
    for (at, byte, sentence) in lengths {
        explained(&case_a_with(&[(at, byte)]), 3, &sentence);
    }
}

/// 4: k.
#[test]
fn too_many_pairs() {
    let sentence = "k (byte 4: 10): there are 16 pairs; a casebook has at most 15";
    explained(&case_a_with(&[(4, 16)]), 4, sentence);
    explained(&case_a_with(&[(4, 16)])[..5], 4, sentence);
}

/// 5: the number of states, or the byte of the row that is out of range.
#[test]
fn out_of_range_in_tables() {
    let states = "a table has 1 to 64 states";
    let range = "is out of range; the table has 2 states, counted from 0";
    let faults = [
        (9, 0, format!("n of the left table (byte 9: 00): n is 0; {states}")),
        (9, 65, format!("n of the left table (byte 9: 41): n is 65; {states}")),
        (20, 65, format!("n of the right table (byte 20: 41): n is 65; {states}")),
        (13, 2, format!("row 2 of the left table (bytes 13 to 15: 02 03 01): from 2 {range}")),
        (12, 2, format!("row 1 of the left table (bytes 10 to 12: 00 01 02): to 2 {range}")),
        (26, 7, format!("row 2 of the right table (bytes 24 to 26: 00 04 07): to 7 {range}")),
        (14, 5, "row 2 of the left table (bytes 13 to 15: 00 05 01): label 5 is out of range; with k 2 the labels are 0 to 4".to_string()),
        (22, 255, "row 1 of the right table (bytes 21 to 23: 00 ff 01): label 255 is out of range; with k 2 the labels are 0 to 4".to_string()),
    ];
    for (at, byte, sentence) in faults {
        explained(&case_a_with(&[(at, byte)]), 5, &sentence);
    }
    let no_pairs = [&record(1, &[0])[..], &record(2, &[1, 0, 1, 0])].concat();
    explained(&no_pairs, 5, "row 1 of the left table (bytes 10 to 12: 00 01 00): label 1 is out of range; with k 0 the labels are 0 to 0");
    let one_state = [&record(1, &[0])[..], &record(2, &[1, 0, 0, 0, 1, 0, 0])].concat();
    explained(&one_state, 5, "row 2 of the left table (bytes 13 to 15: 01 00 00): from 1 is out of range; the table has 1 state, counted from 0");
}

/// 6: the row and the one before it.
#[test]
fn rows_that_do_not_rise() {
    let rule = "rows rise strictly by from, label and to";
    explained(
        &case_a_with(&[(11, 4)]),
        6,
        &format!("row 2 of the left table (bytes 13 to 15: 00 03 01): 0 3 1 is not above the row before it, 0 4 1; {rule}"),
    );
    // A row that stands there twice.
    explained(
        &case_a_with(&[(25, 2)]),
        6,
        &format!("row 2 of the right table (bytes 24 to 26: 00 02 01): 0 2 1 is not above the row before it, 0 2 1; {rule}"),
    );
}

/// 7: the ninth row, also where other rows stand before and behind it.
#[test]
fn a_ninth_row() {
    let mut table = vec![2, 0, 0, 0];
    (0..10).for_each(|label| table.extend([1, label, 0]));
    let bytes = [&record(1, &[5])[..], &record(2, &[1]), &record(3, &table)].concat();
    // The right table's body begins at 14; row 1 leaves state 0, rows 2 to 11 leave state 1, so row 10 is the ninth.
    let sentence = "row 10 of the right table (bytes 42 to 44: 01 08 00): it is a ninth row from state 1; at most 8 rows leave one state";
    explained(&bytes, 7, sentence);
}

/// 8: a start state, or a step.
#[test]
fn logs_that_are_not_real() {
    let rule =
        "neither machine makes this step alone, no handshake makes it, and it is no joint idle";
    let faults = [
        (31, 2, "the log's start states (bytes 31 to 32: 02 00): left start state 2 is out of range; the left table has 2 states, counted from 0".to_string()),
        (32, 9, "the log's start states (bytes 31 to 32: 00 09): right start state 9 is out of range; the right table has 2 states, counted from 0".to_string()),
        (33, 1, format!("step 1 of the log (bytes 33 to 35: 01 01 01): label 1 from (0, 0) to (1, 1) is not real; {rule}")),
        (33, 255, format!("step 1 of the log (bytes 33 to 35: ff 01 01): idle from (0, 0) to (1, 1) is not real; {rule}")),
        (35, 200, format!("step 1 of the log (bytes 33 to 35: 00 01 c8): label 0 from (0, 0) to (1, 200) is not real; {rule}")),
    ];
    for (at, byte, sentence) in faults {
        explained(&case_a_with(&[(at, byte)]), 8, &sentence);
    }
    // The third step is the first that is not real; the fourth is not real either.
    let log = record(4, &[0, 0, 255, 0, 0, 0, 1, 1, 0, 0, 0, 9, 9, 9]);
    let bytes = [&CASE_A[..27], &log, &CASE_A[36..]].concat();
    let sentence = format!("step 3 of the log (bytes 39 to 41: 00 00 00): label 0 from (1, 1) to (0, 0) is not real; {rule}");
    explained(&bytes, 8, &sentence);
}

/// 9: the node that cannot stand there, or that nodes are missing.
#[test]
fn questions_that_are_no_tree() {
    let one_tree = "a question is one whole tree";
    let faults: [(&[u8], String); 8] = [
        (&[9, 0], "node 1 of the question (bytes 40 to 41: 09 00): operator 9 is out of range; operators are 0 to 8".to_string()),
        (&[3, 0, 0, 0, 255, 0], "node 3 of the question (bytes 44 to 45: ff 00): operator 255 is out of range; operators are 0 to 8".to_string()),
        (&[2, 0, 6, 5, 0, 0], "node 2 of the question (bytes 42 to 43: 06 05): label 5 is out of range; with k 2 the labels are 0 to 4".to_string()),
        (&[2, 0, 7, 1, 0, 0], "node 2 of the question (bytes 42 to 43: 07 01): operator 7 takes no label, but its label byte is 1; it must be 0".to_string()),
        (&[0, 9], "node 1 of the question (bytes 40 to 41: 00 09): operator 0 takes no label, but its label byte is 9; it must be 0".to_string()),
        (&[0, 0, 0, 0], format!("node 2 of the question (bytes 42 to 43: 00 00): the tree is whole before this node; {one_tree}")),
        (&[3, 0, 4, 0, 0, 0], format!("the question (bytes 40 to 45: 03 00 04 00 00 00): the nodes end with 2 operands still due; {one_tree}")),
        (&[3, 0, 4, 0, 0, 0, 2, 0, 2, 0, 0, 0], format!("the question (bytes 40 to 51: 03 00 04 00 00 00 02 00 ..): the nodes end with 1 operand still due; {one_tree}")),
    ];
    for (nodes, sentence) in faults {
        explained(&case_a_asking(nodes), 9, &sentence);
    }
    // 64 operators: 65 nodes at least, so the last one cannot be made whole within the record either.
    let bytes = case_a_asking(&[2, 0].repeat(64));
    let ran = run_with(&["check", "-"], &bytes);
    let begin = "standard input: refused 9: node 64 of the question (bytes 166 to 167: 02 00): with this node the tree is too large; a question has at most 64 nodes";
    assert_eq!(ran.text().trim_end(), begin);
}

/// Over 65,535 splittings are no fault of the log: the question's is told.
#[test]
fn a_question_behind_too_many_splittings() {
    let path = root().join("cases/refused_13_sixteen_two_way_steps.casebook");
    let mut bytes = fs::read(path).unwrap();
    // The question record begins at byte 75; its first node is back by 1.
    assert_eq!(bytes[75..], [6, 0, 5, 0, 6, 1, 0, 0]);
    bytes[80] = 9;
    let sentence = "node 1 of the question (bytes 79 to 80: 06 09): label 9 is out of range; with k 1 the labels are 0 to 2";
    explained(&bytes, 9, sentence);
}

/// 10: the forward modality that is one too many, though a later fault of the same number follows.
#[test]
fn too_deep_questions() {
    let rule = "it is a forward modality under four others; forward modalities nest at most 4 deep";
    let deep = [7, 0, 5, 1, 6, 0, 5, 2, 2, 0, 7, 0, 5, 3, 5, 4, 0, 0];
    let sentence = format!("node 7 of the question (bytes 52 to 53: 05 03): {rule}");
    explained(&case_a_asking(&deep), 10, &sentence);
    // Five modalities beside each other are not too deep, so the second operand has the fault.
    let beside = [
        &[4, 0][..],
        &[5, 0].repeat(4),
        &[0, 0],
        &[5, 0].repeat(5),
        &[0, 0],
    ]
    .concat();
    let sentence = format!("node 11 of the question (bytes 60 to 61: 05 00): {rule}");
    explained(&case_a_asking(&beside), 10, &sentence);
    // 9 comes before 10, and its place is its own.
    let both = [&[3, 0][..], &[5, 0].repeat(5), &[0, 0, 77, 0]].concat();
    let sentence = "node 8 of the question (bytes 54 to 55: 4d 00): operator 77 is out of range; operators are 0 to 8";
    explained(&case_a_asking(&both), 9, sentence);
}

/// 11: where the surplus begins, and its first bytes; files of any size.
#[test]
fn bytes_after_the_question() {
    let rule = "a casebook ends with its question";
    let ends = "the question record ends with byte 43, and bytes follow it";
    let one = [&CASE_A[..], &[7]].concat();
    explained(&one, 11, &format!("{ends} (from byte 44 on: 07); {rule}"));
    let many = [&CASE_A[..], &[1, 2, 3, 4, 5, 6, 7, 8, 9], &[0; 100_000]].concat();
    explained(
        &many,
        11,
        &format!("{ends} (from byte 44 on: 01 02 03 04 05 06 07 08 ..); {rule}"),
    );
}
