//! The text form: `show --text` and `write` undo each other.

use std::fs;

use reference::formula::{read_formula, QUESTION_NODES};
use reference::generate::random_formula;
use reference::random::Random;

use crate::books::{case_a_asking, shipped_and_seeded, CASE_A};
use crate::program::{prints, root, run_with};

/// Case A as text, by hand.
const CASE_A_TEXT: &str = "\
pairs 2
left 2
  0 1 1
  0 3 1
right 2
  0 2 1
  0 4 1
log 0 0
  0 1 1
question <-0> true
";

/// Case A both ways.
#[test]
fn case_a() {
    prints(&["show", "--text", "cases/a.casebook"], b"", CASE_A_TEXT);
    assert_eq!(written(CASE_A_TEXT), CASE_A);
}

/// The bytes that a text is written to.
fn written(text: &str) -> Vec<u8> {
    let ran = run_with(&["write", "-"], text.as_bytes());
    assert_eq!((ran.status, ran.err.as_str()), (Some(0), ""), "{text}");
    ran.out
}

/// Comments, blank lines, blanks and line ends mean nothing; the statement may go over lines.
#[test]
fn free_layout() {
    let text = "# case A\r\n\r\n  pairs\t2 # k\r\nleft 2\r\n0 1 1#row\n\n0   3 1\nright 2\n0 2 1\n0 4 1\nlog 0 0\n0 1 001\nquestion # \u{e9} <\n  < - 0 >\n(\n((true) )) # end";
    assert_eq!(written(text), CASE_A);
    assert_eq!(written(&format!("\u{feff}{CASE_A_TEXT}")), CASE_A);
    let latin = [&b"# \xe9\xff\n"[..], CASE_A_TEXT.as_bytes()].concat();
    assert_eq!(run_with(&["write", "-"], &latin).out, CASE_A);
}

/// A text of the documentation is the text form of case A.
#[test]
fn documented_example() {
    let page = fs::read_to_string(root().join("docs/TEXT-FORM.md")).unwrap();
    let example = page.split("```").nth(1).expect("an example");
    assert_eq!(written(example), CASE_A);
}

/// `-o` writes a file, and `-o -` to standard output.
#[test]
fn output_option() {
    let path = std::env::temp_dir().join(format!("yenuslap-{}.casebook", std::process::id()));
    let name = path.to_str().unwrap();
    for option in [
        vec!["-o", name],
        vec!["--output", name],
        vec![&format!("-o{name}")],
    ] {
        prints(
            &[&["write", "-"], &option[..]].concat(),
            CASE_A_TEXT.as_bytes(),
            "",
        );
        assert_eq!(fs::read(&path).unwrap(), CASE_A);
        fs::remove_file(&path).unwrap();
    }
    let ran = run_with(&["write", "-", "-o", "-"], CASE_A_TEXT.as_bytes());
    assert_eq!((ran.out, ran.status), (CASE_A.to_vec(), Some(0)));
    // What is refused is not written, not even as an empty file.
    let refused = CASE_A_TEXT.replace("pairs 2", "pairs 16");
    let ran = run_with(&["write", "-", "-o", name], refused.as_bytes());
    assert_eq!((ran.status, path.exists()), (Some(1), false));
}

/// Every shipped and every seeded sound casebook comes back from its text, and its text from its bytes.
#[test]
fn round_trips() {
    let mut sound = 0;
    for book in shipped_and_seeded(300) {
        let text = run_with(&["show", "--text", "-"], &book);
        if text.status == Some(0) {
            let bytes = written(&text.text());
            assert_eq!(bytes, book, "{}", text.text());
            assert_eq!(run_with(&["show", "--text", "-"], &bytes).out, text.out);
            sound += 1;
        }
    }
    assert_eq!(sound, 300 + 23);
}

/// Precedence, by hand: the text that is printed for a tree, and other texts that give the same tree.
#[test]
fn statements() {
    let (yes, no) = ([0, 0], [1, 0]);
    let (and, or, not) = ([3, 0], [4, 0], [2, 0]);
    let trees: [(&str, Vec<u8>, &[&str]); 9] = [
        (
            "true and false and true",
            [and, yes, and, no, yes].concat(),
            &["true and (false and true)"],
        ),
        (
            "(true and false) and true",
            [and, and, yes, no, yes].concat(),
            &["((true and false)) and true"],
        ),
        (
            "true or false or true",
            [or, yes, or, no, yes].concat(),
            &["true or (false or true)"],
        ),
        (
            "(true or false) or true",
            [or, or, yes, no, yes].concat(),
            &[],
        ),
        (
            "true and false or true",
            [or, and, yes, no, yes].concat(),
            &["(true and false) or true"],
        ),
        (
            "true or false and true",
            [or, yes, and, no, yes].concat(),
            &["true or (false and true)"],
        ),
        (
            "(true or false) and true",
            [and, or, yes, no, yes].concat(),
            &[],
        ),
        (
            "not true and <1> false or <-idle> true",
            [or, and, not, yes, [5, 1], no, [8, 0], yes].concat(),
            &["(not true) and (<1> false) or <-idle>(true)"],
        ),
        (
            "not (true and <-2> (false or <idle> true))",
            [not, and, yes, [6, 2], or, no, [7, 0], yes].concat(),
            &[],
        ),
    ];
    for (printed, nodes, others) in trees {
        let book = case_a_asking(&nodes);
        let text = CASE_A_TEXT.replace("<-0> true", printed);
        prints(&["show", "--text", "-"], &book, &text);
        assert_eq!(written(&text), book, "{printed}");
        for other in others {
            let text = CASE_A_TEXT.replace("<-0> true", other);
            assert_eq!(written(&text), book, "{other}");
        }
    }
}

/// Random trees survive, and no pair of parentheses can be left out of what is printed.
#[test]
fn parentheses_are_few() {
    let mut random = Random::new(77);
    let mut tried = 0;
    for _ in 0..60 {
        let nodes = random.from_to(3, 14);
        let question = random_formula(&mut random, 2, nodes, 4);
        let book = case_a_asking(&question.to_bytes());
        let text = run_with(&["show", "--text", "-"], &book).text();
        assert_eq!(written(&text), book, "{text}");
        for without in without_a_pair(&text) {
            assert_ne!(written(&without), book, "{text} as {without}");
            tried += 1;
        }
    }
    assert!(tried > 20, "{tried} pairs of parentheses");
}

/// The text without one of its pairs of parentheses, for each pair.
fn without_a_pair(text: &str) -> Vec<String> {
    let opens = text.match_indices('(').map(|(at, _)| at);
    opens.map(|open| without_pair_at(text, open)).collect()
}

/// The text without the pair of parentheses that opens here.
fn without_pair_at(text: &str, open: usize) -> String {
    let mut depth = 0;
    for (at, sign) in text.char_indices().skip(open) {
        depth += (sign == '(') as i32 - (sign == ')') as i32;
        if depth == 0 {
            return [&text[..open], &text[open + 1..at], &text[at + 1..]].concat();
        }
    }
    panic!("{text}: no end of the parenthesis at {open}");
}

/// The deepest trees to the left and to the right that a question can have.
#[test]
fn deepest_trees() {
    for operator in [3, 4] {
        // 31 operators and 32 leaves, nested to the left and to the right.
        let left = [[operator, 0].repeat(31), [0, 0].repeat(32)].concat();
        let right = [[operator, 0, 0, 0].repeat(31), vec![0, 0]].concat();
        for nodes in [left, right] {
            assert!(read_formula(&nodes, 2, QUESTION_NODES).is_ok());
            let book = case_a_asking(&nodes);
            let text = run_with(&["show", "--text", "-"], &book).text();
            assert_eq!(written(&text), book, "{text}");
        }
    }
}
