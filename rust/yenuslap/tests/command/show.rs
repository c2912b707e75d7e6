//! `show`: a casebook for the eye, as text, as a graph.

use std::fs;

use crate::books::{case_a_with, CASE_A};
use crate::program::{complains, prints, root, run, run_with};

/// Case A up to its splittings.
const CASE_A_CONTENTS: &str = "\
pairs: 2 (1 with 2, 3 with 4); label 0 is the silent step

left: 2 states and 2 rows
   0: 1->1  3->1
   1:

right: 2 states and 2 rows
   0: 2->1  4->1
   1:

log: 1 step
  point   left  label  right
      0      0             0
      1      1      0      1

question: <-0> true

";

/// Case A's heading over its two splittings.
const CASE_A_COUNT: &str = "splittings: 2 (. is an idle, shake a handshake of both halves)\n";

/// Case A's splittings: handshakes on 1 and on 3.
const SPLITTING_0: &str = "
splitting 0
  step            1
  log             0
  left    0    1->1
              shake
  right   0    2->1
";
const SPLITTING_1: &str = "
splitting 1
  step            1
  log             0
  left    0    3->1
              shake
  right   0    4->1
";

/// Case A whole; both splittings are few enough.
#[test]
fn case_a() {
    let begin = format!("{CASE_A_CONTENTS}{CASE_A_COUNT}");
    let both = format!("{begin}{SPLITTING_0}{SPLITTING_1}");
    prints(&["show", "-"], &CASE_A, &both);
    prints(&["show", "cases/a.casebook", "--all"], b"", &both);
    let one = format!("{begin}{SPLITTING_1}");
    prints(&["show", "--splitting", "1", "-"], &CASE_A, &one);
    let sentence = "standard input: refused 14: there is no splitting 2; the log has 2 splittings, counted from 0";
    let ran = run_with(&["show", "--splitting=2", "-"], &CASE_A);
    assert_eq!(ran.err, format!("yenuslap: {sentence}\n"));
    assert_eq!((ran.text(), ran.status), (begin, Some(1)));
}

/// Lanes of more steps than fit beside each other: idles, handshakes, a step by each machine alone.
#[test]
fn lanes_in_bands() {
    let text = "pairs 1\nleft 2\n0 0 1\n0 1 1\n1 0 0\nright 12\n0 2 11\n11 0 0\nlog 0 0\n\
                0 1 11\nidle 1 11\n0 0 11\n0 0 0\nidle 0 0\nidle 0 0\nidle 0 0\nidle 0 0\n0 1 0\n\
                question <idle> true";
    let book = run_with(&["write", "-"], text.as_bytes()).out;
    let expected = "
splitting 0
  step            1       2       3       4       5       6       7       8
  log             0    idle       0       0    idle    idle    idle    idle
  left    0    1->1       .    0->0       .       .       .       .       .
              shake
  right   0   2->11       .       .    0->0       .       .       .       .

  step            9
  log             0
  left    0    0->1
  right   0       .
";
    let ran = run_with(&["show", "-"], &book);
    let begin = ran.text().find("\nsplitting 0").expect("lanes");
    assert_eq!(&ran.text()[begin..], expected);
    assert!(ran.text().lines().all(|line| line.len() <= 80));
}

/// Four splittings are shown of the eight, with a note; all of them if wanted.
#[test]
fn first_few_splittings() {
    let name = "cases/handshakes.casebook";
    let shown = |arguments: &[&str]| {
        let text = run(arguments).text();
        let lines = text.lines().filter(|line| line.starts_with("splitting "));
        let numbers: Vec<String> = lines.map(|line| line[10..].to_string()).collect();
        (numbers.join(" "), text)
    };
    let (numbers, text) = shown(&["show", name]);
    assert_eq!(numbers, "0 1 2 3");
    assert!(text.ends_with("\n\nand 4 more (--all shows all, --splitting N one)\n"));
    let (numbers, text) = shown(&["show", "--all", name]);
    assert_eq!(numbers, "0 1 2 3 4 5 6 7");
    assert!(!text.contains("more"));
}

/// A log without steps has one splitting, whose halves are their start states.
#[test]
fn no_steps() {
    let ran = run(&["show", "cases/no_steps.casebook"]);
    let text = ran.text();
    assert!(
        text.contains("log: 0 steps\n  point   left  label  right\n      0      0             0\n")
    );
    assert!(text.ends_with("\nsplitting 0\n  step\n  log\n  left    0\n  right   0\n"));
}

/// Without pairs there is no partner.
#[test]
fn no_pairs() {
    let text = "pairs 0\nleft 1\nright 1\nlog 0 0\nquestion true";
    let book = run_with(&["write", "-"], text.as_bytes()).out;
    let shown = run_with(&["show", "-"], &book).text();
    assert!(shown.starts_with("pairs: 0; label 0 is the silent step\n"));
    let all = run(&["show", "cases/fifteen_pairs_and_64_states.casebook"]).text();
    let pairs: Vec<String> = (1..=15)
        .map(|p| format!("{} with {}", 2 * p - 1, 2 * p))
        .collect();
    assert!(all.starts_with(&format!("pairs: 15 ({}); ", pairs.join(", "))));
}

/// Over 65,535 splittings none is shown, and none has a number.
#[test]
fn too_many_splittings() {
    let name = "cases/refused_13_sixteen_two_way_steps.casebook";
    let ran = run(&["show", name]);
    assert!(ran.text().ends_with("\nsplittings: over 65,535\n"));
    assert_eq!(ran.status, Some(0));
    let ran = run(&["show", "--splitting", "0", name]);
    assert!(ran
        .err
        .contains("refused 13: the log has over 65,535 splittings, from step 16 on"));
    assert_eq!(ran.status, Some(1));
}

/// The graph of case A's machines, their start states marked.
#[test]
fn graph() {
    let expected = "\
digraph casebook {
  label=\"standard input\";
  rankdir=LR;
  node [shape=circle];
  subgraph cluster_left {
    label=\"left\";
    left_start [shape=point];
    left_0 [label=\"0\"];
    left_1 [label=\"1\"];
    left_start -> left_0;
    left_0 -> left_1 [label=\"1\"];
    left_0 -> left_1 [label=\"3\"];
  }
  subgraph cluster_right {
    label=\"right\";
    right_start [shape=point];
    right_0 [label=\"0\"];
    right_1 [label=\"1\"];
    right_start -> right_0;
    right_0 -> right_1 [label=\"2\"];
    right_0 -> right_1 [label=\"4\"];
  }
}
";
    prints(&["show", "--dot", "-"], &CASE_A, expected);
}

/// A file's name is escaped in the graph.
#[test]
fn graph_of_an_odd_name() {
    let path = std::env::temp_dir().join(format!("yenuslap \"odd\\ {}", std::process::id()));
    fs::write(&path, CASE_A).unwrap();
    let ran = run(&["show".as_ref(), "--dot".as_ref(), path.as_os_str()]);
    fs::remove_file(&path).unwrap();
    assert!(
        ran.text().contains("yenuslap \\\"odd\\\\ "),
        "{}",
        ran.text()
    );
}

/// A refused casebook is explained and not shown.
#[test]
fn refused() {
    let sentence =
        "standard input: refused 4: k (byte 4: 10): there are 16 pairs; a casebook has at most 15";
    for option in ["--all", "--text", "--dot"] {
        complains(
            &["show", option, "-"],
            &case_a_with(&[(4, 16)]),
            1,
            sentence,
        );
    }
    assert!(root().join("cases").exists());
}
