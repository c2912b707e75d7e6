//! `aut`: machines of casebooks as Aldebaran texts.

use std::fs;

use crate::books::{case_a_with, shipped_and_seeded, CASE_A};
use crate::program::{complains, prints, run_with};

/// Case A's machines; both start in state 0.
const LEFT: &str = "des (0,2,2)\n(0,\"a1!\",1)\n(0,\"a2!\",1)\n";
const RIGHT: &str = "des (0,2,2)\n(0,\"a1?\",1)\n(0,\"a2?\",1)\n";

/// A casebook whose log starts in the states 2 and 1.
const LATER_START: &str = "pairs 15\nleft 3\n 2 0 1\n 2 30 2\nright 2\nlog 2 1\nquestion true";

/// The casebook of a text.
fn book(text: &str) -> Vec<u8> {
    let ran = run_with(&["write", "-"], text.as_bytes());
    assert_eq!(ran.status, Some(0), "{ran:?}");
    ran.out
}

/// Both machines, from a file and from standard input.
#[test]
fn case_a() {
    prints(&["aut", "cases/a.casebook", "--left"], b"", LEFT);
    prints(&["aut", "--right", "-"], &CASE_A, RIGHT);
}

/// The first state is the one that the log starts in, or the one that is named.
#[test]
fn first_states() {
    let book = book(LATER_START);
    let left = "des (2,2,3)\n(2,\"i\",1)\n(2,\"a15?\",2)\n";
    prints(&["aut", "-", "--left"], &book, left);
    prints(&["aut", "-", "--right"], &book, "des (1,0,2)\n");
    let named = left.replace("(2,2,3)", "(0,2,3)");
    prints(&["aut", "-", "--left", "--first", "0"], &book, &named);
    prints(&["aut", "-", "--left", "--first=2"], &book, left);
}

/// 20 names the states that there are; a casebook that is refused is explained as everywhere.
#[test]
fn refused() {
    for first in ["2", "256", "18446744073709551615"] {
        let complaint = format!(
            "standard input: refused 20: the first state, {first}, is not below the number of states, 2; \
             the states are 0 to 1"
        );
        complains(
            &["aut", "-", "--left", "--first", first],
            &CASE_A,
            1,
            &complaint,
        );
    }
    complains(
        &["aut", "-", "--left"],
        &case_a_with(&[(4, 16)]),
        1,
        "standard input: refused 4: k (byte 4: 10): there are 16 pairs; a casebook has at most 15",
    );
}

/// `-o` writes a file, `-o -` to standard output; what is refused is not written.
#[test]
fn output_option() {
    let path = std::env::temp_dir().join(format!("yenuslap-aut-{}.aut", std::process::id()));
    let name = path.to_str().unwrap();
    prints(&["aut", "-", "--right", "-o", name], &CASE_A, "");
    assert_eq!(fs::read_to_string(&path).unwrap(), RIGHT);
    fs::remove_file(&path).unwrap();
    prints(&["aut", "-", "--right", "-o", "-"], &CASE_A, RIGHT);
    let arguments = ["aut", "-", "--right", "--first=2", "-o", name];
    let ran = run_with(&arguments, &CASE_A);
    assert_eq!((ran.status, path.exists()), (Some(1), false));
    complains(
        &["aut", "-", "--left", "-o", "none/there"],
        &CASE_A,
        2,
        "none/there: No such file or directory",
    );
}

/// A side is named, and one only.
#[test]
fn misuse() {
    let faults: [(&[&str], &str); 6] = [
        (&["aut", "-"], "option --left or --right is missing"),
        (
            &["aut", "-", "--left", "--right"],
            "options --left and --right do not go together",
        ),
        (
            &["aut", "--left"],
            "a file is missing (- is standard input)",
        ),
        (&["aut", "-", "--left=0"], "option --left takes no value"),
        (
            &["aut", "-", "--left", "--first", "-1"],
            "option --first needs a number, not `-1`",
        ),
        (&["aut", "-", "--tidy"], "unknown option --tidy"),
    ];
    for (arguments, fault) in faults {
        let complaint = format!("aut: {fault}; see yenuslap aut --help");
        complains(arguments, &CASE_A, 2, &complaint);
    }
}

/// For every shipped and seeded sound casebook, `table` makes the section of the text form again from what `aut` wrote,
/// and finds the state that the log starts in.
#[test]
fn round_trips() {
    let mut sound = 0;
    for book in shipped_and_seeded(120) {
        let text = run_with(&["show", "--text", "-"], &book);
        if text.status != Some(0) {
            continue;
        }
        let text = text.text();
        for side in ["left", "right"] {
            let option = format!("--{side}");
            let aut = run_with(&["aut", "-", &option], &book);
            assert_eq!((aut.status, aut.err.as_str()), (Some(0), ""));
            let table = run_with(&["table", "-", &option], &aut.out).text();
            let (comment, section) = table.split_once('\n').unwrap();
            assert_eq!(section, section_of(&text, side));
            let start = start_of(&text, side);
            assert!(
                comment.starts_with(&format!("# first state {start}, pairs ")),
                "{comment}"
            );
        }
        sound += 1;
    }
    assert_eq!(sound, 120 + 23);
}

/// A table's section of a text.
fn section_of(text: &str, side: &str) -> String {
    let lines = text.lines().skip_while(|line| !line.starts_with(side));
    let mut lines = lines.map(|line| format!("{line}\n"));
    let head = lines.next().unwrap();
    head + &lines
        .take_while(|line| line.starts_with("  "))
        .collect::<String>()
}

/// The state that a text's log starts in.
fn start_of<'a>(text: &'a str, side: &str) -> &'a str {
    let log = text.lines().find(|line| line.starts_with("log ")).unwrap();
    let at = if side == "left" { 1 } else { 2 };
    log.split(' ').nth(at).unwrap()
}
