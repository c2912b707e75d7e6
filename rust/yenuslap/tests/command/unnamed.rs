//! `quotient` and `verdict --line-office` where no `--known` names a side: they go by the left half, and say so.

use crate::books::CASE_A;
use crate::program::{prints, run_with, Ran};

/// The calls, on standard input.
const QUOTIENT: [&str; 2] = ["quotient", "-"];
const LINE_OFFICE: [&str; 3] = ["verdict", "-", "--line-office"];

/// What standard error says first of a call on a file.
pub fn note(file: &str) -> String {
    format!("yenuslap: {file}: note: without --known the quotient is by the left half; --known right divides by the right one\n")
}

/// Runs a call with options on case A.
fn on_case_a(call: &[&str], options: &[&str]) -> Ran {
    run_with(&[call, options].concat(), &CASE_A)
}

/// Demands of a call on case A this output and the note, and without the note the same if the left is named.
fn goes_by_the_left(call: &[&str], options: &[&str], expected: &str) {
    let ran = on_case_a(call, options);
    assert_eq!(ran.text(), expected, "{call:?} {options:?}");
    assert_eq!((ran.err, ran.status), (note("standard input"), Some(0)));
    let named = [call, options, &["--known=left"]].concat();
    prints(&named, &CASE_A, expected);
}

/// The quotient is by the left half: by number, by halves, as bytes. A file is named in the note.
#[test]
fn quotients() {
    let all = "0 <-2> true\n1 <-4> true\n";
    goes_by_the_left(&QUOTIENT, &[], all);
    goes_by_the_left(&QUOTIENT, &["--point=1"], all);
    goes_by_the_left(&QUOTIENT, &["--splitting=1", "--hex"], "1 06040000\n");
    let halves = ["--left=0,1:1", "--right=0,2:1"];
    goes_by_the_left(&QUOTIENT, &halves, "<-2> true\n");
    let name = "cases/loops.casebook";
    let ran = run_with(&["quotient", "--hex", name], b"");
    assert_eq!(ran.text(), "0 08000000\n1 06010000\n");
    assert_eq!((ran.err, ran.status), (note(name), Some(0)));
}

/// The line office judges the right machine.
#[test]
fn line_office() {
    let both = "point 0: line F, right machine F\npoint 1: line T, right machine T\n";
    goes_by_the_left(&LINE_OFFICE, &["--splitting=1"], both);
    let halves = ["--left=0,3:1", "--right=0,4:1"];
    goes_by_the_left(&LINE_OFFICE, &halves, both);
}

/// What is refused, behind the note: 12 is judged on the left half alone, the right one's length is 16.
#[test]
fn refused() {
    let shorter = ["--left=0,1:1", "--right=0,2:1,idle", "--point=2"];
    let beyond = "12: point 2 is beyond the known half, the left one; it has 1 step, so its points are 0 to 1";
    let longer = ["--left=0,1:1,idle", "--right=0,2:1", "--point=2"];
    let unequal =
        "16: the left half has 2 steps and the right half 1 step; matching halves are equally long";
    let none = "14: there is no splitting 9; the log has 2 splittings, counted from 0";
    for call in [&QUOTIENT[..], &LINE_OFFICE] {
        for (options, sentence) in [
            (&shorter[..], beyond),
            (&longer, unequal),
            (&["--splitting=9"], none),
        ] {
            let ran = on_case_a(call, options);
            let complaint = format!("yenuslap: standard input: refused {sentence}\n");
            assert_eq!(ran.err, note("standard input") + &complaint);
            assert_eq!((ran.text().as_str(), ran.status), ("", Some(1)));
        }
    }
}

/// A casebook that is refused is told alone, and so are misused options, also on such a casebook: nothing was divided.
#[test]
fn nothing_divided() {
    let refused = &CASE_A[1..];
    let told_alone = |ran: Ran, status| {
        assert_eq!((ran.err.lines().count(), ran.status), (1, Some(status)));
        assert!(!ran.err.contains("without --known"), "{}", ran.err);
    };
    for call in [&QUOTIENT[..], &LINE_OFFICE] {
        told_alone(run_with(&[call, &["--splitting=0"]].concat(), refused), 1);
        for options in [
            ["--splitting=x", "--point=0"],
            ["--splitting=0", "--point=x"],
            ["--splitting=0", "--known=x"],
        ] {
            for book in [&CASE_A[..], refused] {
                told_alone(run_with(&[call, &options].concat(), book), 2);
            }
        }
    }
}
