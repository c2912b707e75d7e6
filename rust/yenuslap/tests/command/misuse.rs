//! Options, operands and files that are wrong: status 2, and a hint.

use std::ffi::OsStr;
use std::os::unix::ffi::OsStrExt;

use crate::books::CASE_A;
use crate::program::{complains, prints, run};

/// The command without a subcommand that it has.
#[test]
fn subcommands() {
    let usage =
        "usage: yenuslap check|show|sheet|split|join|verdict|quotient|write|table|aut FILE...";
    complains(&[], b"", 2, &format!("a subcommand is missing\n{usage}"));
    complains(
        &["mark"],
        b"",
        2,
        "there is no subcommand `mark`; see yenuslap --help",
    );
    complains(
        &["--all"],
        b"",
        2,
        "there is no subcommand `--all`; see yenuslap --help",
    );
}

/// Each subcommand's own complaint, with a hint to its help.
#[test]
fn options_and_operands() {
    let file = "a file is missing (- is standard input)";
    let faults: [(&[&str], &str); 21] = [
        (&["check"], file),
        (&["show"], file),
        (&["sheet", "--"], file),
        (&["split", "--hex"], file),
        (&["verdict"], file),
        (&["quotient"], file),
        (&["write"], file),
        (&["sheet", "a", "b"], "one file is enough: `b`"),
        (
            &["check", "-", "-"],
            "- stands more than once, and can be read only once",
        ),
        (&["check", "--all", "-"], "unknown option --all"),
        (&["sheet", "-x", "-"], "unknown option -x"),
        (&["show", "--all=yes", "-"], "option --all takes no value"),
        (
            &["show", "--all", "--all", "-"],
            "option --all is given twice",
        ),
        (
            &["show", "--all", "--text", "-"],
            "options --text and --all do not go together",
        ),
        (&["split", "-", "--number"], "option --number needs a value"),
        (
            &["split", "-", "--number", "one"],
            "option --number needs a number, not `one`",
        ),
        (
            &["split", "-", "--number=+1"],
            "option --number needs a number, not `+1`",
        ),
        (
            &["split", "-", "--number", "99999999999999999999"],
            "option --number needs a number, not `99999999999999999999`",
        ),
        (&["join", "-", "--left", "0"], "option --left needs --right"),
        (
            &["quotient", "-", "--known", "both"],
            "option --known needs left or right, not `both`",
        ),
        (&["write", "-", "-o"], "option --output needs a value"),
    ];
    for (arguments, fault) in faults {
        let name = arguments[0];
        let complaint = format!("{name}: {fault}; see yenuslap {name} --help");
        complains(arguments, &CASE_A, 2, &complaint);
    }
}

/// Options of `verdict` and `quotient` that need each other, or exclude each other.
#[test]
fn options_of_halves() {
    let missing = "a splitting is missing (--splitting, or --left and --right)";
    let needless = "a splitting needs --half or --line-office";
    let faults: [(&[&str], &str); 9] = [
        (&["verdict", "--half", "left"], missing),
        (&["verdict", "--line-office"], missing),
        (&["verdict", "--splitting", "0"], needless),
        (&["verdict", "--left=0", "--right=0"], needless),
        (
            &["verdict", "--known", "left"],
            "option --known needs --line-office",
        ),
        (
            &["verdict", "--half=left", "--line-office", "--splitting=0"],
            "options --half and --line-office do not go together",
        ),
        (
            &[
                "verdict",
                "--half=left",
                "--splitting=0",
                "--left=0",
                "--right=0",
            ],
            "options --splitting and --left do not go together",
        ),
        (
            &["quotient", "--splitting=0", "--left=0", "--right=0"],
            "options --splitting and --left do not go together",
        ),
        (&["quotient", "--right=0"], "option --right needs --left"),
    ];
    for (arguments, fault) in faults {
        let name = arguments[0];
        let complaint = format!("{name}: {fault}; see yenuslap {name} --help");
        complains(&[arguments, &["-"]].concat(), &CASE_A, 2, &complaint);
    }
    let complaint = "join: options --left and --right are missing; see yenuslap join --help";
    complains(&["join", "-"], &CASE_A, 2, complaint);
}

/// Files that are not there, or are no files.
#[test]
fn files() {
    let subcommands = [
        "show", "sheet", "split", "verdict", "quotient", "write", "table",
    ];
    for subcommand in subcommands {
        complains(
            &[subcommand, "none"],
            b"",
            2,
            "none: No such file or directory",
        );
        complains(&[subcommand, "cases"], b"", 2, "cases: Is a directory");
    }
    complains(
        &["join", "none", "--left=0", "--right=0"],
        b"",
        2,
        "none: No such file or directory",
    );
    let text = b"pairs 0 left";
    let complaint = "write: one file is enough: `b`; see yenuslap write --help";
    complains(&["write", "-", "b"], text, 2, complaint);
}

/// `--` ends the options, so that a file may begin with a hyphen; arguments need not be UTF-8.
#[test]
fn odd_names() {
    complains(
        &["sheet", "--", "-h"],
        b"",
        2,
        "-h: No such file or directory",
    );
    complains(
        &["sheet", "--", "--help"],
        b"",
        2,
        "--help: No such file or directory",
    );
    let odd = OsStr::from_bytes(b"\xff\xfe");
    let ran = run(&[OsStr::new("sheet"), odd]);
    assert!(
        ran.err.ends_with(": No such file or directory\n"),
        "{}",
        ran.err
    );
    assert_eq!(ran.status, Some(2));
    for arguments in [
        vec![OsStr::from_bytes(b"\xff")],
        vec![OsStr::new("sheet"), OsStr::from_bytes(b"--\xff")],
        vec![OsStr::new("verdict"), OsStr::new("--formula"), odd],
    ] {
        let ran = run(&arguments);
        assert_eq!(
            (ran.status, ran.text()),
            (Some(2), String::new()),
            "{ran:?}"
        );
    }
    prints(&["check", "--", "cases/no_steps.casebook"], b"", "cases/no_steps.casebook: sound: k 2, left 2 states and 2 rows, right 2 states and 2 rows, log of 0 steps, question of 2 nodes, 1 splitting\n");
}

/// A file that cannot be written.
#[test]
fn outputs() {
    let text = b"pairs 0\nleft 1\nright 1\nlog 0 0\nquestion true";
    complains(
        &["write", "-", "-o", "cases"],
        text,
        2,
        "cases: Is a directory",
    );
    complains(
        &["write", "-", "-o", "none/there"],
        text,
        2,
        "none/there: No such file or directory",
    );
}
