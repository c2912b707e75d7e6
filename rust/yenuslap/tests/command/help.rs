//! Help texts, and that their examples print what they say.

use crate::program::{prints, run, run_with};

/// The subcommands.
const SUBCOMMANDS: [&str; 10] = [
    "check", "show", "sheet", "split", "join", "verdict", "quotient", "write", "table", "aut",
];

/// The help names every subcommand; each has help of its own, by both names of the option, with its usage first.
#[test]
fn every_subcommand_has_help() {
    let all = run(&["--help"]);
    assert_eq!((all.status, all.err.as_str()), (Some(0), ""));
    assert_eq!(run(&["-h"]), all);
    assert_eq!(run(&["help"]), all);
    for name in SUBCOMMANDS {
        assert!(
            all.text().contains(&format!("yenuslap {name} FILE")),
            "{name}"
        );
        let help = run(&[name, "--help"]);
        let text = help.text();
        assert!(
            text.starts_with(&format!("usage: yenuslap {name} FILE")),
            "{text}"
        );
        assert!(text.contains("\nexample:\n  $ yenuslap "), "{text}");
        assert_eq!((help.status, help.err.as_str()), (Some(0), ""));
        assert_eq!(run(&[name, "none", "-h"]), help);
        assert_eq!(run(&["help", name]), help);
    }
}

/// The version is the package's.
#[test]
fn version() {
    let line = format!("yenuslap {}\n", env!("CARGO_PKG_VERSION"));
    prints(&["--version"], b"", &line);
    prints(&["-V"], b"", &line);
}

/// Every example prints what the help says it prints.
#[test]
fn examples() {
    let mut tried = 0;
    for name in SUBCOMMANDS {
        let text = run(&[name, "--help"]).text();
        let (_, example) = text.split_once("\nexample:\n").unwrap();
        let example = example.split("\n\n").next().unwrap();
        let mut lines = example.lines().map(|line| &line[2..]);
        let shell = lines.next().unwrap().strip_prefix("$ yenuslap ").unwrap();
        // The example of `write` is a pipe into a file.
        if shell.contains('|') {
            continue;
        }
        let expected: String = lines.map(|line| format!("{line}\n")).collect();
        let ran = run(&words(shell));
        assert_eq!(ran.text(), expected, "{shell}");
        assert_eq!(ran.err, "");
        tried += 1;
    }
    assert_eq!(tried, SUBCOMMANDS.len() - 1);
    let text = run(&["show", "--text", "cases/a.casebook"]).out;
    assert_eq!(run_with(&["write", "-"], &text).out.len(), 44);
}

/// The words of a shell's line, in which a part may stand in single quotes.
fn words(shell: &str) -> Vec<String> {
    let parts = shell.split('\'').enumerate();
    let words = parts.flat_map(|(number, part)| match number % 2 {
        1 => vec![part.to_string()],
        _ => part.split_whitespace().map(str::to_string).collect(),
    });
    words.collect()
}
