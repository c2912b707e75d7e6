//! The examples of the README and of docs/ALDEBARAN.md, run as a new user would: each must print what is pasted below
//! it.

use std::fs;
use std::process::Command;

use crate::program::root;

/// A command line of a page and the lines pasted below it.
struct Example {
    line: String,
    pasted: String,
}

/// The examples: an indented line that begins with `$ `, and the indented lines up to the next blank one.
fn examples(page: &str) -> Vec<Example> {
    let mut found: Vec<Example> = Vec::new();
    let mut open = false;
    for line in page.lines() {
        match line.strip_prefix("    ") {
            Some(text) if text.starts_with("$ ") => {
                found.push(Example {
                    line: text[2..].to_string(),
                    pasted: String::new(),
                });
                open = true;
            }
            Some(text) if open => found.last_mut().unwrap().pasted += &format!("{text}\n"),
            _ => open = false,
        }
    }
    found
}

/// Every example of the README prints what it says.
#[test]
fn readme_examples_print_what_is_pasted() {
    print_what_is_pasted("README.md", 11);
}

/// Every example of the page on Aldebaran texts prints what it says.
#[test]
fn aldebaran_examples_print_what_is_pasted() {
    print_what_is_pasted("docs/ALDEBARAN.md", 10);
}

/// The page on Aldebaran texts shows the shipped files as they are, but for their carriage returns.
#[test]
fn aldebaran_page_shows_the_files() {
    let page = fs::read_to_string(root().join("docs/ALDEBARAN.md")).unwrap();
    for file in ["stand.aut", "coiler_untidy.aut", "coiler.labels"] {
        let text = fs::read_to_string(root().join("cases").join(file)).unwrap();
        let shown = format!("```\n{}```\n", text.replace('\r', ""));
        assert!(page.contains(&shown), "{file}");
    }
}

/// Demands of a page with at least so many examples that each calls the command and prints what is pasted, on either
/// stream.
fn print_what_is_pasted(page: &str, least: usize) {
    let text = fs::read_to_string(root().join(page)).unwrap();
    let examples = examples(&text);
    assert!(examples.len() >= least, "{page} has its examples");
    for Example { line, pasted } in examples {
        let called = line.replace("target/bin/yenuslap", env!("CARGO_BIN_EXE_yenuslap"));
        assert_ne!(called, line, "an example calls the command: {line}");
        let output = Command::new("sh")
            .args(["-c", &format!("({called}) 2>&1")])
            .current_dir(root())
            .output()
            .unwrap();
        assert_eq!(String::from_utf8_lossy(&output.stdout), pasted, "{line}");
    }
}
