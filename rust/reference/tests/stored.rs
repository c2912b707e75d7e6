//! The stored inputs and outputs of the programs `crates/cases`, `crates/ground_cases` and `crates/sheet` are those
//! that the plain implementation makes. `make outputs` renews them.

use std::fs;
use std::path::Path;

use reference::stored::files;

/// Where two files differ first: the line's number, and that line of each.
fn first_difference(stored: &[u8], made: &[u8]) -> String {
    let [stored, made] = [stored, made].map(|bytes| bytes.split(|byte| *byte == b'\n'));
    let mut lines = stored.zip(made).zip(1..);
    match lines.find(|((a, b), _)| a != b) {
        Some(((a, b), line)) => {
            let [a, b] = [a, b].map(String::from_utf8_lossy);
            format!("line {line} is\n{a}\nand should be\n{b}")
        }
        None => "one of the two goes on where the other ends".to_string(),
    }
}

/// Each stored file is the one that is made.
#[test]
fn stored_files_are_those_that_are_made() {
    let root = Path::new(env!("CARGO_MANIFEST_DIR")).join("../..");
    for (path, made) in files() {
        let stored = fs::read(root.join(path)).expect(path);
        let differ = || first_difference(&stored, &made);
        assert!(
            stored == made,
            "{path}, renewed by `make outputs`: {}",
            differ()
        );
    }
}
