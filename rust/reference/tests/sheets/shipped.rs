//! The shipped casebooks and their sheets in `cases` at the root of the repository.

use std::collections::BTreeSet;
use std::fs;
use std::path::PathBuf;
use std::process::Command;

use crate::program::{printed, refusal, root, same};
use reference::sheet::{sheet, write_sheet};

/// The names of the files with this ending in the folder.
fn names(ending: &str) -> BTreeSet<String> {
    let files = fs::read_dir(root().join("cases")).expect("the folder cases");
    let paths = files.map(|file| file.unwrap().path());
    let fitting = paths.filter(|path| path.extension().is_some_and(|e| e == ending));
    let name = |path: PathBuf| path.file_stem().unwrap().to_string_lossy().into_owned();
    fitting.map(name).collect()
}

/// The bytes of a shipped file.
fn file(name: &str, ending: &str) -> Vec<u8> {
    let path = root().join("cases").join(format!("{name}.{ending}"));
    fs::read(&path).unwrap_or_else(|error| panic!("{}: {error}", path.display()))
}

/// Every casebook has a sheet, and every sheet a casebook.
#[test]
fn casebooks_and_sheets_belong_together() {
    let casebooks = names("casebook");
    assert_eq!(casebooks, names("sheet"));
    assert!(casebooks.len() >= 30, "{} casebooks", casebooks.len());
}

/// The stored sheets are those of the plain implementation, line by line and by its quick function.
#[test]
fn plain_sheets_are_the_stored_ones() {
    for name in names("casebook") {
        let (casebook, stored) = (file(&name, "casebook"), file(&name, "sheet"));
        assert!(sheet(&casebook) == stored, "{name}");
        let mut quick = Vec::new();
        write_sheet(&casebook, &mut quick).unwrap();
        assert!(quick == stored, "{name}");
    }
}

/// The engine's program prints the stored sheets.
#[test]
fn the_program_prints_the_stored_ones() {
    let mut refused = BTreeSet::new();
    for name in names("casebook") {
        let (casebook, stored) = (file(&name, "casebook"), file(&name, "sheet"));
        same(&casebook, &printed(&casebook), &stored);
        refused.extend(refusal(&stored));
    }
    assert_eq!(refused, (1..=11).chain([13]).collect());
}

/// The casebooks and sheets of the base are the files that they were before document 02's requests, as `base.sha256`
/// lists them; that the program prints these sheets is the test above.
#[test]
fn files_of_the_base_are_unchanged() {
    let list = String::from_utf8(file("base", "sha256")).unwrap();
    let sums = list.lines().filter(|line| !line.starts_with('#'));
    assert_eq!(sums.count(), 68);
    let checked = Command::new("sha256sum")
        .args(["--check", "--strict", "--quiet", "cases/base.sha256"])
        .current_dir(root())
        .output()
        .expect("sha256sum runs");
    let told = [checked.stdout, checked.stderr].concat();
    let told = String::from_utf8_lossy(&told);
    assert!(checked.status.success(), "{told}");
}

/// Case A is document 01's, byte for byte and line by line.
#[test]
fn case_a_as_printed() {
    let casebook = [
        &[3, 0, 1, 0, 2][..],
        &[9, 0, 2, 0, 2, 0, 1, 1, 0, 3, 1],
        &[9, 0, 3, 0, 2, 0, 2, 1, 0, 4, 1],
        &[7, 0, 4, 0, 0, 0, 0, 1, 1],
        &[6, 0, 5, 0, 6, 0, 0, 0],
    ]
    .concat();
    let lines = "0 0 F 0100 F\n0 1 F 0100 F\n1 0 T 06010000 T\n1 1 T 06030000 T\n";
    assert_eq!(file("a", "casebook"), casebook);
    assert_eq!(file("a", "sheet"), lines.as_bytes());
    assert_eq!(printed(&casebook), lines.as_bytes());
}
