//! `check`: a line for each file.

use crate::books::{shipped, CASE_A};
use crate::program::{prints, run, run_with};

/// Case A is sound; its sizes are document 01's.
const CASE_A_SOUND: &str = "sound: k 2, left 2 states and 2 rows, right 2 states and 2 rows, \
     log of 1 step, question of 2 nodes, 2 splittings";

/// Sound casebooks, by name and on standard input.
#[test]
fn sound_casebooks() {
    let line = format!("cases/a.casebook: {CASE_A_SOUND}\n");
    prints(&["check", "cases/a.casebook"], b"", &line);
    let line = format!("standard input: {CASE_A_SOUND}\n");
    prints(&["check", "-"], &CASE_A, &line);
}

/// Document 01: 16 two-way steps have 65,536 splittings, which is no fault of the casebook.
#[test]
fn too_many_splittings_are_sound() {
    let name = "cases/refused_13_sixteen_two_way_steps.casebook";
    let line = format!(
        "{name}: sound: k 1, left 1 state and 1 row, right 1 state and 1 row, \
         log of 16 steps, question of 2 nodes, over 65,535 splittings\n"
    );
    prints(&["check", name], b"", &line);
}

/// A line for every file, in order; the graver status counts, and no file hides the next.
#[test]
fn several_files() {
    let files = ["cases/a.casebook", "cases/refused_4_sixteen_pairs.casebook"];
    let sound = format!("{}: {CASE_A_SOUND}\n", files[0]);
    let refused = format!(
        "{}: refused 4: k (byte 4: 10): there are 16 pairs; a casebook has at most 15\n",
        files[1]
    );
    let ran = run(&["check", files[0], files[1], files[0]]);
    assert_eq!(ran.text(), format!("{sound}{refused}{sound}"));
    assert_eq!((ran.status, ran.err.as_str()), (Some(1), ""));

    let ran = run(&["check", files[1], "cases/none", files[0]]);
    assert_eq!(ran.text(), format!("{refused}{sound}"));
    assert_eq!(ran.err, "yenuslap: cases/none: No such file or directory\n");
    assert_eq!(ran.status, Some(2));
}

/// Every shipped casebook gets the number of its sheet, or is sound; the name of each refused file has its number.
#[test]
fn shipped_casebooks() {
    for (path, sheet) in shipped() {
        let ran = run_with(&["check", "-"], &std::fs::read(&path).unwrap());
        let sheet = String::from_utf8(sheet).unwrap();
        let (status, begin) = match sheet.trim().strip_prefix("R ") {
            Some("13") | None => (0, "standard input: sound: ".to_string()),
            Some(number) => (1, format!("standard input: refused {number}: ")),
        };
        assert!(
            ran.text().starts_with(&begin),
            "{}: {ran:?}",
            path.display()
        );
        assert_eq!(ran.status, Some(status), "{}", path.display());
        assert_eq!(ran.text().lines().count(), 1);
    }
}
