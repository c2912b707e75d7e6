//! `sheet`: the stored sheets, refused ones with their explanation, long ones block by block.

use std::fs;

use reference::sheet::write_sheet;

use crate::books::{seeded, shipped, CASE_A};
use crate::program::{prints, run_with};

/// Case A's sheet is document 01's.
#[test]
fn case_a() {
    let lines = "0 0 F 0100 F\n0 1 F 0100 F\n1 0 T 06010000 T\n1 1 T 06030000 T\n";
    prints(&["sheet", "cases/a.casebook"], b"", lines);
    prints(&["sheet", "-"], &CASE_A, lines);
}

/// Every shipped casebook has its stored sheet; a refused one is explained and has status 1.
#[test]
fn shipped_sheets() {
    let mut refused = 0;
    for (path, sheet) in shipped() {
        let ran = run_with(&["sheet", "-"], &fs::read(&path).unwrap());
        assert!(ran.out == sheet, "{}", path.display());
        match sheet.strip_prefix(b"R ") {
            Some(number) => {
                let number = String::from_utf8_lossy(number).trim().to_string();
                let begin = format!("yenuslap: standard input: refused {number}: ");
                assert!(
                    ran.err.starts_with(&begin),
                    "{}: {}",
                    path.display(),
                    ran.err
                );
                assert_eq!(ran.status, Some(1));
                refused += 1;
            }
            None => assert_eq!((ran.status, ran.err.as_str()), (Some(0), "")),
        }
    }
    assert_eq!(refused, 12, "numbers 1 to 11 and 13 are shipped");
}

/// Seeded casebooks have the plain implementation's sheet.
#[test]
fn seeded_sheets() {
    let mut compared = 0;
    for book in seeded(120) {
        let mut plain = Vec::new();
        write_sheet(&book, &mut plain).unwrap();
        let ran = run_with(&["sheet", "-"], &book);
        assert!(ran.out == plain, "{book:?}");
        compared += (ran.status == Some(0)) as usize;
    }
    assert!(compared >= 60, "{compared} sheets");
}

/// A sheet of several megabytes comes whole, though its blocks end inside points.
#[test]
fn a_long_sheet() {
    let book = long_book();
    let mut plain = Vec::new();
    write_sheet(&book, &mut plain).unwrap();
    assert!(plain.len() > 4 << 20, "{} bytes", plain.len());
    let ran = run_with(&["sheet", "-"], &book);
    assert!(ran.out == plain);
    assert_eq!((ran.status, ran.err.as_str()), (Some(0), ""));
}

/// Two machines that loop by label 1, 14 two-way steps, and a question that looks back on ten of them.
pub fn long_book() -> Vec<u8> {
    let loops = "1\n0 1 0\n";
    let steps = "1 0 0\n".repeat(14);
    let backs = "<-1> ".repeat(10);
    let text = format!("pairs 1\nleft {loops}right {loops}log 0 0\n{steps}question {backs}true");
    let ran = run_with(&["write", "-"], text.as_bytes());
    assert_eq!(ran.status, Some(0), "{}", ran.err);
    ran.out
}

/// The explanation of too many splittings names the step from which on they are: the sixteenth.
#[test]
fn too_many_splittings() {
    let name = "cases/refused_13_sixteen_two_way_steps.casebook";
    let ran = run_with(&["sheet", name], b"");
    let sentence =
        "the log has over 65,535 splittings, from step 16 on; no number names one of so many";
    assert_eq!(ran.text(), "R 13\n");
    assert_eq!(
        ran.err,
        format!("yenuslap: {name}: refused 13: {sentence}\n")
    );
    assert_eq!(ran.status, Some(1));
}
