//! The lines that document 01 states or implies, written out by hand.

use crate::both::unhex;
use crate::handmade::case_a;
use crate::sheet_both::{lines_both, Block, Sheet};
use crate::sheet_inputs::{loops, times, AHEAD, NOT, TRUE};
use crate::worlds::{World, CASE_A, LOOPS};
use reference::casebook::Parts;

/// Case A's sheet.
const CASE_A_SHEET: &str = "0 0 F 0100 F\n0 1 F 0100 F\n1 0 T 06010000 T\n1 1 T 06030000 T\n";

/// The casebook of a world and a question in hexadecimal.
fn casebook(world: World, question: &str) -> Vec<u8> {
    let parts = Parts {
        k: world.k,
        left: unhex(world.left),
        right: unhex(world.right),
        run: unhex(world.run),
        question: unhex(question),
    };
    parts.to_bytes()
}

/// Demands this text as the whole sheet, of the engine and of the plain implementation.
fn whole(casebook: &[u8], text: &str) {
    let lines: Vec<Vec<u8>> = text.split_inclusive('\n').map(|l| l.into()).collect();
    for room in [text.len(), text.len() + 99] {
        let block = Block {
            first: 0,
            most: lines.len(),
            room,
        };
        assert_eq!(lines_both(casebook, &lines, block), (0, lines.len()));
    }
    assert_eq!(Sheet::of(casebook.to_vec()).lines, lines);
}

/// Case A whole, and with the other published questions.
#[test]
fn case_a_sheets() {
    whole(&case_a(), CASE_A_SHEET);
    whole(&casebook(CASE_A, "06000000"), CASE_A_SHEET);
    let back_by_1 = casebook(CASE_A, "06010000");
    whole(
        &back_by_1,
        "0 0 F 0100 F\n0 1 F 0100 F\n1 0 F 0100 F\n1 1 F 0100 F\n",
    );
    let ahead = "04000500000004000501000005030000";
    let forward_by_0 = casebook(CASE_A, "05000000");
    whole(
        &forward_by_0,
        &format!("0 0 T {ahead} T\n0 1 T {ahead} T\n1 0 F 05000000 F\n1 1 F 05000000 F\n"),
    );
}

/// One state each: the loop of the right stands as an idle in the left's quotient.
#[test]
fn sheet_of_the_loops() {
    whole(
        &casebook(LOOPS, "06010000"),
        "0 0 F 0100 F\n0 1 F 0100 F\n1 0 T 06010000 T\n1 1 T 08000000 T\n",
    );
}

/// A log without steps has one splitting; a quotient of 4,463 nodes shows as 17.
#[test]
fn sheets_of_one_line() {
    let parts = Parts {
        k: 4,
        left: loops(&[]),
        right: loops(&[1, 2, 3, 4, 5, 6, 7, 8]),
        run: vec![0, 0],
        question: TRUE.to_vec(),
    };
    whole(&parts.to_bytes(), "0 0 T 0000 T\n");
    let question = times(3, AHEAD, &times(3, NOT, &TRUE));
    let too_large = Parts { question, ..parts };
    whole(&too_large.to_bytes(), "0 0 F 17 -\n");
}

/// A refused casebook or count is a sheet of one line.
#[test]
fn refused_sheets() {
    whole(&[], "R 1\n");
    whole(&case_a()[..43], "R 1\n");
    whole(&[case_a(), vec![0]].concat(), "R 11\n");
    let mut unreal = case_a();
    unreal[35] = 0;
    whole(&unreal, "R 8\n");
    let sixteen = Parts {
        k: 1,
        left: loops(&[1]),
        right: loops(&[1]),
        run: [vec![0, 0], [1, 0, 0].repeat(16)].concat(),
        question: TRUE.to_vec(),
    };
    whole(&sixteen.to_bytes(), "R 13\n");
}
