//! The verdicts that document 01 states or implies, written out by hand, for engine and reference both.

use crate::both::unhex;
use crate::verdict_both::{half_both, joint_both, HalfParts};
use crate::worlds::{World, CASE_A, LOOPS};
use reference::casebook::Parts;

impl World {
    /// Demands this joint verdict of both.
    fn joint(&self, formula: &str, point: usize, verdict: bool) {
        let parts = Parts {
            k: self.k,
            left: unhex(self.left),
            right: unhex(self.right),
            run: unhex(self.run),
            question: unhex(formula),
        };
        assert_eq!(
            joint_both(&parts, point),
            Ok(verdict),
            "{formula} at {point}"
        );
    }

    /// Demands this verdict of both on a half run of the left machine.
    fn left_half(&self, half: &str, formula: &str, point: usize, verdict: bool) {
        self.half(self.left, half, formula, point, verdict);
    }

    /// Demands this verdict of both on a half run of the right machine.
    fn right_half(&self, half: &str, formula: &str, point: usize, verdict: bool) {
        self.half(self.right, half, formula, point, verdict);
    }

    fn half(&self, table: &str, half: &str, formula: &str, point: usize, verdict: bool) {
        let parts = HalfParts {
            k: self.k,
            table: unhex(table),
            half: unhex(half),
            formula: unhex(formula),
        };
        let about = format!("{formula} on {half} at {point}");
        assert_eq!(half_both(&parts, point), Ok(verdict), "{about}");
    }
}

/// Case A's left half when the two shook hands on 1 (splitting 0), and when they did on 3 (splitting 1).
const SHOOK_1: &str = "00 0101";
const SHOOK_3: &str = "00 0301";

/// The four lines of case A's sheet: joint verdict, and the left half's under the printed quotient.
#[test]
fn sheet_of_case_a() {
    CASE_A.joint("06000000", 0, false);
    CASE_A.joint("06000000", 1, true);
    CASE_A.left_half(SHOOK_1, "0100", 0, false);
    CASE_A.left_half(SHOOK_3, "0100", 0, false);
    CASE_A.left_half(SHOOK_1, "06010000", 1, true);
    CASE_A.left_half(SHOOK_3, "06030000", 1, true);
}

/// The cases at the edges on case A's machines.
#[test]
fn edges_of_case_a() {
    CASE_A.joint("06010000", 1, false);
    CASE_A.left_half(SHOOK_1, "0100", 1, false);
    CASE_A.joint("05000000", 0, true);
    CASE_A.left_half(SHOOK_1, "04000500000004000501000005030000", 0, true);
    CASE_A.joint("05020000", 0, true);
    CASE_A.left_half(SHOOK_1, "04000502000007000000", 0, true);
}

/// One state each and a step that both could have taken: back by 1 holds, whoever took it.
#[test]
fn edge_of_two_loops() {
    LOOPS.joint("06010000", 1, true);
    LOOPS.joint("06010000", 0, false);
    LOOPS.left_half("00 0100", "06010000", 1, true);
    LOOPS.left_half("00 ff00", "08000000", 1, true);
    LOOPS.left_half("00 0100", "08000000", 1, false);
    LOOPS.left_half("00 ff00", "06010000", 1, false);
}

/// Three nested forward by 0 on a right machine with rows 1 to 8: they need a partner, or a silent row.
#[test]
fn edge_of_eight_labels() {
    let right = "01 000100 000200 000300 000400 000500 000600 000700 000800";
    let deep = "0500 0500 0500 0200 0200 0000";
    for (left, verdict) in [
        ("01", false),
        ("01 000000", true),
        ("01 000800", true),
        ("02 000801", false),
        ("04 000801 010102 020403", true),
    ] {
        let world = World {
            k: 4,
            left,
            right,
            run: "0000",
        };
        world.joint(deep, 0, verdict);
    }
}

/// A looping real step is no idle, in the log, in a half, and when looked ahead.
#[test]
fn loops_are_no_idles() {
    LOOPS.joint("08000000", 1, false);
    LOOPS.joint("0501 08000000", 0, false);
    LOOPS.joint("0501 06010000", 0, true);
    LOOPS.joint("0700 08000000", 0, true);
    LOOPS.joint("0700 06010000", 0, false);
    LOOPS.left_half("00 0100", "0501 08000000", 1, false);
    LOOPS.left_half("00 0100", "0501 0601 06010000", 1, true);
    LOOPS.left_half("00 0100", "0700 0800 06010000", 1, true);
    let silent = World {
        k: 0,
        left: "01 000000",
        right: "01",
        run: "0000 000000 ff0000",
    };
    silent.joint("08000000", 1, false);
    silent.joint("06000000", 1, true);
    silent.joint("08000000", 2, true);
    silent.joint("06000000", 2, false);
    silent.joint("0800 06000000", 2, true);
}

/// A handshake is a silent step to the log: back by no other label, from either side's machine.
#[test]
fn handshakes_are_silent_to_the_log() {
    for label in 1..=4 {
        CASE_A.joint(&format!("06{label:02x}0000"), 1, false);
        CASE_A.joint(&format!("0500 06{label:02x}0000"), 0, false);
    }
    CASE_A.joint("0500 06000000", 0, true);
    // To the halves it is no silent step: each sees its own label, and not its partner.
    for (half, label) in [(SHOOK_1, 1), (SHOOK_3, 3)] {
        for other in 0..=4 {
            let formula = format!("06{other:02x}0000");
            CASE_A.left_half(half, &formula, 1, other == label);
        }
    }
    CASE_A.right_half("00 0201", "06020000", 1, true);
    CASE_A.right_half("00 0201", "06010000", 1, false);
    CASE_A.right_half("00 0401", "06030000", 1, false);
}

/// Forward by 0 takes in every handshake, and nothing that is none.
#[test]
fn forward_by_0_takes_in_handshakes() {
    CASE_A.joint("05000000", 0, true);
    CASE_A.joint("05000000", 1, false);
    // After the handshake both machines are at their ends; after one alone, the other still moves.
    CASE_A.joint("0500 0400 0501 0000 0502 0000", 0, false);
    CASE_A.joint("0501 05020000", 0, true);
    CASE_A.joint("0501 05000000", 0, false);
    CASE_A.joint("0501 05010000", 0, false);
    // A step by a label that also shakes hands moves one machine alone, and leaves the other where it was.
    for (label, partner) in [(1, 2), (2, 1), (3, 4), (4, 3)] {
        let moves_both = format!("05{label:02x} 0200 05{partner:02x}0000");
        CASE_A.joint(&moves_both, 0, false);
    }
    // A half takes no handshake alone: only rows of label 0 are silent to it.
    CASE_A.left_half("00", "05000000", 0, false);
    CASE_A.left_half("00", "05010000", 0, true);
    CASE_A.left_half("00", "05020000", 0, false);
    let twins = World {
        left: "02 000101 000301",
        right: "02 000101 000301",
        run: "0000",
        ..CASE_A
    };
    twins.joint("05000000", 0, false);
    let silent = World {
        left: "02 000001",
        right: "02 000001",
        run: "0000",
        ..CASE_A
    };
    // Two silent rows are no handshake: one moves after the other.
    silent.joint("0500 05000000", 0, true);
    silent.joint("0500 0500 05000000", 0, false);
    silent.joint("0500 0200 05000000", 0, false);
}

/// Idles of a half keep their places, so the order of steps is not lost.
#[test]
fn idles_keep_their_places() {
    let half = "00 ff00 0101 ff01 ff01";
    CASE_A.left_half(half, "0800 0800 0601 0800 0000", 4, true);
    CASE_A.left_half(half, "0800 0800 0601 0800 0800 0000", 4, false);
    CASE_A.left_half(half, "0601 0800 0000", 4, false);
    CASE_A.left_half(half, "0601 0800 0000", 2, true);
    CASE_A.left_half(half, "0601 0601 0000", 2, false);
    CASE_A.left_half(half, "0601 0000", 1, false);
    CASE_A.left_half(half, "0800 0501 0000", 1, true);
    CASE_A.left_half(half, "0800 0601 0700 0501 0000", 4, false);
    CASE_A.left_half(half, "0800 0800 0601 0700 0501 0000", 4, true);
}

/// A forward modality is about every longer run, not about what the log did next.
#[test]
fn forward_is_not_bound_to_the_log() {
    // The log shakes hands at once; the question goes elsewhere.
    CASE_A.joint("0503 0504 0000", 0, true);
    CASE_A.joint("0600 0501 0502 0601 0000", 1, false);
    CASE_A.joint("0600 0501 0502 0602 0601 0000", 1, true);
    CASE_A.joint("0600 0700 0500 0600 0800 0000", 1, true);
    CASE_A.left_half(SHOOK_1, "0601 0503 0000", 1, true);
    CASE_A.left_half(SHOOK_1, "05030000", 0, true);
    CASE_A.left_half(SHOOK_1, "0700 05030000", 0, true);
}

/// On an empty run every back modality fails, also over true and false, also where the log goes on.
#[test]
fn nothing_lies_before_the_start() {
    for label in 0..=4 {
        for operand in ["0000", "0100", "0200 0100"] {
            CASE_A.joint(&format!("06{label:02x} {operand}"), 0, false);
            CASE_A.left_half(SHOOK_1, &format!("06{label:02x} {operand}"), 0, false);
        }
    }
    for operand in ["0000", "0100", "0200 0100"] {
        CASE_A.joint(&format!("0800 {operand}"), 0, false);
        CASE_A.left_half(SHOOK_3, &format!("0800 {operand}"), 0, false);
    }
    CASE_A.joint("0600 0600 0000", 1, false);
    CASE_A.joint("0600 0200 0600 0000", 1, true);
    CASE_A.joint("0200 0600 0000", 0, true);
}

/// After a look ahead or back the run is what it was, for the operands that are judged next.
#[test]
fn the_run_is_restored() {
    // Back, then ahead over the log's own step, then back along the log again.
    CASE_A.joint("0300 0600 0501 0000 0600 0000", 1, true);
    CASE_A.joint("0400 0600 0501 0100 0600 0000", 1, true);
    CASE_A.joint("0400 0600 0501 0100 0601 0000", 1, false);
    CASE_A.joint("0300 0600 0700 0000 0800 0000", 1, false);
    CASE_A.joint("0300 0600 0000 0200 0501 0000", 1, true);
    CASE_A.joint("0400 0501 0601 0100 0601 0000", 0, false);
    CASE_A.left_half(SHOOK_1, "0300 0601 0503 0000 0601 0000", 1, true);
    CASE_A.left_half(SHOOK_1, "0400 0601 0503 0100 0603 0000", 1, false);
    CASE_A.left_half(SHOOK_1, "0300 0601 0000 0601 0000", 1, true);
}

/// A run of 200 steps grows by four more.
#[test]
fn runs_grow_past_200_steps() {
    let idles = |steps: usize| "ff00".repeat(steps);
    let parts = |formula: &str| HalfParts {
        k: 1,
        table: unhex("01 000100"),
        half: unhex(&("00".to_string() + &idles(200))),
        formula: unhex(formula),
    };
    let four = "0700 0501 0700 0501";
    let home = "0601 0800 0601 0800";
    for (formula, verdict) in [
        (format!("{four} 0000"), true),
        (format!("{four} {home} {} 0000", "0800".repeat(200)), true),
        (format!("{four} {home} {} 0000", "0800".repeat(201)), false),
        (format!("{four} {} 0000", "0800".repeat(200)), false),
    ] {
        let parts = parts(&formula);
        assert_eq!(half_both(&parts, 200), Ok(verdict), "{formula}");
        let joint = Parts {
            k: 1,
            left: parts.table.clone(),
            right: vec![1],
            run: [vec![0, 0], [255, 0, 0].repeat(200)].concat(),
            question: parts.formula.clone(),
        };
        assert_eq!(joint_both(&joint, 200), Ok(verdict), "{formula}");
        let mirrored = Parts {
            left: joint.right.clone(),
            right: joint.left.clone(),
            ..joint
        };
        assert_eq!(joint_both(&mirrored, 200), Ok(verdict), "{formula}");
    }
}
