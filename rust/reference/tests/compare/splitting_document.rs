//! The splittings that document 01 states or implies, written out by hand, for engine and reference both.

use crate::both::unhex;
use crate::splitting_both::{count_both, join_both, join_exactly, split_both, split_exactly, Log};
use crate::worlds::{World, CASE_A, LOOPS};

impl World {
    fn log(&self) -> Log {
        Log {
            k: self.k,
            left: unhex(self.left),
            right: unhex(self.right),
            run: unhex(self.run),
        }
    }

    /// Demands exactly these splittings, in this order, and that each joins back.
    fn splits(&self, expected: &[[&str; 2]]) {
        let log = self.log();
        assert_eq!(count_both(&log), Ok(expected.len()), "{}", self.run);
        for (number, halves) in expected.iter().enumerate() {
            let halves = halves.map(unhex);
            let split = split_exactly(&log, number);
            assert_eq!(split, Ok(halves.clone()), "{number} of {}", self.run);
            let joined = join_exactly(&log.halves(halves));
            assert_eq!(joined, Ok(log.run.clone()), "{number} of {}", self.run);
        }
        assert_eq!(split_exactly(&log, expected.len()), Err(14));
    }

    /// Demands this of joining two halves.
    fn joins(&self, left: &str, right: &str, expected: Result<&str, u8>) {
        let halves = self.log().halves([left, right].map(unhex));
        let joined = join_both(&halves, 602);
        assert_eq!(joined, expected.map(unhex), "{left} and {right}");
    }
}

/// Case A has two splittings, by rising left label.
#[test]
fn case_a() {
    CASE_A.splits(&[["00 0101", "00 0201"], ["00 0301", "00 0401"]]);
}

/// One state each and a step that both could have taken: left alone, then right alone.
#[test]
fn two_loops() {
    LOOPS.splits(&[["00 0100", "00 ff00"], ["00 ff00", "00 0100"]]);
}

/// A run of 0 steps has one splitting: the two start states.
#[test]
fn no_steps() {
    for (run, halves) in [
        ("0000", ["00", "00"]),
        ("0001", ["00", "01"]),
        ("0100", ["01", "00"]),
    ] {
        World { run, ..CASE_A }.splits(&[halves]);
    }
}

/// A log of so many steps of label 1, each of which either of two loops could have taken.
fn two_way_steps(steps: usize) -> Log {
    let mut log = LOOPS.log();
    log.run = [vec![0, 0], [1, 0, 0].repeat(steps)].concat();
    log
}

/// 15 two-way steps have 32,768 splittings.
#[test]
fn fifteen_two_way_steps() {
    let log = two_way_steps(15);
    assert_eq!(count_both(&log), Ok(32_768));
    let (took, idled) = (unhex("0100"), unhex("ff00"));
    for number in [0, 1, 2, 3, 5, 16_383, 16_384, 21_845, 32_766, 32_767] {
        // Bit 14 is the first step's: 0 left alone, 1 right alone.
        let left = (0..15).map(|step| number >> (14 - step) & 1 == 0);
        let half = |takes: bool| if takes { took.clone() } else { idled.clone() };
        let left_half: Vec<u8> = left.clone().flat_map(half).collect();
        let right_half: Vec<u8> = left.flat_map(|takes| half(!takes)).collect();
        let expected = [
            [&[0], &left_half[..]].concat(),
            [&[0], &right_half[..]].concat(),
        ];
        assert_eq!(split_exactly(&log, number), Ok(expected), "{number}");
    }
    for number in [32_768, 32_769, 65_535, 65_536, usize::MAX] {
        assert_eq!(split_exactly(&log, number), Err(14), "{number}");
    }
}

/// 16 two-way steps are refused, in the count and by every number; given halves they are not.
#[test]
fn sixteen_two_way_steps() {
    let log = two_way_steps(16);
    assert_eq!(count_both(&log), Err(13));
    for number in [0, 1, 32_768, 65_534, 65_535, 65_536, usize::MAX] {
        for room in [0, 32, 33, 34] {
            assert_eq!(split_both(&log, number, [room; 2]), Err(13), "{number}");
        }
    }
    let left = [vec![0], [1, 0].repeat(16)].concat();
    let right = [vec![0], [255, 0].repeat(16)].concat();
    let halves = log.halves([left, right]);
    assert_eq!(join_exactly(&halves), Ok(log.run));
}

/// All ways of one looping silent step: left alone, right alone, then handshakes by the left's label, not the right's.
#[test]
fn the_order_of_ways() {
    let all = World {
        k: 2,
        left: "01 000000 000100 000200 000300 000400",
        right: "01 000000 000100 000200 000300 000400",
        run: "0000 000000",
    };
    all.splits(&[
        ["00 0000", "00 ff00"],
        ["00 ff00", "00 0000"],
        ["00 0100", "00 0200"],
        ["00 0200", "00 0100"],
        ["00 0300", "00 0400"],
        ["00 0400", "00 0300"],
    ]);
}

/// Two steps of two and three ways: the first varies slowest.
#[test]
fn the_first_step_varies_slowest() {
    let world = World {
        k: 1,
        left: "02 000001 000101 010001 010101 010201",
        right: "01 000100 000200",
        // A silent move or a handshake, then a loop in which the left is silent or shakes hands on 1 or on 2.
        run: "0000 000100 000100",
    };
    world.splits(&[
        ["00 0001 0001", "00 ff00 ff00"],
        ["00 0001 0101", "00 ff00 0200"],
        ["00 0001 0201", "00 ff00 0100"],
        ["00 0101 0001", "00 0200 ff00"],
        ["00 0101 0101", "00 0200 0200"],
        ["00 0101 0201", "00 0200 0100"],
    ]);
}

/// Which side changed does not say who moved: a machine may loop in a handshake.
#[test]
fn loops_shake_hands() {
    let right_moves = World {
        k: 1,
        left: "01 000100",
        right: "02 000001 000201",
        run: "0000 000001",
    };
    right_moves.splits(&[["00 ff00", "00 0001"], ["00 0100", "00 0201"]]);
    let left_moves = World {
        k: 1,
        left: "02 000001 000201",
        right: "01 000100",
        run: "0000 000100",
    };
    left_moves.splits(&[["00 0001", "00 ff00"], ["00 0201", "00 0100"]]);
    // Nobody changes: the left alone, or both.
    let nobody = World {
        k: 1,
        left: "02 000000 000100 000101",
        right: "02 000200 000201",
        run: "0000 000000",
    };
    nobody.splits(&[["00 0000", "00 ff00"], ["00 0100", "00 0200"]]);
}

/// A joint idle has one way, beside loops of every label, and a looping step is none.
#[test]
fn joint_idles() {
    let world = World {
        k: 1,
        left: "01 000000 000100",
        right: "01 000000 000200",
        run: "0000 ff0000",
    };
    world.splits(&[["00 ff00", "00 ff00"]]);
    let idle_then_loop = World {
        run: "0000 ff0000 010000",
        ..world
    };
    idle_then_loop.splits(&[["00 ff00 0100", "00 ff00 ff00"]]);
    let loop_then_idle = World {
        run: "0000 000000 ff0000",
        ..world
    };
    loop_then_idle.splits(&[
        ["00 0000 ff00", "00 ff00 ff00"],
        ["00 ff00 ff00", "00 0000 ff00"],
        ["00 0100 ff00", "00 0200 ff00"],
    ]);
}

/// A step by a label that also shakes hands is taken alone.
#[test]
fn labels_alone() {
    for (run, halves) in [
        ("0000 010100", ["00 0101", "00 ff00"]),
        ("0000 030100", ["00 0301", "00 ff00"]),
        ("0000 020001", ["00 ff00", "00 0201"]),
        ("0000 040001", ["00 ff00", "00 0401"]),
    ] {
        World { run, ..CASE_A }.splits(&[halves]);
    }
}

/// Idles of a half keep their places and its state.
#[test]
fn idles_keep_their_places() {
    let world = World {
        run: "0000 ff0000 010100 ff0100 040101 ff0101",
        ..CASE_A
    };
    world.splits(&[["00 ff00 0101 ff01 ff01 ff01", "00 ff00 ff00 ff00 0401 ff01"]]);
}

/// Joining on case A's machines: idle beside move, two idles, partners; nothing else.
#[test]
fn joins_on_case_a() {
    CASE_A.joins("00 0101", "00 0201", Ok("0000 000101"));
    CASE_A.joins("00 0301", "00 0401", Ok("0000 000101"));
    CASE_A.joins("00 0101", "00 ff00", Ok("0000 010100"));
    CASE_A.joins("00 ff00", "00 0401", Ok("0000 040001"));
    CASE_A.joins("00 ff00", "00 ff00", Ok("0000 ff0000"));
    CASE_A.joins("01", "00", Ok("0100"));
    CASE_A.joins("00 0101", "00 0401", Err(16));
    CASE_A.joins("00 0301", "00 0201", Err(16));
    CASE_A.joins("00 0101", "00", Err(16));
    CASE_A.joins("00", "00 0201", Err(16));
    CASE_A.joins("00", "00 ff00", Err(16));
    CASE_A.joins("00 0101 ff01", "00 0201", Err(16));
    CASE_A.joins("00 0201", "00 0101", Err(15));
    CASE_A.joins("00 ff01", "00 ff00", Err(15));
    CASE_A.joins("00 0101", "00 ff01", Err(15));
    CASE_A.joins("02", "00", Err(15));
    CASE_A.joins("00", "02", Err(15));
    CASE_A.joins("00 01", "00 02", Err(15));
    CASE_A.joins("", "00", Err(15));
    CASE_A.joins("00", "", Err(15));
}

/// Two silent moves do not match, nor two moves of one label; a match at one step makes up for no other.
#[test]
fn moves_that_do_not_match() {
    let world = World {
        k: 2,
        left: "01 000000 000100 000200 000300",
        right: "01 000000 000100 000200 000300",
        run: "0000",
    };
    world.joins("00 0000", "00 0000", Err(16));
    world.joins("00 0100", "00 0100", Err(16));
    world.joins("00 0200", "00 0200", Err(16));
    world.joins("00 0200", "00 0300", Err(16));
    world.joins("00 0300", "00 0200", Err(16));
    world.joins("00 0000", "00 0100", Err(16));
    world.joins("00 0100", "00 0000", Err(16));
    world.joins("00 0100", "00 0200", Ok("0000 000000"));
    world.joins("00 0200", "00 0100", Ok("0000 000000"));
    world.joins("00 0100 0100", "00 0200 0100", Err(16));
    world.joins("00 0100 0100", "00 0100 0200", Err(16));
    world.joins("00 0100 ff00", "00 ff00 0200", Ok("0000 010000 020000"));
}
