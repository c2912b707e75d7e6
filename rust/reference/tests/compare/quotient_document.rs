//! The quotients that document 01 states or implies, written out by hand, for engine and reference both. Document 01's
//! own name the right half; where no side is named it is the left, as document 02 says.

use crate::both::{knows_left, unhex};
use crate::quotient_both::{
    numbered_both, numbered_in_rooms, office_both, quotient_in_rooms, Given, Logged, Stop,
};
use crate::splitting_both::Log;
use crate::worlds::{World, CASE_A, LOOPS};
use reference::Refusal;

/// The bytes that name the left side, the right side and none.
const LEFT: u8 = 1;
const RIGHT: u8 = 2;
const UNNAMED: u8 = 0;

impl World {
    /// The world's log with a question.
    fn logged(&self, question: &str) -> Logged {
        Logged {
            log: Log {
                k: self.k,
                left: unhex(self.left),
                right: unhex(self.right),
                run: unhex(self.run),
            },
            question: unhex(question),
        }
    }

    /// The world's machines with two halves and a question.
    fn given(&self, halves: [&str; 2], question: &str) -> Given {
        self.logged(question).with(halves.map(unhex))
    }

    /// Demands the quotient by the known one of two halves at their end, where the known side is the right, or the
    /// left, named or not.
    fn divides(&self, halves: [&str; 2], side: u8, question: &str, quotient: &str) {
        let given = self.given(halves, question);
        let point = (unhex(halves[0]).len() - 1) / 2;
        let sides: &[u8] = if side == LEFT {
            &[LEFT, UNNAMED]
        } else {
            &[RIGHT]
        };
        for side in sides {
            let stop = Stop { side: *side, point };
            let answer = quotient_in_rooms(&given, stop);
            assert_eq!(answer, Ok(unhex(quotient)), "{question} by {halves:?}");
        }
    }
}

/// Document 01's sheet of case A: point, splitting, verdict, quotient by the right half.
#[test]
fn sheet_of_case_a() {
    let logged = CASE_A.logged("06000000");
    let halves = [["00 0101", "00 0201"], ["00 0301", "00 0401"]];
    for (point, number, verdict, quotient) in [
        (0, 0, false, "0100"),
        (0, 1, false, "0100"),
        (1, 0, true, "06010000"),
        (1, 1, true, "06030000"),
    ] {
        let stop = Stop { side: RIGHT, point };
        let answer = numbered_in_rooms(&logged, number, stop);
        assert_eq!(answer, Ok(unhex(quotient)), "{point} {number}");
        let given = logged.with(halves[number].map(unhex));
        assert_eq!(quotient_in_rooms(&given, stop), answer);
        assert_eq!(office_both(&given, stop), Ok(verdict));
    }
    let end = Stop {
        side: RIGHT,
        point: 1,
    };
    assert_eq!(numbered_both(&logged, 2, end, 4), Err(14));
    let beyond = Stop {
        side: RIGHT,
        point: 2,
    };
    assert_eq!(numbered_both(&logged, 0, beyond, 4), Err(12));
}

/// The same by the left half, named or not: the right one shook hands by the partner.
#[test]
fn sheet_of_case_a_by_the_left() {
    let logged = CASE_A.logged("06000000");
    for (point, number, quotient) in [
        (0, 0, "0100"),
        (0, 1, "0100"),
        (1, 0, "06020000"),
        (1, 1, "06040000"),
    ] {
        for side in [LEFT, UNNAMED] {
            let stop = Stop { side, point };
            let answer = numbered_in_rooms(&logged, number, stop);
            assert_eq!(answer, Ok(unhex(quotient)), "{point} {number}");
        }
    }
}

/// Where no side is named the left half is known: 12 looks at it alone, and a fault of the right one is 15 or 16.
#[test]
fn beyond_the_left_half_where_none_is_named() {
    for (halves, by_left, by_right) in [
        (["00 01", "00 0201"], 12, 15),
        (["00 0101", "00 02"], 15, 12),
        (["00", "00 0201"], 12, 16),
        (["00 0101", "00"], 16, 12),
        (["09", "09 0201"], 12, 15),
        (["09 0101", "09"], 15, 12),
    ] {
        let given = CASE_A.given(halves, "06000000");
        for (side, number) in [(UNNAMED, by_left), (LEFT, by_left), (RIGHT, by_right)] {
            let stop = Stop { side, point: 1 };
            assert_eq!(
                quotient_in_rooms(&given, stop),
                Err(number),
                "{halves:?} {side}"
            );
            assert_eq!(office_both(&given, stop), Err(number), "{halves:?} {side}");
        }
    }
}

/// The other questions of document 01 on case A.
#[test]
fn questions_on_case_a() {
    let splitting = ["00 0101", "00 0201"];
    // The log says 0, so "back by 1" fails although the halves shook hands on 1.
    CASE_A.divides(splitting, RIGHT, "06010000", "0100");
    CASE_A.divides(splitting, RIGHT, "06020000", "08000000");
    CASE_A.divides(splitting, LEFT, "06010000", "08000000");
    CASE_A.divides(splitting, LEFT, "06020000", "0100");
    let start = ["00", "00"];
    CASE_A.divides(start, RIGHT, "05000000", "04000500000004000501000005030000");
    CASE_A.divides(start, RIGHT, "05020000", "04000502000007000000");
    CASE_A.divides(start, LEFT, "05000000", "04000500000004000502000005040000");
    CASE_A.divides(start, LEFT, "05010000", "04000501000007000000");
    // No row of the label, or none at all from the last state: the idle alone, and no "or".
    CASE_A.divides(start, RIGHT, "05010000", "05010000");
    CASE_A.divides(start, LEFT, "05020000", "05020000");
    for side in [LEFT, RIGHT] {
        CASE_A.divides(splitting, side, "05000000", "05000000");
        CASE_A.divides(splitting, side, "05020000", "05020000");
    }
}

/// The verdicts that document 01 states with those questions.
#[test]
fn verdicts_on_case_a() {
    let splitting = ["00 0101", "00 0201"];
    for (question, point, verdict) in [
        ("06010000", 1, false),
        ("05000000", 0, true),
        ("05020000", 0, true),
        ("05020000", 1, false),
        ("0000", 0, true),
        ("0100", 1, false),
    ] {
        for side in [UNNAMED, LEFT, RIGHT] {
            let given = CASE_A.given(splitting, question);
            let answer = office_both(&given, Stop { side, point });
            assert_eq!(answer, Ok(verdict), "{question} {point}");
        }
    }
}

/// One state each, with a step that both could have taken: who did is seen in the quotient.
#[test]
fn one_state_machines() {
    let logged = LOOPS.logged("06010000");
    for (number, side, quotient) in [
        (0, RIGHT, "06010000"),
        (1, RIGHT, "08000000"),
        (0, LEFT, "08000000"),
        (1, LEFT, "06010000"),
        (0, UNNAMED, "08000000"),
        (1, UNNAMED, "06010000"),
    ] {
        let answer = numbered_in_rooms(&logged, number, Stop { side, point: 1 });
        assert_eq!(answer, Ok(unhex(quotient)), "{number} {side}");
    }
    // A looping real step is no idle.
    LOOPS.divides(["00 ff00", "00 0100"], RIGHT, "08000000", "0100");
    LOOPS.divides(["00 0100", "00 ff00"], RIGHT, "08000000", "08000000");
    LOOPS.divides(["00 ff00", "00 ff00"], RIGHT, "08000000", "08000000");
    LOOPS.divides(["00 ff00", "00 ff00"], LEFT, "06010000", "06010000");
}

/// True, false, not, and, or pass through, and operands keep their places.
#[test]
fn operators_pass_through() {
    let start = ["00", "00"];
    for side in [LEFT, RIGHT] {
        for question in [
            "0000",
            "0100",
            "02000000",
            "020002000100",
            "030000000100",
            "030001000000",
            "040000000100",
            "0400 0300 0100 0000 0200 0000",
            "0300 0000 0400 0200 0100 0000",
        ] {
            CASE_A.divides(start, side, question, question);
        }
    }
    CASE_A.divides(
        ["00 0101", "00 0201"],
        RIGHT,
        "0300 0600 0000 0400 0601 0000 0602 0000",
        "0300 0601 0000 0400 0100 0800 0000",
    );
}

/// On an empty known half every back modality is false, whatever stands below it.
#[test]
fn back_from_the_start() {
    for side in [LEFT, RIGHT] {
        for question in [
            "06000000",
            "06010000",
            "08000000",
            "0600 0300 0000 0501 0000",
        ] {
            CASE_A.divides(["00", "00"], side, question, "0100");
        }
    }
}

/// Machines of one state with loops of labels 0 to 2, and two of one label with different targets on the right.
const BUSY: World = World {
    k: 1,
    left: "01 000000 000100 000200",
    right: "03 000000 000101 000102 000202 010200 020101 020202",
    run: "0000",
};

/// Forward by 0: the idle, the silent rows, then those that shake hands, all in row order and joined to the right.
#[test]
fn ahead_by_silence() {
    BUSY.divides(
        ["00", "00"],
        RIGHT,
        "05000000",
        "0400 0500 0000 0400 0700 0000 0400 0502 0000 0400 0502 0000 0501 0000",
    );
    BUSY.divides(
        ["00", "00"],
        LEFT,
        "05000000",
        "0400 0500 0000 0400 0700 0000 0400 0502 0000 0501 0000",
    );
}

/// The operand of each disjunct is the quotient by the known half that took this row, or idled.
#[test]
fn ahead_by_one_label_twice() {
    // From 0 by 1 to 1, which has no row of label 1, and to 2, which has one.
    BUSY.divides(
        ["00", "00"],
        RIGHT,
        "0501 0501 0000",
        "0400 0501 0400 0501 0000 0400 0700 0000 0700 0000 \
         0400 0700 0501 0000 0700 0400 0501 0000 0700 0000",
    );
    // Forward by 0, back by 0: by an idle, alone, or shaking hands.
    BUSY.divides(
        ["00", "00"],
        RIGHT,
        "0500 0600 0000",
        "0400 0500 0600 0000 0400 0700 0800 0000 0400 0502 0602 0000 0400 0502 0602 0000 \
         0501 0601 0000",
    );
    // Forward by 0, back by 1: where the known half took 1, only an idle of the other one makes the log say 1.
    BUSY.divides(
        ["00", "00"],
        RIGHT,
        "0500 0601 0000",
        "0400 0500 0601 0000 0400 0700 0100 0400 0502 0800 0000 0400 0502 0800 0000 0501 0100",
    );
}

/// Forward and back by idle.
#[test]
fn idles_ahead_and_back() {
    let start = ["00", "00"];
    for side in [LEFT, RIGHT] {
        BUSY.divides(start, side, "07000000", "07000000");
        BUSY.divides(start, side, "0700 0800 0000", "0700 0800 0000");
        BUSY.divides(start, side, "0700 0601 0000", "0700 0601 0000");
        BUSY.divides(start, side, "0700 0800 0600 0000", "0700 0800 0100");
        BUSY.divides(
            start,
            side,
            "0700 0700 0800 0800 0800 0000",
            "0700 0700 0800 0800 0100",
        );
    }
    let stepped = ["00 ff00", "00 0000"];
    BUSY.divides(stepped, RIGHT, "0700 0800 0600 0000", "0700 0800 0800 0000");
    BUSY.divides(stepped, LEFT, "0700 0800 0600 0000", "0700 0800 0600 0000");
}

/// The known half's last steps one after the other: idle, alone by 0, alone by 1, shaking hands by 2.
#[test]
fn back_along_a_known_half() {
    let halves = ["00 0200 ff00 ff00 0100 ff00", "00 ff00 0000 0101 0200 ff00"];
    BUSY.divides(
        halves,
        RIGHT,
        "0800 0600 0601 0600 0602 0000",
        "0800 0601 0800 0800 0602 0000",
    );
    BUSY.divides(
        halves,
        LEFT,
        "0800 0600 0601 0600 0602 0000",
        "0800 0602 0601 0600 0800 0000",
    );
    // An idle left out: every step is then taken for another one.
    BUSY.divides(halves, RIGHT, "0600 0600 0601 0000", "0600 0601 0800 0000");
    BUSY.divides(halves, RIGHT, "0800 0602 0000", "0800 0800 0000");
    BUSY.divides(halves, RIGHT, "0800 0601 0000", "0800 0100");
    BUSY.divides(halves, LEFT, "0800 0601 0000", "0800 0800 0000");
    BUSY.divides(halves, LEFT, "0800 0602 0000", "0800 0100");
    BUSY.divides(halves, LEFT, "0800 0800 0000", "0800 0100");
}

/// Back by 0 over a silent step that the known half took alone, and over a handshake by every label.
#[test]
fn back_by_silence() {
    BUSY.divides(["00 ff00", "00 0000"], RIGHT, "06000000", "08000000");
    BUSY.divides(["00 0000", "00 ff00"], RIGHT, "06000000", "06000000");
    for label in 1..=30u8 {
        let partner = if label % 2 == 1 { label + 1 } else { label - 1 };
        let table = |label| vec![2, 0, label, 1];
        let mut logged = CASE_A.logged("06000000");
        logged.log.k = 15;
        (logged.log.left, logged.log.right) = (table(partner), table(label));
        let given = logged.with([vec![0, partner, 1], vec![0, label, 1]]);
        for (side, other) in [(RIGHT, partner), (LEFT, label)] {
            let answer = quotient_in_rooms(&given, Stop { side, point: 1 });
            assert_eq!(answer, Ok(vec![6, other, 0, 0]), "{label} {side}");
        }
    }
}

/// Document 01's large machine on the known side: one state with rows of labels 1 to 8 to itself.
fn eight_loops(side: u8, question: &str) -> Result<usize, Refusal> {
    let loops = "01 000100 000200 000300 000400 000500 000600 000700 000800";
    let (left, right) = if knows_left(side) {
        (loops, "01")
    } else {
        ("01", loops)
    };
    let run = "0000";
    let world = World {
        k: 4,
        left,
        right,
        run,
    };
    let stop = Stop { side, point: 0 };
    let given = quotient_in_rooms(&world.given(["00", "00"], question), stop);
    let numbered = numbered_in_rooms(&world.logged(question), 0, stop);
    assert_eq!(given, numbered);
    let verdict = office_both(&world.given(["00", "00"], question), stop);
    assert_eq!(
        verdict.map(|_| ()),
        given.as_ref().map(|_| ()).map_err(|n| *n)
    );
    given.map(|bytes| bytes.len() / 2)
}

/// Three nested forward by 0 over not not true has 3,734 nodes, over not not not true 4,463, which is refused. Where no
/// side is named it is the left machine's rows that count.
#[test]
fn eight_loops_at_the_limit() {
    for side in [UNNAMED, LEFT, RIGHT] {
        assert_eq!(eight_loops(side, "0500 0500 0500 0200 0200 0000"), Ok(3734));
        assert_eq!(
            eight_loops(side, "0500 0500 0500 0200 0200 0200 0000"),
            Err(17)
        );
        assert_eq!(eight_loops(side, "0500 0000"), Ok(26));
    }
}

/// A run of 0 steps has one splitting, and 16 two-way steps have too many to be named by number.
#[test]
fn how_many_splittings() {
    let none = World {
        run: "0000",
        ..LOOPS
    }
    .logged("05010000");
    let start = Stop {
        side: RIGHT,
        point: 0,
    };
    let answer = numbered_in_rooms(&none, 0, start);
    assert_eq!(answer, Ok(unhex("0400 0501 0000 0700 0000")));
    assert_eq!(numbered_both(&none, 1, start, 20), Err(14));
    for (steps, number, expected) in [
        (15, 32_767, Ok(unhex("0800 0000"))),
        (15, 32_766, Ok(unhex("0601 0000"))),
        (15, 32_768, Err(14)),
        (16, 0, Err(13)),
        (16, 65_535, Err(13)),
        (16, 65_536, Err(13)),
    ] {
        let mut logged = LOOPS.logged("0601 0000");
        logged.log.run = [vec![0, 0], [1, 0, 0].repeat(steps)].concat();
        let stop = Stop {
            side: RIGHT,
            point: steps,
        };
        assert_eq!(numbered_in_rooms(&logged, number, stop), expected);
    }
}
