//! Asks the engine and the reference for quotients and line offices and demands that they agree in every respect.

use std::hint::black_box;

use crate::both::{bare_answer, knows_left, number_of, sides, wrapped_number};
use crate::splitting_both::{alike, Halves, Log, Output};
use reference::formula::QUOTIENT_NODES;
use reference::quotient::{self, Asked, Known};
use reference::Refusal;
use yenuslap::bare;

/// Two machines, a half run of each and a question.
#[derive(Clone, PartialEq, Eq, Debug)]
pub struct Given {
    pub halves: Halves,
    pub question: Vec<u8>,
}

/// Two machines, a log and a question.
#[derive(Clone, PartialEq, Eq, Debug)]
pub struct Logged {
    pub log: Log,
    pub question: Vec<u8>,
}

/// The byte that names the known side, and the point.
#[derive(Clone, Copy, PartialEq, Eq, Debug)]
pub struct Stop {
    pub side: u8,
    pub point: usize,
}

impl Stop {
    /// Whether the left half is the known one.
    pub fn knows_left(self) -> bool {
        knows_left(self.side)
    }

    /// The same for the reference.
    fn known(self) -> Known {
        Known {
            side: sides(self.side).0,
            point: self.point,
        }
    }
}

/// The bytes that name a side: none, left, right, and others that name none.
pub const SIDES: [u8; 6] = [0, 1, 2, 3, 129, 255];

/// The bytes of the largest quotient.
pub const LARGEST: usize = 2 * QUOTIENT_NODES;

impl Given {
    /// The bytes of both halves.
    pub fn both_halves(&self) -> [&[u8]; 2] {
        [&self.halves.left_half, &self.halves.right_half]
    }

    /// The half that is known.
    pub fn known(&self, side: u8) -> &[u8] {
        match knows_left(side) {
            true => &self.halves.left_half,
            false => &self.halves.right_half,
        }
    }

    /// The machines and the question, for the reference.
    pub fn asked(&self) -> Asked<'_> {
        Asked {
            k: self.halves.k,
            left: &self.halves.left,
            right: &self.halves.right,
            question: &self.question,
        }
    }

    /// The engine's bare answer alone, into an output of its own.
    pub fn engine(&self, stop: Stop, out: &mut [u8]) -> u64 {
        let Given {
            halves: it,
            question,
        } = self;
        let (left_half, right_half) = (&it.left_half, &it.right_half);
        let Stop { side, point } = stop;
        let (left, right) = (&it.left, &it.right);
        bare::quotient(
            it.k, left, right, left_half, right_half, question, side, point, out,
        )
    }
}

impl Logged {
    /// The call with the halves of one splitting in the log's place.
    pub fn with(&self, halves: [Vec<u8>; 2]) -> Given {
        Given {
            halves: self.log.halves(halves),
            question: self.question.clone(),
        }
    }

    /// The machines and the question, for the reference.
    fn asked(&self) -> Asked<'_> {
        Asked {
            k: self.log.k,
            left: &self.log.left,
            right: &self.log.right,
            question: &self.question,
        }
    }
}

/// The quotient by halves on which both agree, for an output of `room` bytes; every lent byte is looked at.
pub fn quotient_both(given: &Given, stop: Stop, room: usize) -> Result<Vec<u8>, Refusal> {
    let before = given.clone();
    let expected = quotient::by_halves(given.asked(), given.both_halves(), stop.known(), room);
    let about = || format!("{given:?} at {stop:?} in {room}");
    let mut out = Output::new(room, false);
    let answer = given.engine(stop, out.lent());
    let mut again = Output::new(room, true);
    let Given {
        halves: it,
        question,
    } = given;
    let wrapped = yenuslap::quotient(
        it.k,
        &it.left,
        &it.right,
        &it.left_half,
        &it.right_half,
        question,
        sides(stop.side).1,
        stop.point,
        again.lent(),
    );
    let length = expected.as_ref().map(Vec::len).map_err(|n| *n);
    alike(length, answer, wrapped, &about);
    out.holds(expected.as_deref().ok(), &about);
    again.holds(expected.as_deref().ok(), &about);
    assert_eq!(black_box(given), &before, "lent parts changed");
    expected
}

/// The quotient by a splitting's number on which both agree, for an output of `room` bytes; every lent byte is looked
/// at.
pub fn numbered_both(
    logged: &Logged,
    number: usize,
    stop: Stop,
    room: usize,
) -> Result<Vec<u8>, Refusal> {
    let before = logged.clone();
    let Logged { log, question } = logged;
    let Log {
        k,
        left,
        right,
        run,
    } = log;
    let expected = quotient::by_number(logged.asked(), run, number, stop.known(), room);
    let about = || format!("{number} of {logged:?} at {stop:?} in {room}");
    let Stop { side, point } = stop;
    let mut out = Output::new(room, false);
    let lent = out.lent();
    let answer =
        bare::quotient_of_splitting(*k, left, right, run, question, number, side, point, lent);
    let mut again = Output::new(room, true);
    let (lent, side) = (again.lent(), sides(side).1);
    let wrapped =
        yenuslap::quotient_of_splitting(*k, left, right, run, question, number, side, point, lent);
    let length = expected.as_ref().map(Vec::len).map_err(|n| *n);
    alike(length, answer, wrapped, &about);
    out.holds(expected.as_deref().ok(), &about);
    again.holds(expected.as_deref().ok(), &about);
    assert_eq!(black_box(logged), &before, "lent parts changed");
    expected
}

/// The two verdicts of the line office on which both agree; they must be one and the same.
pub fn office_both(given: &Given, stop: Stop) -> Result<bool, Refusal> {
    let before = given.clone();
    let Given {
        halves: it,
        question,
    } = given;
    let (left, right) = (&it.left, &it.right);
    let (left_half, right_half) = (&it.left_half, &it.right_half);
    let Stop { side, point } = stop;
    let expected = quotient::line_office(given.asked(), given.both_halves(), stop.known());
    let answer = bare::line_office(
        it.k, left, right, left_half, right_half, question, side, point,
    );
    let side = sides(side).1;
    let wrapped = yenuslap::line_office(
        it.k, left, right, left_half, right_half, question, side, point,
    );
    let about = || format!("{given:?} at {stop:?}");
    let value = expected.map(|[joint, half]| 2 * usize::from(joint) + usize::from(half));
    let number = number_of(&value);
    assert_eq!(
        answer,
        bare_answer(&value),
        "expected {expected:?} of {}",
        about()
    );
    assert_eq!(wrapped_number(&wrapped), number, "of {}", about());
    let wrapped = wrapped.ok().map(|verdicts| [verdicts.joint, verdicts.half]);
    assert_eq!(wrapped, expected.ok(), "of {}", about());
    assert_eq!(black_box(given), &before, "lent parts changed");
    let [joint, half] = expected?;
    assert_eq!(joint, half, "of {}", about());
    Ok(joint)
}

/// The outputs that are tried: for an answer exact, one byte short, longer and none; for a refusal none, one byte, as
/// large as the largest answer, and larger.
fn rooms(answer: &Result<Vec<u8>, Refusal>) -> [usize; 4] {
    match answer {
        Ok(bytes) => [bytes.len(), bytes.len() - 1, bytes.len() + 9, 0],
        Err(_) => [0, 1, LARGEST, LARGEST + 2],
    }
}

/// What a call that has this answer where there is room must answer with `room` bytes: only 18 turns on them.
fn in_room(answer: &Result<Vec<u8>, Refusal>, room: usize) -> Result<Vec<u8>, Refusal> {
    match answer {
        Ok(bytes) if bytes.len() > room => Err(18),
        answer => answer.clone(),
    }
}

/// The quotient by halves on which both agree, asked for in outputs of several sizes.
pub fn quotient_in_rooms(given: &Given, stop: Stop) -> Result<Vec<u8>, Refusal> {
    let (asked, halves) = (given.asked(), given.both_halves());
    let answer = quotient::by_halves(asked, halves, stop.known(), LARGEST);
    for room in rooms(&answer) {
        let again = quotient_both(given, stop, room);
        assert_eq!(again, in_room(&answer, room), "{given:?} at {stop:?}");
    }
    answer
}

/// The quotient by a number on which both agree, asked for in outputs of several sizes.
pub fn numbered_in_rooms(logged: &Logged, number: usize, stop: Stop) -> Result<Vec<u8>, Refusal> {
    let (asked, run) = (logged.asked(), &logged.log.run);
    let answer = quotient::by_number(asked, run, number, stop.known(), LARGEST);
    for room in rooms(&answer) {
        let again = numbered_both(logged, number, stop, room);
        assert_eq!(again, in_room(&answer, room), "{number} of {logged:?}");
    }
    answer
}
