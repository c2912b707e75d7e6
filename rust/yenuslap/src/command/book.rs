//! A casebook's file, and the engine's calls on it, each refusal explained.

use std::ffi::OsStr;

use yenuslap::{
    count_splittings, line_office, quotient, quotient_of_splitting, read_casebook, split, Casebook,
    Refusal, Side, Verdicts, MOST_HALF, MOST_QUOTIENT,
};

use super::answer::answer;
use super::contents::steps;
use super::explain::explain_casebook;
use super::failure::{complain, Failure};
use super::faults::{first_refused, Item, Part};
use super::half_faults::{explain_half, explain_match};
use super::input::{read_bytes, shown_name};
use super::judge;
use super::words::counted;

/// A file that was read.
pub struct Loaded {
    /// Its name as it is shown.
    pub name: String,
    /// As many of its bytes as judge it.
    pub bytes: Vec<u8>,
}

impl Loaded {
    /// Reads a file.
    pub fn read(file: &OsStr) -> Result<Loaded, Failure> {
        Ok(Loaded {
            name: shown_name(file),
            bytes: read_bytes(file)?,
        })
    }

    /// The casebook in the file.
    pub fn book(&self) -> Result<Book<'_>, Failure> {
        match read_casebook(&self.bytes) {
            Ok(parts) => Ok(Book {
                name: &self.name,
                parts,
            }),
            Err(refusal) => {
                let sentence = explain_casebook(&self.bytes, refusal);
                Err(Failure::refused(&self.name, refusal, &sentence))
            }
        }
    }
}

/// Two half runs, as those of a splitting.
#[derive(Clone, PartialEq, Eq, Debug)]
pub struct Halves {
    /// The left machine's.
    pub left: Vec<u8>,
    /// The right machine's.
    pub right: Vec<u8>,
}

/// A sound casebook.
pub struct Book<'a> {
    /// The name of its file as it is shown.
    pub name: &'a str,
    /// Its parts.
    pub parts: Casebook<'a>,
}

impl Halves {
    /// The known half.
    pub fn known(&self, side: Side) -> &[u8] {
        known(side, &self.left, &self.right)
    }
}

impl Book<'_> {
    /// Tells on standard error by which half the quotient is where no side is named: standard output need not say.
    pub fn tell_unnamed(&self, side: Side) {
        if side == Side::Unnamed {
            let (taken, other) = known(side, ("left", "right"), ("right", "left"));
            let told = format!("without --known the quotient is by the {taken} half");
            let else_by = format!("--known {other} divides by the {other} one");
            complain(&format!("{}: note: {told}; {else_by}", self.name));
        }
    }

    /// How many splittings the log has, or that they are too many.
    pub fn count(&self) -> Result<usize, Refusal> {
        let Casebook {
            k,
            left,
            right,
            run,
            ..
        } = self.parts;
        count_splittings(k, left, right, run)
    }

    /// How many splittings the log has.
    pub fn splittings(&self) -> Result<usize, Failure> {
        let count = self.count();
        count.map_err(|refusal| self.refused(refusal, &too_many_splittings(&self.parts)))
    }

    /// The splitting of a number.
    pub fn splitting(&self, number: usize) -> Result<Halves, Failure> {
        let parts = &self.parts;
        let (mut left, mut right) = (vec![0; MOST_HALF], vec![0; MOST_HALF]);
        let length = split(
            parts.k,
            parts.left,
            parts.right,
            parts.run,
            number,
            &mut left,
            &mut right,
        )
        .map_err(|refusal| self.refused_call(refusal, number, 0))?;
        left.truncate(length);
        right.truncate(length);
        Ok(Halves { left, right })
    }

    /// The quotient of the question by the known one of two halves, stopped at a point.
    pub fn quotient_of_halves(
        &self,
        halves: &Halves,
        side: Side,
        point: usize,
    ) -> Result<Vec<u8>, Refusal> {
        let parts = &self.parts;
        answer(MOST_QUOTIENT, |out| {
            let (k, left, right) = (parts.k, parts.left, parts.right);
            let (left_half, right_half) = (&halves.left, &halves.right);
            let question = parts.question;
            quotient(
                k, left, right, left_half, right_half, question, side, point, out,
            )
        })
    }

    /// The quotient of the question by the known half of a splitting, stopped at a point.
    pub fn quotient(&self, number: usize, side: Side, point: usize) -> Result<Vec<u8>, Refusal> {
        let parts = &self.parts;
        answer(MOST_QUOTIENT, |out| {
            let (k, left, right) = (parts.k, parts.left, parts.right);
            let (run, question) = (parts.run, parts.question);
            quotient_of_splitting(k, left, right, run, question, number, side, point, out)
        })
    }

    /// The line's verdict and the machine's under the quotient.
    pub fn line_office(
        &self,
        halves: &Halves,
        question: &[u8],
        side: Side,
        point: usize,
    ) -> Result<Verdicts, Refusal> {
        let Casebook { k, left, right, .. } = self.parts;
        line_office(
            k,
            left,
            right,
            &halves.left,
            &halves.right,
            question,
            side,
            point,
        )
    }

    /// A refusal of a call on this casebook, with a sentence.
    pub fn refused(&self, refusal: Refusal, sentence: &str) -> Failure {
        Failure::refused(self.name, refusal, sentence)
    }

    /// A refusal of a call that named a splitting and a point.
    pub fn refused_call(&self, refusal: Refusal, number: usize, point: usize) -> Failure {
        let sentence = match (refusal.number(), self.count()) {
            (12, _) => no_such_point("log", steps(self.parts.run), point),
            (14, Ok(count)) => no_such_splitting(number, count),
            _ => too_many_splittings(&self.parts),
        };
        self.refused(refusal, &sentence)
    }

    /// A refusal of a call that was given halves.
    pub fn refused_halves(&self, refusal: Refusal, halves: &Halves) -> Failure {
        let explain = match refusal.number() {
            16 => explain_match,
            _ => explain_half,
        };
        let sentence = explain(&self.parts, &halves.left, &halves.right);
        self.refused(refusal, &sentence)
    }
}

/// The sentence for a point that a run does not have.
pub fn no_such_point(run: &str, last: usize, point: usize) -> String {
    let steps = counted(last, "step");
    format!("point {point} is beyond the {run}; it has {steps}, so its points are 0 to {last}")
}

/// The sentence for a splitting that the log does not have.
fn no_such_splitting(number: usize, count: usize) -> String {
    let count = counted(count, "splitting");
    format!("there is no splitting {number}; the log has {count}, counted from 0")
}

/// The sentence for a log with too many splittings, with the step from which on they are.
pub fn too_many_splittings(parts: &Casebook) -> String {
    let refused =
        |run: &[u8]| judge::has_too_many_splittings(parts.k, parts.left, parts.right, run);
    let since = match first_refused(parts.run, Part::Log.layout(), refused) {
        Item::Entry(step) => format!(", from step {step} on"),
        _ => String::new(),
    };
    format!("the log has over 65,535 splittings{since}; no number names one of so many")
}

/// Of what is the left's and what is the right's, that of the known side, as the engine takes it where none is named.
pub fn known<T>(side: Side, left: T, right: T) -> T {
    if side.knows_left() {
        left
    } else {
        right
    }
}

/// How the known half is called where it has no such point.
pub fn known_half(side: Side) -> String {
    format!("known half, the {} one", known(side, "left", "right"))
}
