//! `yenuslap quotient`: the quotient of the question by the known half.

use yenuslap::{Refusal, Side};

use super::arguments::Arguments;
use super::asked::{halves, side, splittings};
use super::book::{known_half, no_such_point, Book, Halves, Loaded};
use super::contents::{half_steps, steps};
use super::failure::{Ending, Failure};
use super::hex::joined;
use super::output::Output;
use super::statement::notation;

/// The number of a point that the halves do not have.
const NO_POINT: u32 = 12;
/// The number of a quotient that is too large; those of other splittings may be smaller.
pub const TOO_LARGE: u32 = 17;

/// Prints the quotient by the halves that are given, for one splitting, or for each.
pub fn run(arguments: &Arguments, out: &mut Output) -> Result<Ending, Failure> {
    let (known, given) = (side(arguments, "known")?, halves(arguments)?);
    let (point, number) = (arguments.number("point")?, arguments.number("splitting")?);
    let loaded = Loaded::read(arguments.file()?)?;
    let book = loaded.book()?;
    book.tell_unnamed(known);
    let last = match &given {
        Some(halves) => half_steps(halves.known(known)).count(),
        None => steps(book.parts.run),
    };
    let request = Request {
        book,
        known,
        point: point.unwrap_or(last),
        spelled: spelled(arguments),
    };
    match given {
        Some(halves) => request.by_halves(&halves, last, out),
        None => request.by_splittings(number, out),
    }
}

/// How quotients are spelled.
fn spelled(arguments: &Arguments) -> fn(&[u8]) -> String {
    if arguments.has("hex") {
        joined
    } else {
        notation
    }
}

/// Which quotient is asked for, and how it is spelled.
struct Request<'a> {
    book: Book<'a>,
    known: Side,
    point: usize,
    spelled: fn(&[u8]) -> String,
}

impl Request<'_> {
    /// Prints the quotient by the known one of two halves.
    fn by_halves(&self, halves: &Halves, last: usize, out: &mut Output) -> Result<Ending, Failure> {
        match self.book.quotient_of_halves(halves, self.known, self.point) {
            Ok(quotient) => {
                out.line((self.spelled)(&quotient))?;
                Ok(Ending::Fine)
            }
            Err(refusal) => Err(self.refused_halves(refusal, halves, last)),
        }
    }

    /// Why a quotient by halves is refused. A half of even length has no points; what is wrong is its length then.
    fn refused_halves(&self, refusal: Refusal, halves: &Halves, last: usize) -> Failure {
        let sentence = match refusal.number() {
            NO_POINT if self.point > last => {
                no_such_point(&known_half(self.known), last, self.point)
            }
            TOO_LARGE => too_large(self.point),
            _ => return self.book.refused_halves(refusal, halves),
        };
        self.book.refused(refusal, &sentence)
    }

    /// Prints a line for the splitting that is asked for, or for each.
    fn by_splittings(&self, asked: Option<usize>, out: &mut Output) -> Result<Ending, Failure> {
        let mut refused = None;
        for number in splittings(asked, &self.book)? {
            let refusal = self.print(number, out)?;
            refused = refused.or(refusal);
        }
        match refused {
            Some(refusal) => Err(self.book.refused(refusal, &too_large(self.point))),
            None => Ok(Ending::Fine),
        }
    }

    /// Prints a splitting's line; gives the refusal of a quotient that is too large.
    fn print(&self, number: usize, out: &mut Output) -> Result<Option<Refusal>, Failure> {
        match self.book.quotient(number, self.known, self.point) {
            Ok(quotient) => {
                out.line(format!("{number} {}", (self.spelled)(&quotient)))?;
                Ok(None)
            }
            Err(refusal) if refusal.number() == TOO_LARGE => {
                out.line(format!("{number} refused {TOO_LARGE}"))?;
                Ok(Some(refusal))
            }
            Err(refusal) => Err(self.book.refused_call(refusal, number, self.point)),
        }
    }
}

/// The sentence for quotients that are too large.
pub fn too_large(point: usize) -> String {
    format!("the quotient at point {point} has over 4,096 nodes, and no larger one is written")
}
