//! `yenuslap verdict`: verdicts on the log, on a half, or on both for the line office.

use yenuslap::{half_verdict, joint_verdict, Refusal, Side};

use super::arguments::{usage, Arguments};
use super::asked::{formula, halves, points, side};
use super::book::{known, known_half, no_such_point, Book, Halves, Loaded};
use super::contents::{half_steps, steps};
use super::failure::{Ending, Failure};
use super::faults::Item;
use super::formula_faults::{formula_fault, FormulaKind};
use super::half_faults::explain_one;
use super::output::Output;
use super::quotient::{too_large, TOO_LARGE};
use super::statement_parser::Statement;

/// What a verdict is asked of.
enum Subject {
    /// The log.
    Log,
    /// One of two halves.
    Half(Side, Halves),
    /// The line, and one machine under the quotient by the known half.
    LineOffice(Side, Halves),
}

/// Prints the verdict at one point or at each.
pub fn run(arguments: &Arguments, out: &mut Output) -> Result<Ending, Failure> {
    go_together(arguments)?;
    let (given, point) = (formula(arguments)?, arguments.number("point")?);
    let asked = Asked::of(arguments)?;
    let loaded = Loaded::read(arguments.file()?)?;
    let book = loaded.book()?;
    let request = Request {
        subject: asked.subject(&book)?,
        statement: given.as_ref().map_or(book.parts.question, |s| &s.bytes),
        given: given.as_ref(),
        book,
    };
    let mut refused = None;
    for point in points(point, request.last_point()) {
        match request.verdict(point) {
            Ok(verdict) => out.line(format!("point {point}: {verdict}"))?,
            // The quotients at other points may be smaller.
            Err(refusal) if refusal.number() == TOO_LARGE => {
                out.line(format!("point {point}: refused {TOO_LARGE}"))?;
                refused = refused.or(Some(request.refused(refusal, point)));
            }
            Err(refusal) => return Err(request.refused(refusal, point)),
        }
    }
    refused.map_or(Ok(Ending::Fine), Err)
}

/// Refuses options that do not go together.
fn go_together(arguments: &Arguments) -> Result<(), Failure> {
    arguments.not_both("half", "line-office")?;
    arguments.needs("known", "line-office")?;
    let halved = arguments.has("half") || arguments.has("line-office");
    let named = arguments.has("splitting") || arguments.has("left") || arguments.has("right");
    match (halved, named) {
        (true, false) => {
            usage("a splitting is missing (--splitting, or --left and --right)".into())
        }
        (false, true) => usage("a splitting needs --half or --line-office".into()),
        _ => Ok(()),
    }
}

/// What the options say of the subject; the casebook may still have no such splitting.
struct Asked {
    /// Whether it is for the line office.
    office: bool,
    /// The half that is judged, or for the line office the known one.
    side: Side,
    halves: Option<Halves>,
    number: Option<usize>,
}

impl Asked {
    /// Reads the options.
    fn of(arguments: &Arguments) -> Result<Asked, Failure> {
        let office = arguments.has("line-office");
        Ok(Asked {
            office,
            side: side(arguments, if office { "known" } else { "half" })?,
            halves: halves(arguments)?,
            number: arguments.number("splitting")?,
        })
    }

    /// What is asked of this casebook.
    fn subject(self, book: &Book) -> Result<Subject, Failure> {
        if self.office {
            book.tell_unnamed(self.side);
        }
        let halves = match (self.halves, self.number) {
            (Some(halves), _) => halves,
            (None, Some(number)) => book.splitting(number)?,
            (None, None) => return Ok(Subject::Log),
        };
        Ok(if self.office {
            Subject::LineOffice(self.side, halves)
        } else {
            Subject::Half(self.side, halves)
        })
    }
}

/// Of what, and for which statement, verdicts are asked.
struct Request<'a> {
    book: Book<'a>,
    subject: Subject,
    statement: &'a [u8],
    /// The statement's text, if it is not the casebook's question.
    given: Option<&'a Statement>,
}

impl Request<'_> {
    /// The last point of the run that is judged.
    fn last_point(&self) -> usize {
        match &self.subject {
            Subject::Log => steps(self.book.parts.run),
            Subject::Half(side, halves) | Subject::LineOffice(side, halves) => {
                half_steps(halves.known(*side)).count()
            }
        }
    }

    /// How the run is called whose points are meant.
    fn run_name(&self) -> String {
        match &self.subject {
            Subject::Log => "log".to_string(),
            Subject::Half(side, halves) => format!("{} half", self.half(*side, halves).0),
            Subject::LineOffice(side, _) => known_half(*side),
        }
    }

    /// The engine's verdict in words.
    fn verdict(&self, point: usize) -> Result<String, Refusal> {
        let parts = &self.book.parts;
        match &self.subject {
            Subject::Log => {
                let (k, left, right) = (parts.k, parts.left, parts.right);
                let holds = joint_verdict(k, left, right, parts.run, self.statement, point)?;
                Ok(letter(holds).to_string())
            }
            Subject::Half(side, halves) => {
                let (_, table, half) = self.half(*side, halves);
                let holds = half_verdict(parts.k, table, half, self.statement, point)?;
                Ok(letter(holds).to_string())
            }
            Subject::LineOffice(side, halves) => {
                let verdicts = self
                    .book
                    .line_office(halves, self.statement, *side, point)?;
                // The machine whose half is not the known one.
                let machine = known(*side, "right", "left");
                let (line, half) = (letter(verdicts.joint), letter(verdicts.half));
                Ok(format!("line {line}, {machine} machine {half}"))
            }
        }
    }

    /// A side's name, its table and its half.
    fn half<'b>(&'b self, side: Side, halves: &'b Halves) -> (&'static str, &'b [u8], &'b [u8]) {
        let table = known(side, self.book.parts.left, self.book.parts.right);
        (known(side, "left", "right"), table, halves.known(side))
    }

    /// A refused verdict, explained.
    fn refused(&self, refusal: Refusal, point: usize) -> Failure {
        let sentence = match (refusal.number(), self.given, &self.subject) {
            (9 | 10, Some(statement), _) => self.statement_sentence(statement, refusal),
            (12, ..) => no_such_point(&self.run_name(), self.last_point(), point),
            (TOO_LARGE, ..) => too_large(point),
            (_, _, Subject::LineOffice(_, halves)) => {
                return self.book.refused_halves(refusal, halves)
            }
            (_, _, Subject::Half(side, halves)) => {
                let (name, table, half) = self.half(*side, halves);
                explain_one(self.book.parts.k, name, table, half)
            }
            _ => refusal.meaning().to_string(),
        };
        self.book.refused(refusal, &sentence)
    }

    /// Why the statement that was given is refused.
    fn statement_sentence(&self, statement: &Statement, refusal: Refusal) -> String {
        let kind = match self.subject {
            Subject::LineOffice(..) => FormulaKind::Question,
            _ => FormulaKind::Formula,
        };
        let (k, number) = (self.book.parts.k, refusal.number());
        let (item, sentence) = formula_fault(k, &statement.bytes, kind, number);
        format!("--formula: {}{sentence}", node_place(statement, item))
    }
}

/// A verdict as the sheet has it.
fn letter(holds: bool) -> char {
    if holds {
        'T'
    } else {
        'F'
    }
}

/// Where in the text of a statement a node stands.
fn node_place(statement: &Statement, item: Item) -> String {
    let place = match item {
        Item::Entry(node) => statement.places.get(node - 1),
        Item::Head | Item::Whole => None,
    };
    place.map_or(String::new(), |place| format!("{place}: "))
}
