//! Quotients of questions by a known half, and the verdicts that go with them.

use crate::bare;
use crate::cut::Side;
use crate::refusal::{value_or_refusal, Refusal};

/// The two verdicts of the line office, which the engine has proved to be the same.
#[derive(Clone, Copy, PartialEq, Eq, Debug)]
pub struct Verdicts {
    /// Whether the question holds on the joint run.
    pub joint: bool,
    /// Whether the quotient holds on the other half: the right one, if no side is named.
    pub half: bool,
}

/// Writes the question's quotient by the known half's first `point` steps into `out` and gives its length, or is
/// refused (3 to 7, 9, 10, 12, 15 to 18) and writes nothing.
#[allow(clippy::too_many_arguments)] // As many as the engine's call has.
pub fn quotient(
    k: u8,
    left: &[u8],
    right: &[u8],
    left_half: &[u8],
    right_half: &[u8],
    question: &[u8],
    side: Side,
    point: usize,
    out: &mut [u8],
) -> Result<usize, Refusal> {
    value_or_refusal(bare::quotient(
        k,
        left,
        right,
        left_half,
        right_half,
        question,
        side.byte(),
        point,
        out,
    ))
}

/// Writes the question's quotient by the first `point` steps of the known half of the splitting of this number into
/// `out` and gives its length, or is refused (3 to 10, 12 to 14, 17, 18) and writes nothing.
#[allow(clippy::too_many_arguments)] // As many as the engine's call has.
pub fn quotient_of_splitting(
    k: u8,
    left: &[u8],
    right: &[u8],
    run: &[u8],
    question: &[u8],
    number: usize,
    side: Side,
    point: usize,
    out: &mut [u8],
) -> Result<usize, Refusal> {
    value_or_refusal(bare::quotient_of_splitting(
        k,
        left,
        right,
        run,
        question,
        number,
        side.byte(),
        point,
        out,
    ))
}

/// Gives the question's verdict on the joint run of the two halves and its quotient's verdict on the half that is not
/// known, all stopped at the point, or is refused (3 to 7, 9, 10, 12, 15 to 17).
///
/// ```
/// use yenuslap::{line_office, Side};
///
/// // Case A's machines after a handshake on 1 and 2: was the last step silent?
/// let (left, right) = ([2, 0, 1, 1, 0, 3, 1], [2, 0, 2, 1, 0, 4, 1]);
/// let (left_half, right_half) = ([0, 1, 1], [0, 2, 1]);
/// let question = [6, 0, 0, 0];
/// let verdicts =
///     line_office(2, &left, &right, &left_half, &right_half, &question, Side::Right, 1).unwrap();
/// assert!(verdicts.joint && verdicts.half);
/// ```
#[allow(clippy::too_many_arguments)] // As many as the engine's call has.
pub fn line_office(
    k: u8,
    left: &[u8],
    right: &[u8],
    left_half: &[u8],
    right_half: &[u8],
    question: &[u8],
    side: Side,
    point: usize,
) -> Result<Verdicts, Refusal> {
    let value = value_or_refusal(bare::line_office(
        k,
        left,
        right,
        left_half,
        right_half,
        question,
        side.byte(),
        point,
    ))?;
    Ok(Verdicts {
        joint: value & JOINT != 0,
        half: value & HALF != 0,
    })
}

/// The parts of the value by which the engine says that the question holds, and that the quotient does.
const JOINT: usize = 2;
const HALF: usize = 1;
