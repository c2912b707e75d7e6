//! Reading and writing whole casebooks.

use crate::bare;
use crate::refusal::{value_or_refusal, Refusal};

/// A sound casebook: k, and its four other parts where they lie in the bytes that were read.
#[derive(Clone, Copy, PartialEq, Eq, Debug)]
pub struct Casebook<'a> {
    /// The number of handshake pairs.
    pub k: u8,
    /// The left table: n, then its rows.
    pub left: &'a [u8],
    /// The right table: n, then its rows.
    pub right: &'a [u8],
    /// The joint run: two start states, then its steps.
    pub run: &'a [u8],
    /// The question: its nodes in prefix order.
    pub question: &'a [u8],
}

/// Reads a casebook whole, or gives the one number under which it is refused (1 to 11).
pub fn read_casebook(bytes: &[u8]) -> Result<Casebook<'_>, Refusal> {
    value_or_refusal(bare::casebook_read(bytes))?;
    Ok(Casebook {
        k: part(bytes, 1)?[0],
        left: part(bytes, 2)?,
        right: part(bytes, 3)?,
        run: part(bytes, 4)?,
        question: part(bytes, 5)?,
    })
}

/// The body of the record of one kind, where the engine says it lies.
fn part(bytes: &[u8], kind: u8) -> Result<&[u8], Refusal> {
    let place = value_or_refusal(bare::casebook_part(bytes, kind))?;
    let (start, length) = (place >> 16, place & 0xffff);
    Ok(&bytes[start..start + length])
}

/// Writes the casebook of these parts into `out` and gives its length, or is refused (3 to 10, 18) and writes nothing.
///
/// ```
/// // One state each, no rows, no steps, and the question "true".
/// let (table, run, question) = ([1], [0, 0], [0, 0]);
/// let mut out = [0; yenuslap::MOST_CASEBOOK];
/// let length = yenuslap::write_casebook(0, &table, &table, &run, &question, &mut out).unwrap();
/// let case = yenuslap::read_casebook(&out[..length]).unwrap();
/// assert_eq!((case.left, case.question), (&table[..], &question[..]));
/// ```
pub fn write_casebook(
    k: u8,
    left: &[u8],
    right: &[u8],
    run: &[u8],
    question: &[u8],
    out: &mut [u8],
) -> Result<usize, Refusal> {
    value_or_refusal(bare::casebook_write(k, left, right, run, question, out))
}
