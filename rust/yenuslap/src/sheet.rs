//! Lines of sheets.

use crate::bare;
use crate::refusal::{lines_or_refusal, Refusal};

/// What a call for lines has written.
#[derive(Clone, Copy, PartialEq, Eq, Debug)]
pub struct Lines {
    /// How many whole lines.
    pub lines: usize,
    /// How many bytes they are, at the front of the output.
    pub bytes: usize,
}

/// Writes lines of a casebook's sheet into `out`: from line `first` on, counted from 0, at most `most`, and as many
/// whole lines as fit. It is refused (18) and writes nothing if a line is due and the first one does not fit, which
/// cannot happen to an output of [`MOST_LINE`] bytes.
///
/// Bytes that are no sound casebook, or one with over 65,535 splittings, have a sheet of one line with the number. Past
/// the sheet's end, and where `most` is 0, no line is written. Neither is a refusal. So a program that prints a whole
/// sheet adds the lines written to `first`, until none is written.
///
/// ```
/// use yenuslap::{sheet_lines, MOST_LINE};
///
/// let casebook = b"no casebook";
/// let mut out = [0; MOST_LINE];
/// let written = sheet_lines(casebook, 0, usize::MAX, &mut out).unwrap();
/// assert_eq!(&out[..written.bytes], b"R 2\n");
/// let next = sheet_lines(casebook, written.lines, usize::MAX, &mut out).unwrap();
/// assert_eq!(next.lines, 0);
/// ```
///
/// [`MOST_LINE`]: crate::MOST_LINE
pub fn sheet_lines(
    casebook: &[u8],
    first: usize,
    most: usize,
    out: &mut [u8],
) -> Result<Lines, Refusal> {
    let [lines, bytes] = lines_or_refusal(bare::sheet_lines(casebook, first, most, out))?;
    Ok(Lines { lines, bytes })
}
