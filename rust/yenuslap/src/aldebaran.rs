//! Tables as Aldebaran texts: reading and writing them.

use crate::bare;
use crate::refusal::{value_or_refusal, Refusal};

/// What a text that was read says.
#[derive(Clone, Copy, PartialEq, Eq, Debug)]
pub struct TableOfText {
    /// How many bytes the table has, at the front of the output.
    pub length: usize,
    /// The state that the text names as the first one; it is below the table's number of states.
    pub first: u8,
}

/// Reads an Aldebaran text into `out`, which gets the table, and gives its length and first state, or is refused (19,
/// 20, 21, 5, 6, 7, each sought in the whole text before the next, then 18) and writes nothing.
///
/// The rows may stand in any order in the text; in the table they rise. k is taken as 15: the labels 0, 1, 2, 3, 4 and
/// so on to 29, 30 are spelled i, a1!, a1?, a2!, a2? and so on to a15!, a15?.
///
/// ```
/// let text = b"des (1,2,2)\n(1,\"a2?\",0)\n(0,\"i\",1)\n";
/// let mut out = [0; yenuslap::MOST_TABLE];
/// let read = yenuslap::read_aldebaran(text, &mut out).unwrap();
/// assert_eq!((&out[..read.length], read.first), (&[2, 0, 0, 1, 1, 4, 0][..], 1));
/// // A blank outside a label is not of the form.
/// let refusal = yenuslap::read_aldebaran(b"des (0, 0, 1)\n", &mut out).unwrap_err();
/// assert_eq!(refusal.number(), 19);
/// ```
pub fn read_aldebaran(text: &[u8], out: &mut [u8]) -> Result<TableOfText, Refusal> {
    let value = value_or_refusal(bare::aldebaran_read(text, out))?;
    Ok(TableOfText {
        length: value & 0xffff,
        // A first state is below the states, and those are at most 64.
        first: (value >> 16) as u8,
    })
}

/// Writes the Aldebaran text of a table and a first state into `out`, the rows in the table's order, and gives its
/// length, or is refused (3, 5 to 7, then 20, then 18) and writes nothing. k is taken as 15, whatever casebook the
/// table is from. Reading the text gives the same table and first state.
///
/// ```
/// let mut out = [0; yenuslap::MOST_TEXT];
/// let length = yenuslap::write_aldebaran(&[2, 0, 0, 1, 1, 4, 0], 1, &mut out).unwrap();
/// assert_eq!(&out[..length], b"des (1,2,2)\n(0,\"i\",1)\n(1,\"a2?\",0)\n");
/// // There is no state 2.
/// let refusal = yenuslap::write_aldebaran(&[2], 2, &mut out).unwrap_err();
/// assert_eq!(refusal.number(), 20);
/// ```
pub fn write_aldebaran(table: &[u8], first: usize, out: &mut [u8]) -> Result<usize, Refusal> {
    value_or_refusal(bare::aldebaran_write(table, first, out))
}
