//! Cutting the known half at a point.

use crate::bare;
use crate::refusal::{length_or_refusal, Refusal};

/// Which half is the known one.
#[derive(Clone, Copy, PartialEq, Eq, Debug)]
pub enum Side {
    /// The caller names no side, and the left half is known. That is document 02's rule; document 01's was the right.
    Unnamed,
    /// The left half is known.
    Left,
    /// The right half is known.
    Right,
}

impl Side {
    /// The byte by which the engine knows this side.
    pub(crate) fn byte(self) -> u8 {
        match self {
            Side::Unnamed => 0,
            Side::Left => 1,
            Side::Right => 2,
        }
    }

    /// Whether the left half is the known one.
    ///
    /// The engine is asked, so that what an unnamed side means is decided in one place. It answers a cut by a length
    /// only, so it is asked for one that has a point in the left half alone.
    ///
    /// ```
    /// use yenuslap::Side;
    ///
    /// assert!(Side::Unnamed.knows_left() && Side::Left.knows_left());
    /// assert!(!Side::Right.knows_left());
    /// ```
    pub fn knows_left(self) -> bool {
        length_or_refusal(bare::cut(&[0], &[], self.byte(), 0)).is_ok()
    }
}

/// Gives the known half up to the point, as a part of whichever lent half it is, or refusal 12.
///
/// ```
/// use yenuslap::{cut, Side};
///
/// // A move by label 1 beside a move by label 2.
/// let (left, right) = ([0, 1, 1], [0, 2, 1]);
/// assert_eq!(cut(&left, &right, Side::Left, 1).unwrap(), [0, 1, 1]);
/// assert_eq!(cut(&left, &right, Side::Right, 1).unwrap(), [0, 2, 1]);
/// assert_eq!(cut(&left, &right, Side::Unnamed, 1).unwrap(), [0, 1, 1]);
/// assert_eq!(cut(&left, &right, Side::Right, 2).unwrap_err().number(), 12);
/// ```
pub fn cut<'a>(
    left: &'a [u8],
    right: &'a [u8],
    side: Side,
    point: usize,
) -> Result<&'a [u8], Refusal> {
    let length = length_or_refusal(bare::cut(left, right, side.byte(), point))?;
    let known = if side.knows_left() { left } else { right };
    Ok(&known[..length])
}
