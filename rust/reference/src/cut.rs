//! The cut: the known half up to a point.

use crate::Refusal;

/// Which half is the known one.
#[derive(Clone, Copy, PartialEq, Eq, Debug)]
pub enum Side {
    /// The caller names none.
    Unnamed,
    /// The left half.
    Left,
    /// The right half.
    Right,
}

impl Side {
    /// Whether the known half is the left one: unnamed, it is the left (document 02, 2/12).
    pub fn knows_left(self) -> bool {
        matches!(self, Side::Unnamed | Side::Left)
    }
}

/// The known half's start and its first `point` steps; 12 if it has no such point.
pub fn cut<'a>(
    left: &'a [u8],
    right: &'a [u8],
    side: Side,
    point: usize,
) -> Result<&'a [u8], Refusal> {
    let known = if side.knows_left() { left } else { right };
    // A half is its start state and two bytes a step; one of even length has no points.
    if known.len().is_multiple_of(2) {
        return Err(12);
    }
    let steps = (known.len() - 1) / 2;
    if point > steps {
        return Err(12);
    }
    Ok(&known[..1 + 2 * point])
}

#[cfg(test)]
mod tests {
    use super::*;

    /// A cut is of the known half and looks at it alone; where no side is named that is the left one.
    #[test]
    fn cuts_by_each_side() {
        let (short, long) = ([1], [2, 3, 4]);
        for side in [Side::Unnamed, Side::Left] {
            assert_eq!(cut(&short, &long, side, 0), Ok(&[1][..]));
            assert_eq!(cut(&short, &long, side, 1), Err(12));
            assert_eq!(cut(&long, &short, side, 1), Ok(&[2, 3, 4][..]));
            assert_eq!(cut(&long[..2], &long, side, 0), Err(12));
            assert_eq!(cut(&long, &long[..2], side, 0), Ok(&[2][..]));
        }
        assert_eq!(cut(&short, &long, Side::Right, 0), Ok(&[2][..]));
        assert_eq!(cut(&short, &long, Side::Right, 1), Ok(&[2, 3, 4][..]));
        assert_eq!(cut(&long, &short, Side::Right, 1), Err(12));
        assert_eq!(cut(&long[..2], &long, Side::Right, 0), Ok(&[2][..]));
        assert_eq!(cut(&long, &long[..2], Side::Right, 0), Err(12));
    }
}
