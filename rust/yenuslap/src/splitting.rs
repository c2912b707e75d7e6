//! Splitting joint runs into halves, and joining halves.

use crate::bare;
use crate::refusal::{value_or_refusal, Refusal};

/// Counts the splittings of the joint run, or is refused (3 to 8, 13).
pub fn count_splittings(k: u8, left: &[u8], right: &[u8], run: &[u8]) -> Result<usize, Refusal> {
    value_or_refusal(bare::count_splittings(k, left, right, run))
}

/// Writes the halves of the splitting of this number into the two outputs and gives the length of each, or is refused
/// (3 to 8, 13, 14, 18) and writes nothing.
pub fn split(
    k: u8,
    left: &[u8],
    right: &[u8],
    run: &[u8],
    number: usize,
    left_out: &mut [u8],
    right_out: &mut [u8],
) -> Result<usize, Refusal> {
    let answer = bare::split(k, left, right, run, number, left_out, right_out);
    value_or_refusal(answer)
}

/// Writes the joint run of two matching halves into `out` and gives its length, or is refused (3 to 7, 15, 16, 18) and
/// writes nothing.
///
/// ```
/// // Case A's machines shake hands on 1 and 2: the log shows a silent step.
/// let (left, right) = ([2, 0, 1, 1, 0, 3, 1], [2, 0, 2, 1, 0, 4, 1]);
/// let mut out = [0; yenuslap::MOST_RUN];
/// let length = yenuslap::join(2, &left, &right, &[0, 1, 1], &[0, 2, 1], &mut out).unwrap();
/// assert_eq!(out[..length], [0, 0, 0, 1, 1]);
/// // 1 and 4 are no pair.
/// let refusal = yenuslap::join(2, &left, &right, &[0, 1, 1], &[0, 4, 1], &mut out).unwrap_err();
/// assert_eq!(refusal.number(), 16);
/// ```
pub fn join(
    k: u8,
    left: &[u8],
    right: &[u8],
    left_half: &[u8],
    right_half: &[u8],
    out: &mut [u8],
) -> Result<usize, Refusal> {
    value_or_refusal(bare::join(k, left, right, left_half, right_half, out))
}
