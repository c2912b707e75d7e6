//! Answers that the engine writes into an output lent to it.

use yenuslap::Refusal;

/// The bytes that a call writes into room for its longest answer.
pub fn answer(
    longest: usize,
    call: impl FnOnce(&mut [u8]) -> Result<usize, Refusal>,
) -> Result<Vec<u8>, Refusal> {
    let mut out = vec![0; longest];
    let length = call(&mut out)?;
    out.truncate(length);
    Ok(out)
}
