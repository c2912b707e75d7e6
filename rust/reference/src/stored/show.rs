//! Values as they stand in a line of `crates/cases`: bytes in lower-case hexadecimal, a refusal by its number.

use crate::Refusal;

/// An answer in its own words, or the number of its refusal.
pub fn answer<T>(answer: Result<T, Refusal>, words: impl FnOnce(T) -> String) -> String {
    match answer {
        Ok(value) => words(value),
        Err(number) => format!("refused {number}"),
    }
}

/// T or F, or the number of a refusal.
pub fn verdict(verdict: Result<bool, Refusal>) -> String {
    answer(verdict, |holds| truth(holds).to_string())
}

/// T or F.
pub fn truth(holds: bool) -> &'static str {
    if holds {
        "T"
    } else {
        "F"
    }
}
