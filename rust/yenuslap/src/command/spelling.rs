//! How labels are spelled in Aldebaran texts, as the engine writes them.

use std::collections::HashSet;

use yenuslap::{write_aldebaran, MOST_TEXT};

use super::answer::answer;
use super::judge;

/// The rule in words.
pub const LABELS: &str =
    "labels are spelled i for the silent step, and a1! and a1? to a15! and a15?";

/// The number of pairs that Aldebaran texts are read and written with.
const PAIRS: u8 = 15;

/// All labels as they are spelled.
#[derive(Clone, PartialEq, Eq, Debug)]
pub struct Spelling {
    labels: HashSet<Vec<u8>>,
}

impl Spelling {
    /// Asks the engine for the text of a loop of each label.
    pub fn ask() -> Spelling {
        let labels = 0..=judge::highest_label(PAIRS);
        Spelling {
            labels: labels.filter_map(spelled).collect(),
        }
    }

    /// Is a label spelled so?
    pub fn has(&self, label: &[u8]) -> bool {
        self.labels.contains(label)
    }
}

/// A label as the engine spells it.
fn spelled(label: u8) -> Option<Vec<u8>> {
    let table = [1, 0, label, 0];
    let text = answer(MOST_TEXT, |out| write_aldebaran(&table, 0, out)).ok()?;
    let mut pieces = text.split(|byte| *byte == b'"');
    pieces.nth(1).map(<[u8]>::to_vec)
}
