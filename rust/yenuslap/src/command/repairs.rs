//! What `--tidy` repairs in an Aldebaran text, and how it is told.

use super::words::line_numbers;

/// A thing that other tools write differently.
#[derive(Clone, Copy, PartialEq, Eq, PartialOrd, Ord, Debug)]
pub enum Repair {
    /// A mark that some editors put at the front.
    Mark,
    /// `des(`, or more than one blank behind `des`.
    BehindDes,
    /// Blanks after commas, around numbers, at the ends of a line.
    Blanks,
    /// Numbers as 007.
    Zeros,
    /// Labels without quotes.
    Quotes,
    /// `tau` for the silent step.
    Tau,
    /// Lines ended by a carriage return and a line feed.
    CarriageReturns,
    /// A last line without a line feed.
    LastLineFeed,
    /// Lines without a row behind the last row.
    BlankLines,
}

impl Repair {
    /// What was done.
    fn sentence(self) -> &'static str {
        match self {
            Repair::Mark => "the byte order mark taken out",
            Repair::BehindDes => "one blank put behind des",
            Repair::Blanks => "blanks outside labels taken out",
            Repair::Zeros => "leading zeros taken out",
            Repair::Quotes => "labels put in double quotes",
            Repair::Tau => "label tau written as i",
            Repair::CarriageReturns => "carriage returns before line feeds taken out",
            Repair::LastLineFeed => "a line feed put at the end",
            Repair::BlankLines => "blank lines at the end taken out",
        }
    }
}

/// What was repaired, and in which lines.
#[derive(Clone, PartialEq, Eq, Debug, Default)]
pub struct Repairs {
    done: Vec<(Repair, usize)>,
}

impl Repairs {
    /// Notes a repair in a line.
    pub fn note(&mut self, repair: Repair, line: usize) {
        self.done.push((repair, line));
    }

    /// A sentence for each kind of repair, with its lines.
    pub fn sentences(&self) -> Vec<String> {
        let mut done = self.done.clone();
        done.sort();
        done.dedup();
        let kinds = done.chunk_by(|first, second| first.0 == second.0);
        kinds
            .map(|kind| {
                let lines: Vec<usize> = kind.iter().map(|(_, line)| *line).collect();
                format!("tidied: {}: {}", line_numbers(&lines), kind[0].0.sentence())
            })
            .collect()
    }
}
