//! Asks the engine for lines of a sheet and demands the plain implementation's, with every lent byte looked at.

use std::hint::black_box;

use crate::both::hex;
use crate::splitting_both::Output;
use reference::sheet::sheet;
use reference::Refusal;
use yenuslap::bare::{self, LinesAnswer};
use yenuslap::Lines;

/// A casebook, and the lines of its sheet.
pub struct Sheet {
    pub casebook: Vec<u8>,
    pub lines: Vec<Vec<u8>>,
}

/// From which line on, at most how many, and into how many bytes.
#[derive(Clone, Copy, Debug)]
pub struct Block {
    pub first: usize,
    pub most: usize,
    pub room: usize,
}

impl Sheet {
    /// The plain implementation's sheet of any bytes.
    pub fn of(casebook: Vec<u8>) -> Sheet {
        let text = sheet(&casebook);
        let lines = text.split_inclusive(|byte| *byte == b'\n');
        let lines = lines.map(<[u8]>::to_vec).collect();
        Sheet { casebook, lines }
    }

    /// The lines from `first` on, at most `most`.
    pub fn due(&self, first: usize, most: usize) -> &[Vec<u8>] {
        let lines = self.lines.get(first..).unwrap_or(&[]);
        &lines[..most.min(lines.len())]
    }

    /// The number under which both agree, 0 if not refused, and how many lines were written.
    pub fn compare(&self, block: Block) -> (Refusal, usize) {
        let due = self.due(block.first, block.most);
        lines_both(&self.casebook, due, block)
    }
}

/// How many of the due lines fit whole, and their bytes; 18 if the first one does not.
fn fitting(due: &[Vec<u8>], room: usize) -> Result<(usize, Vec<u8>), Refusal> {
    let mut bytes = Vec::new();
    for (lines, line) in due.iter().enumerate() {
        if bytes.len() + line.len() > room {
            return if lines == 0 {
                Err(18)
            } else {
                Ok((lines, bytes))
            };
        }
        bytes.extend(line);
    }
    Ok((due.len(), bytes))
}

/// What the engine must answer.
fn answer_of(expected: &Result<(usize, Vec<u8>), Refusal>) -> LinesAnswer {
    let (refusal, lines, bytes) = match expected {
        Ok((lines, bytes)) => (0, *lines, bytes.len()),
        Err(number) => (*number, 0, 0),
    };
    LinesAnswer {
        refusal: refusal.into(),
        lines: lines as u64,
        bytes: bytes as u64,
    }
}

/// Asks the engine for a block, by the bare call and by the wrapper, and demands these lines, as far as they fit. Gives
/// the number, 0 if not refused, and how many lines were written.
pub fn lines_both(casebook: &[u8], due: &[Vec<u8>], block: Block) -> (Refusal, usize) {
    let before = casebook.to_vec();
    let about = || format!("{block:?} of {}", hex(casebook));
    let Block { first, most, room } = block;
    let expected = fitting(due, room);
    let answer = answer_of(&expected);
    let mut out = Output::new(room, false);
    let given = bare::sheet_lines(casebook, first, most, out.lent());
    assert_eq!(given, answer, "{}", about());
    let mut again = Output::new(room, true);
    let wrapped = yenuslap::sheet_lines(casebook, first, most, again.lent());
    let wanted = expected.as_ref().map(|(lines, bytes)| Lines {
        lines: *lines,
        bytes: bytes.len(),
    });
    let wrapped = wrapped.map_err(|refusal| refusal.number() as Refusal);
    assert_eq!(
        wrapped.as_ref(),
        wanted.as_ref().map_err(|n| *n),
        "{}",
        about()
    );
    let bytes = expected.as_ref().ok().map(|(_, bytes)| &bytes[..]);
    out.holds(bytes, &about);
    again.holds(bytes, &about);
    assert_eq!(black_box(casebook), before, "lent casebook changed");
    (answer.refusal as Refusal, answer.lines as usize)
}
