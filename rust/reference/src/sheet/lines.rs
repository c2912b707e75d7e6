//! Lines of a quick sheet on their way out: no formatting machinery, no allocation for a line, large blocks.

use std::io::{self, Write};

use super::judge::Node;
use super::QUOTIENT;

/// So many bytes are written at once, or a few less.
const BLOCK: usize = 1 << 20;
/// More than the longest line has behind its number, and more than it has in all.
const LONGEST_END: usize = 2 * QUOTIENT + 64;
const LONGEST: usize = LONGEST_END + 32;
/// An end of at most so many bytes is copied as if it had so many.
const SHORT: usize = 32;

/// The two hexadecimal digits of each byte.
const DIGITS: [[u8; 2]; 256] = digits();

const fn digits() -> [[u8; 2]; 256] {
    let each = b"0123456789abcdef";
    let mut pairs = [[0; 2]; 256];
    let mut byte = 0;
    while byte < 256 {
        pairs[byte] = [each[byte >> 4], each[byte & 15]];
        byte += 1;
    }
    pairs
}

/// A decimal number of at most eight digits, its first digit in the lowest byte.
struct Decimal {
    text: u64,
    length: usize,
    value: usize,
}

impl Decimal {
    fn of(value: usize) -> Decimal {
        let (mut text, mut length, mut rest) = (0, 0, value);
        loop {
            text = text << 8 | (b'0' + (rest % 10) as u8) as u64;
            length += 1;
            rest /= 10;
            if rest == 0 {
                break;
            }
        }
        Decimal {
            text,
            length,
            value,
        }
    }

    /// Goes on to the next number; nine times out of ten only the last digit changes.
    fn step(&mut self) {
        if self.value % 10 == 9 {
            *self = Decimal::of(self.value + 1);
        } else {
            self.text += 1 << (8 * (self.length - 1));
            self.value += 1;
        }
    }
}

/// The lines: what they share before the number and behind it, and the block that is being filled.
pub struct Lines<'a> {
    out: &'a mut dyn Write,
    block: Vec<u8>,
    filled: usize,
    point: Decimal,
    number: Decimal,
    verdict: bool,
    end: Vec<u8>,
    end_length: usize,
}

impl<'a> Lines<'a> {
    pub fn new(out: &'a mut dyn Write) -> Lines<'a> {
        Lines {
            out,
            block: vec![0; BLOCK],
            filled: 0,
            point: Decimal::of(0),
            number: Decimal::of(0),
            verdict: false,
            end: vec![0; LONGEST_END],
            end_length: 0,
        }
    }

    /// The point and the joint verdict of the lines that follow, which are numbered from 0.
    pub fn set_point(&mut self, point: usize, verdict: bool) {
        self.point = Decimal::of(point);
        self.number = Decimal::of(0);
        self.verdict = verdict;
    }

    /// The quotient and the left half's verdict of the lines that follow.
    pub fn set_quotient(&mut self, quotient: &[Node], verdict: bool) {
        self.end[..3].copy_from_slice(&[b' ', letter(self.verdict), b' ']);
        let text = self.end[3..].chunks_exact_mut(4);
        for (four, node) in text.zip(quotient) {
            four[..2].copy_from_slice(&DIGITS[node.operator as usize]);
            four[2..].copy_from_slice(&DIGITS[node.label as usize]);
        }
        let at = 3 + 4 * quotient.len();
        self.end[at..at + 3].copy_from_slice(&[b' ', letter(verdict), b'\n']);
        self.end_length = at + 3;
    }

    /// The same where the quotient is refused.
    pub fn set_refused(&mut self) {
        let mut end = *b" F 17 -\n";
        end[1] = letter(self.verdict);
        self.end[..8].copy_from_slice(&end);
        self.end_length = 8;
    }

    /// Writes the lines of the next so many splittings.
    pub fn write(&mut self, count: usize) -> io::Result<()> {
        // The point and a blank behind it.
        let point = (self.point.text | (b' ' as u64) << (8 * self.point.length)).to_le_bytes();
        for _ in 0..count {
            if self.filled > BLOCK - LONGEST {
                self.flush()?;
            }
            let line = &mut self.block[self.filled..self.filled + LONGEST];
            line[..8].copy_from_slice(&point);
            let at = self.point.length + 1;
            line[at..at + 8].copy_from_slice(&self.number.text.to_le_bytes());
            let at = at + self.number.length;
            let copied = self.end_length.max(SHORT);
            match copied {
                SHORT => line[at..at + SHORT].copy_from_slice(&self.end[..SHORT]),
                _ => line[at..at + copied].copy_from_slice(&self.end[..copied]),
            }
            self.filled += at + self.end_length;
            self.number.step();
        }
        Ok(())
    }

    /// Writes out what is in the block.
    pub fn flush(&mut self) -> io::Result<()> {
        self.out.write_all(&self.block[..self.filled])?;
        self.filled = 0;
        Ok(())
    }
}

/// A verdict as a letter.
fn letter(verdict: bool) -> u8 {
    match verdict {
        true => b'T',
        false => b'F',
    }
}
