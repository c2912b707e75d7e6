//! Calls the engine and the reference on one input and demands that they agree in every respect.

use std::fmt::Debug;
use std::hint::black_box;

use reference::casebook::{self, Casebook, Parts};
use reference::cut::{self, Side};
pub use reference::hex::{hex, unhex};
use reference::random::Random;
use yenuslap::{bare, Refusal};

/// Bytes on each side of a lent output that the engine must not reach.
const GUARD: usize = 24;

/// The numbers up to the highest that a call gives.
const NUMBERS: usize = 22;

/// How often each number came; number 0 counts what was accepted.
pub struct Tally {
    name: &'static str,
    counts: [u64; NUMBERS],
}

impl Tally {
    pub fn new(name: &'static str) -> Tally {
        Tally {
            name,
            counts: [0; NUMBERS],
        }
    }

    /// Counts one input by the number it got.
    pub fn note(&mut self, number: u8) {
        self.counts[number as usize] += 1;
    }

    /// How often this number came.
    pub fn of(&self, number: u8) -> u64 {
        self.counts[number as usize]
    }

    /// Demands that each of these numbers came at least so often.
    pub fn at_least(&self, least: u64, numbers: &[u8]) {
        self.show();
        for number in numbers {
            assert!(self.of(*number) >= least, "{number} in {}", self.name);
        }
    }

    /// Demands that these numbers came and no others.
    pub fn saw_exactly(&self, numbers: &[u8]) {
        self.at_least(1, numbers);
        let others = (0..NUMBERS as u8).filter(|number| !numbers.contains(number));
        for number in others {
            assert_eq!(self.of(number), 0, "{number} in {}", self.name);
        }
    }

    /// Prints how many inputs were compared, and how often each number came.
    fn show(&self) {
        let total: u64 = self.counts.iter().sum();
        let seen = (0..NUMBERS as u8).filter(|number| self.of(*number) > 0);
        let each: Vec<String> = seen.map(|n| format!("{n}: {}", self.of(n))).collect();
        println!("compared {}: {total} ({})", self.name, each.join(", "));
    }
}

/// The number of an answer, 0 if it is none.
pub fn number_of<T>(answer: &Result<T, u8>) -> u8 {
    *answer.as_ref().err().unwrap_or(&0)
}

/// The number of the wrapper's answer, 0 if it is none.
pub fn wrapped_number<T: Debug>(answer: &Result<T, Refusal>) -> u8 {
    answer.as_ref().err().map_or(0, |r| r.number() as u8)
}

/// What the engine must answer: the number in the upper half, the value in the lower.
pub fn bare_answer(answer: &Result<usize, u8>) -> u64 {
    match answer {
        Ok(value) => *value as u64,
        Err(number) => (*number as u64) << 32,
    }
}

/// Reads a casebook with both and gives the number on which they agree, 0 if accepted.
pub fn read_both(bytes: &[u8]) -> u8 {
    let before = bytes.to_vec();
    let expected = casebook::read(bytes);
    let number = number_of(&expected);
    let answer = bare::casebook_read(bytes);
    assert_eq!(answer, (number as u64) << 32, "read {}", hex(bytes));
    match &expected {
        Ok(book) => parts_agree(bytes, book),
        Err(number) => refused_alike(bytes, *number),
    }
    assert_eq!(black_box(bytes), before, "lent bytes changed");
    number
}

/// Demands that the engine finds each part where the reference does, and that the wrapper gives them.
fn parts_agree(bytes: &[u8], book: &Casebook) {
    for kind in [0, 1, 2, 3, 4, 5, 6, 255] {
        let place = match kind {
            1..=5 => &book.bodies[kind as usize - 1],
            _ => &(0..0),
        };
        let expected = (place.start * 65536 + place.len()) as u64;
        let answer = bare::casebook_part(bytes, kind);
        assert_eq!(answer, expected, "part {kind} of {}", hex(bytes));
    }
    let wrapped = yenuslap::read_casebook(bytes).expect("the engine has accepted it");
    assert_eq!(parts_of(wrapped), book.parts(bytes), "of {}", hex(bytes));
}

/// Demands that the part call and the wrapper refuse under the same number.
fn refused_alike(bytes: &[u8], number: u8) {
    let kind = (bytes.len() % 8) as u8;
    let answer = bare::casebook_part(bytes, kind);
    let expected = (number as u64) << 32;
    assert_eq!(answer, expected, "part {kind} of {}", hex(bytes));
    let wrapped = yenuslap::read_casebook(bytes);
    assert_eq!(wrapped_number(&wrapped), number, "read {}", hex(bytes));
}

/// The parts that the wrapper gave, copied.
pub fn parts_of(book: yenuslap::Casebook) -> Parts {
    Parts {
        k: book.k,
        left: book.left.to_vec(),
        right: book.right.to_vec(),
        run: book.run.to_vec(),
        question: book.question.to_vec(),
    }
}

/// Writes the parts with both into `room` bytes and gives the number on which they agree, 0 if written.
pub fn write_both(parts: &Parts, room: usize) -> u8 {
    let before = parts.clone();
    let expected = casebook::write(parts, room);
    // A byte that is left alone keeps its value under a pattern and under its complement.
    let pattern = Random::new(room as u64).bytes(GUARD + room + GUARD);
    let complement: Vec<u8> = pattern.iter().map(|byte| !byte).collect();
    write_bare(parts, room, &expected, pattern);
    write_wrapped(parts, room, &expected, complement);
    assert_eq!(black_box(parts), &before, "lent parts changed");
    number_of(&expected)
}

/// Writes by the bare call into the middle of a buffer and looks at every byte of it.
fn write_bare(parts: &Parts, room: usize, expected: &Result<Vec<u8>, u8>, pattern: Vec<u8>) {
    let mut buffer = pattern.clone();
    let answer = bare::casebook_write(
        parts.k,
        &parts.left,
        &parts.right,
        &parts.run,
        &parts.question,
        &mut buffer[GUARD..GUARD + room],
    );
    let length = expected.as_ref().map(Vec::len).map_err(|n| *n);
    assert_eq!(answer, bare_answer(&length), "write {parts:?} in {room}");
    assert_buffer(buffer, expected, pattern);
}

/// Writes by the wrapper into the middle of a buffer and looks at every byte of it.
fn write_wrapped(parts: &Parts, room: usize, expected: &Result<Vec<u8>, u8>, pattern: Vec<u8>) {
    let mut buffer = pattern.clone();
    let answer = yenuslap::write_casebook(
        parts.k,
        &parts.left,
        &parts.right,
        &parts.run,
        &parts.question,
        &mut buffer[GUARD..GUARD + room],
    );
    let length = expected.as_ref().map(Vec::len).ok();
    assert_eq!(answer.ok(), length, "write {parts:?} in {room}");
    assert_eq!(wrapped_number(&answer), number_of(expected));
    assert_buffer(buffer, expected, pattern);
}

/// Demands the pattern everywhere but where the answer lies.
fn assert_buffer(buffer: Vec<u8>, expected: &Result<Vec<u8>, u8>, pattern: Vec<u8>) {
    let mut wanted = pattern;
    if let Ok(bytes) = expected {
        wanted[GUARD..GUARD + bytes.len()].copy_from_slice(bytes);
    }
    let wrong = (0..buffer.len()).find(|at| buffer[*at] != wanted[*at]);
    assert_eq!(
        wrong, None,
        "place in the buffer, after {GUARD} guard bytes"
    );
}

/// The side that a byte names, for the reference and for the wrapper.
pub fn sides(byte: u8) -> (Side, yenuslap::Side) {
    match byte {
        1 => (Side::Left, yenuslap::Side::Left),
        2 => (Side::Right, yenuslap::Side::Right),
        _ => (Side::Unnamed, yenuslap::Side::Unnamed),
    }
}

/// Whether this byte for the side makes the left half the known one: 1 does, and so does every byte that names no side
/// (document 02).
pub fn knows_left(side: u8) -> bool {
    side != 2
}

/// Cuts with both, by the side's byte, and gives the number on which they agree, 0 if cut.
pub fn cut_both(left: &[u8], right: &[u8], side: u8, point: usize) -> u8 {
    let (named, wrapped_side) = sides(side);
    let about = format!(
        "{} and {} bytes, side {side}, point {point}",
        left.len(),
        right.len()
    );
    let expected = cut::cut(left, right, named, point);
    let answer = bare::cut(left, right, side, point);
    // A refused cut is an empty part.
    assert_eq!(answer, expected.map_or(0, <[u8]>::len), "{about}");
    let wrapped = yenuslap::cut(left, right, wrapped_side, point);
    assert_eq!(wrapped_number(&wrapped), number_of(&expected), "{about}");
    if let (Ok(part), Ok(prefix)) = (wrapped, expected) {
        // The very prefix: the same place, not only equal bytes.
        assert_eq!(part.as_ptr_range(), prefix.as_ptr_range(), "{about}");
    }
    number_of(&expected)
}
