//! Counts, splits and joins with the engine and the reference and demands that they agree in every respect.

use std::hint::black_box;

use crate::both::{bare_answer, number_of, wrapped_number};
use reference::casebook::Parts;
use reference::splitting;
use reference::Refusal;
use yenuslap::bare;

/// Two machines and a log, as bytes.
#[derive(Clone, PartialEq, Eq, Debug)]
pub struct Log {
    pub k: u8,
    pub left: Vec<u8>,
    pub right: Vec<u8>,
    pub run: Vec<u8>,
}

/// Two machines and a half run of each, as bytes.
#[derive(Clone, PartialEq, Eq, Debug)]
pub struct Halves {
    pub k: u8,
    pub left: Vec<u8>,
    pub right: Vec<u8>,
    pub left_half: Vec<u8>,
    pub right_half: Vec<u8>,
}

impl Log {
    /// The log of a casebook's parts, which may be damaged.
    pub fn of(parts: Parts) -> Log {
        Log {
            k: parts.k,
            left: parts.left,
            right: parts.right,
            run: parts.run,
        }
    }

    /// The number of the log's steps, as far as its bytes go.
    pub fn steps(&self) -> usize {
        self.run.len().saturating_sub(2) / 3
    }

    /// The length of each half of a splitting.
    pub fn half_length(&self) -> usize {
        1 + 2 * self.steps()
    }

    /// Two halves beside each other on the log's machines.
    pub fn halves(&self, [left_half, right_half]: [Vec<u8>; 2]) -> Halves {
        Halves {
            k: self.k,
            left: self.left.clone(),
            right: self.right.clone(),
            left_half,
            right_half,
        }
    }
}

/// Bytes on each side of a lent output that the engine must not reach.
const GUARD: usize = 24;

/// An output in the middle of a patterned buffer.
pub struct Output {
    room: usize,
    before: Vec<u8>,
    buffer: Vec<u8>,
}

impl Output {
    /// An output of so many bytes. A byte that is left alone keeps its value under a pattern and under its complement.
    pub fn new(room: usize, complement: bool) -> Output {
        let flip = if complement { 255 } else { 0 };
        let pattern = (0..GUARD + room + GUARD).map(|at| (at * 167 + room * 59 + 91) as u8 ^ flip);
        let before: Vec<u8> = pattern.collect();
        Output {
            room,
            buffer: before.clone(),
            before,
        }
    }

    /// The part that is lent.
    pub fn lent(&mut self) -> &mut [u8] {
        &mut self.buffer[GUARD..GUARD + self.room]
    }

    /// Demands the answer at the front of the lent part, if there is one, and the pattern everywhere else.
    pub fn holds(mut self, answer: Option<&[u8]>, about: &dyn Fn() -> String) {
        if let Some(bytes) = answer {
            self.before[GUARD..GUARD + bytes.len()].copy_from_slice(bytes);
        }
        let wrong = (0..self.buffer.len()).find(|at| self.buffer[*at] != self.before[*at]);
        assert_eq!(wrong, None, "place after {GUARD} guard bytes, {}", about());
    }
}

/// Demands that the bare answer and the wrapped one are the value expected.
pub fn alike(
    expected: Result<usize, Refusal>,
    answer: u64,
    wrapped: Result<usize, yenuslap::Refusal>,
    about: &dyn Fn() -> String,
) {
    let bare = bare_answer(&expected);
    assert_eq!(answer, bare, "expected {expected:?} of {}", about());
    assert_eq!(wrapped.ok(), expected.ok(), "of {}", about());
    let number = number_of(&expected);
    assert_eq!(wrapped_number(&wrapped), number, "of {}", about());
}

/// The count on which both agree.
pub fn count_both(log: &Log) -> Result<usize, Refusal> {
    let before = log.clone();
    let Log {
        k,
        left,
        right,
        run,
    } = log;
    let expected = splitting::count(*k, left, right, run);
    let answer = bare::count_splittings(*k, left, right, run);
    let wrapped = yenuslap::count_splittings(*k, left, right, run);
    alike(expected, answer, wrapped, &|| format!("{log:?}"));
    assert_eq!(black_box(log), &before, "lent parts changed");
    expected
}

/// The halves on which both agree, for outputs of `room` bytes; every lent byte is looked at.
pub fn split_both(log: &Log, number: usize, room: [usize; 2]) -> Result<[Vec<u8>; 2], Refusal> {
    let before = log.clone();
    let Log {
        k,
        left,
        right,
        run,
    } = log;
    let expected = splitting::split(*k, left, right, run, number, room);
    let about = || format!("{number} of {log:?} in {room:?}");
    let [mut to_left, mut to_right] = room.map(|room| Output::new(room, false));
    let outputs = (to_left.lent(), to_right.lent());
    let answer = bare::split(*k, left, right, run, number, outputs.0, outputs.1);
    let [mut again_left, mut again_right] = room.map(|room| Output::new(room, true));
    let outputs = (again_left.lent(), again_right.lent());
    let wrapped = yenuslap::split(*k, left, right, run, number, outputs.0, outputs.1);
    let length = expected.as_ref().map(|halves| halves[0].len());
    alike(length.map_err(|n| *n), answer, wrapped, &about);
    let [left_half, right_half] = [0, 1].map(|side| expected.as_ref().ok().map(|h| &h[side][..]));
    to_left.holds(left_half, &about);
    to_right.holds(right_half, &about);
    again_left.holds(left_half, &about);
    again_right.holds(right_half, &about);
    assert_eq!(black_box(log), &before, "lent parts changed");
    expected
}

/// The halves on which both agree, for outputs that fit exactly.
pub fn split_exactly(log: &Log, number: usize) -> Result<[Vec<u8>; 2], Refusal> {
    split_both(log, number, [log.half_length(); 2])
}

/// The joint run on which both agree, for an output of `room` bytes; every lent byte is looked at.
pub fn join_both(halves: &Halves, room: usize) -> Result<Vec<u8>, Refusal> {
    let before = halves.clone();
    let Halves {
        k,
        left,
        right,
        left_half,
        right_half,
    } = halves;
    let expected = splitting::join(*k, left, right, left_half, right_half, room);
    let about = || format!("{halves:?} in {room}");
    let mut out = Output::new(room, false);
    let answer = bare::join(*k, left, right, left_half, right_half, out.lent());
    let mut again = Output::new(room, true);
    let wrapped = yenuslap::join(*k, left, right, left_half, right_half, again.lent());
    let length = expected.as_ref().map(Vec::len).map_err(|n| *n);
    alike(length, answer, wrapped, &about);
    out.holds(expected.as_deref().ok(), &about);
    again.holds(expected.as_deref().ok(), &about);
    assert_eq!(black_box(halves), &before, "lent parts changed");
    expected
}

/// The length of the joint run of halves as long as the left one.
pub fn joint_length(halves: &Halves) -> usize {
    2 + halves.left_half.len().saturating_sub(1) / 2 * 3
}

/// The joint run on which both agree, for an output that fits exactly.
pub fn join_exactly(halves: &Halves) -> Result<Vec<u8>, Refusal> {
    join_both(halves, joint_length(halves))
}

/// The place of each step's way among document 01's ways, read off the halves alone: left alone, right alone, then
/// handshakes by rising left label.
pub fn ranks([left, right]: &[Vec<u8>; 2]) -> Vec<u8> {
    let steps = left[1..].chunks(2).zip(right[1..].chunks(2));
    let rank = |(own, other): (&[u8], &[u8])| match (own[0], other[0]) {
        (255, 255) => 0,
        (_, 255) => 1,
        (255, _) => 2,
        (label, _) => 2 + label,
    };
    steps.map(rank).collect()
}

/// Splits by every number in turn: the splittings rise in the order of their ways, the first step varying slowest, so
/// none comes twice, and each joins back to the log. Behind the last one there is none.
pub fn every_splitting(log: &Log) -> Vec<[Vec<u8>; 2]> {
    let count = count_both(log).expect("a sound log with numbered splittings");
    let mut all: Vec<[Vec<u8>; 2]> = Vec::new();
    for number in 0..count {
        let halves = split_exactly(log, number).unwrap();
        joins_back(log, &halves);
        if let Some(last) = all.last() {
            assert!(ranks(last) < ranks(&halves), "{number} of {log:?}");
        }
        all.push(halves);
    }
    assert_eq!(split_exactly(log, count), Err(14), "{log:?}");
    all
}

/// Demands that the halves join to the log.
pub fn joins_back(log: &Log, halves: &[Vec<u8>; 2]) {
    let joined = join_exactly(&log.halves(halves.clone()));
    assert_eq!(joined.as_ref(), Ok(&log.run), "{halves:?} of {log:?}");
}
