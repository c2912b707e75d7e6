//! Why a casebook's file is refused, and where: a sentence for each number.
//!
//! The engine gives the number only. Reading goes record by record, so the shortest beginning of the file that the
//! engine refuses otherwise than with 1 ends where the fault could first be seen.

use std::ops::Range;

use yenuslap::{read_casebook, Casebook, Refusal};

use super::faults::{find_fault, Fault, Item};
use super::hex::spaced;
use super::judge::{LEAST_LOG, LEAST_TABLE, TRUE};
use super::records::{Record, HEADER};

/// The number of bytes that end too early.
const ENDS_EARLY: u32 = 1;
/// How many bytes are printed at most.
const MOST_PRINTED: usize = 8;

/// Why the bytes are refused, in a sentence.
pub fn explain_casebook(bytes: &[u8], refusal: Refusal) -> String {
    let sentence = match refusal.number() {
        1 => Some(ends_early(bytes)),
        2 => record_seen(bytes).map(|record| wrong_kind(bytes, &record)),
        3 => record_seen(bytes).map(|record| wrong_length(bytes, &record)),
        4..=10 => record_seen(bytes).and_then(|record| contents(bytes, &record)),
        11 => Some(surplus(bytes)),
        _ => None,
    };
    sentence.unwrap_or_else(|| refusal.meaning().to_string())
}

/// How long the shortest beginning is that the engine does not find too short.
fn seen_at(bytes: &[u8]) -> usize {
    let too_short = |end: usize| match read_casebook(&bytes[..end]) {
        Err(refusal) => refusal.number() == ENDS_EARLY,
        Ok(_) => false,
    };
    let ends: Vec<usize> = (0..=bytes.len()).collect();
    ends.partition_point(|end| too_short(*end))
}

/// The record in which the fault could first be seen: at the end of its header, or at its own.
fn record_seen(bytes: &[u8]) -> Option<Record<'_>> {
    let seen = seen_at(bytes);
    Record::all(bytes).find(|record| seen <= record.body_start() || seen <= record.end())
}

/// Bytes of the file by their places, and themselves.
fn printed(bytes: &[u8], range: Range<usize>) -> String {
    let shown = first_bytes(bytes.get(range.clone()).unwrap_or(&[]));
    match range.len() {
        1 => format!("byte {}: {shown}", range.start),
        _ => format!("bytes {} to {}: {shown}", range.start, range.end - 1),
    }
}

/// The first of some bytes.
fn first_bytes(bytes: &[u8]) -> String {
    if bytes.len() > MOST_PRINTED {
        format!("{} ..", spaced(&bytes[..MOST_PRINTED]))
    } else {
        spaced(bytes)
    }
}

/// The bytes end too early: where, and what was due.
fn ends_early(bytes: &[u8]) -> String {
    let length = bytes.len();
    let open = |record: &Record| length < record.body_start() || length < record.end();
    let Some(record) = Record::all(bytes).find(open) else {
        return format!("the bytes end after {length}");
    };
    let (name, kind, start) = (record.due.name, record.due.kind, record.start);
    let due = format!("the {name} (kind {kind})");
    if length == start {
        format!("the bytes end before byte {length}, where {due} is due")
    } else if length < record.body_start() {
        format!(
            "the bytes end before byte {length}, inside the header of {due} that begins at byte {start}; \
             a header has {HEADER} bytes"
        )
    } else {
        let last = record.end() - 1;
        format!(
            "the bytes end before byte {length}, inside {due} that begins at byte {start} \
             and by its length goes to byte {last}"
        )
    }
}

/// A record of another kind than the one that is due.
fn wrong_kind(bytes: &[u8], record: &Record) -> String {
    let place = printed(bytes, record.start + 2..record.start + HEADER);
    let (found, name, kind) = (record.kind(), record.due.name, record.due.kind);
    format!("kind {found} ({place}) where the {name} is due, which has kind {kind}")
}

/// A record of a length that it cannot have.
fn wrong_length(bytes: &[u8], record: &Record) -> String {
    let place = printed(bytes, record.start..record.start + 2);
    let (found, due) = (record.length(), record.due);
    format!(
        "the {} has length {found} ({place}); its length is {}",
        due.name, due.lengths
    )
}

/// Bytes after the last record.
fn surplus(bytes: &[u8]) -> String {
    let end = seen_at(bytes);
    let (last, shown) = (end - 1, first_bytes(&bytes[end..]));
    format!(
        "the question record ends with byte {last}, and bytes follow it (from byte {end} on: {shown}); \
         a casebook ends with its question"
    )
}

/// A fault inside a record: the parts up to it are taken from the file, those after it are the least sound ones.
fn contents(bytes: &[u8], record: &Record) -> Option<String> {
    let bodies: Vec<&[u8]> = Record::all(bytes)
        .take_while(|other| other.start <= record.start)
        .map(|other| other.body())
        .collect();
    let body = |index: usize, least: &'static [u8]| bodies.get(index).copied().unwrap_or(least);
    let parts = Casebook {
        k: body(0, &[]).first().copied().unwrap_or(0),
        left: body(1, &LEAST_TABLE),
        right: body(2, &LEAST_TABLE),
        run: body(3, &LEAST_LOG),
        question: body(4, &TRUE),
    };
    find_fault(&parts).map(|fault| fault_sentence(bytes, record, &fault))
}

/// A fault with its place in the file.
fn fault_sentence(bytes: &[u8], record: &Record, fault: &Fault) -> String {
    let place = printed(bytes, item_range(record, fault.item));
    let name = fault.part.item_name(fault.item);
    format!("{name} ({place}): {}", fault.sentence)
}

/// Where a piece of a record lies in the file.
fn item_range(record: &Record, item: Item) -> Range<usize> {
    let start = record.body_start();
    let (head, entry) = record.due.part.layout();
    match item {
        Item::Head => start..start + head,
        Item::Entry(number) => {
            let end = start + head + entry * number;
            end - entry..end
        }
        Item::Whole => start..record.end(),
    }
}
