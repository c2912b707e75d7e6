//! Where a fault lies by the plain implementation, which reads each table and log row by row and step by step.

use std::ops::Range;

use reference::casebook::fits;
use reference::run::read_run;
use reference::table::{read_table, Table};

/// A record as it stands in a file: where it begins, its length and its kind.
struct Header {
    start: usize,
    length: usize,
    kind: u16,
}

/// The headers of a file's records, each where the one before says that it ends.
fn headers(bytes: &[u8]) -> Vec<Header> {
    let mut headers: Vec<Header> = Vec::new();
    let mut start = 0;
    while headers.len() < 5 {
        let Some([a, b, c, d]) = bytes.get(start..start + 4) else {
            break;
        };
        let length = u16::from_le_bytes([*a, *b]) as usize;
        let kind = u16::from_le_bytes([*c, *d]);
        headers.push(Header {
            start,
            length,
            kind,
        });
        start += 2 + length;
    }
    headers
}

/// The place that an explanation of a refused file must name; none for formulas.
pub fn plain_place(bytes: &[u8], number: u8) -> Option<String> {
    let headers = headers(bytes);
    let wrong_kind = || {
        headers
            .iter()
            .zip(1..)
            .find(|(header, due)| header.kind != *due)
    };
    let wrong_length = || {
        headers
            .iter()
            .find(|header| !fits(header.kind, header.length))
    };
    match number {
        1 => Some(format!("the bytes end before byte {},", bytes.len())),
        2 => wrong_kind().map(|(header, _)| named(header.start + 2, 2)),
        3 => wrong_length().map(|header| named(header.start, 2)),
        4 => Some(named(4, 1)),
        5..=7 => table_place(bytes, &headers),
        8 => log_place(bytes, &headers),
        11 => headers
            .last()
            .map(|last| format!("from byte {} on:", last.start + 2 + last.length)),
        _ => None,
    }
}

/// Bytes by their places, as explanations name them.
fn named(start: usize, length: usize) -> String {
    match length {
        1 => format!("(byte {start}: "),
        _ => format!("(bytes {start} to {}: ", start + length - 1),
    }
}

/// The body of a record.
fn body(header: &Header) -> Range<usize> {
    header.start + 4..header.start + 2 + header.length
}

/// The first beginning of a body that is refused: its head, or the entry that it ends with.
fn first_refused(
    body: Range<usize>,
    head: usize,
    refused: impl Fn(Range<usize>) -> bool,
) -> Option<String> {
    let mut ends = (body.start + head..=body.end).step_by(3);
    let end = ends.find(|end| refused(body.start..*end))?;
    Some(match end == body.start + head {
        true => named(body.start, head),
        false => named(end - 3, 3),
    })
}

/// Where a table's fault lies.
fn table_place(bytes: &[u8], headers: &[Header]) -> Option<String> {
    let refused = |part: Range<usize>| read_table(&bytes[part], bytes[4]).is_err();
    let mut bodies = headers[1..headers.len().min(3)].iter().map(body);
    bodies.find_map(|body| first_refused(body, 1, refused))
}

/// Where a log's fault lies.
fn log_place(bytes: &[u8], headers: &[Header]) -> Option<String> {
    let table =
        |header: &Header| -> Option<Table> { read_table(&bytes[body(header)], bytes[4]).ok() };
    let (left, right) = (table(&headers[1])?, table(&headers[2])?);
    let refused = |part: Range<usize>| read_run(&bytes[part], &left, &right).is_err();
    first_refused(body(&headers[3]), 2, refused)
}
