//! Casebooks that can be taken apart and damaged.

use reference::casebook::Parts;
use reference::formula::QUESTION_NODES;
use reference::generate::{random_table, sound_parts, Shape};
use reference::label::IDLE;
use reference::random::Random;

/// A record whose header may lie about its body.
#[derive(Clone, Debug)]
pub struct Record {
    pub length: u16,
    pub kind: u16,
    pub body: Vec<u8>,
}

/// A casebook that may be damaged; `k` is the one it was made with.
#[derive(Clone, Debug)]
pub struct Book {
    pub k: u8,
    pub records: Vec<Record>,
    pub after: Vec<u8>,
}

impl Book {
    /// The sound book of these parts.
    pub fn of(parts: &Parts) -> Book {
        let bodies = [
            vec![parts.k],
            parts.left.clone(),
            parts.right.clone(),
            parts.run.clone(),
            parts.question.clone(),
        ];
        let record = |(body, kind): (Vec<u8>, u16)| Record {
            length: body.len() as u16 + 2,
            kind,
            body,
        };
        Book {
            k: parts.k,
            records: bodies.into_iter().zip(1..).map(record).collect(),
            after: Vec::new(),
        }
    }

    /// The book's bytes, whatever its headers say.
    pub fn bytes(&self) -> Vec<u8> {
        let mut bytes = Vec::new();
        for record in &self.records {
            bytes.extend(record.length.to_le_bytes());
            bytes.extend(record.kind.to_le_bytes());
            bytes.extend(&record.body);
        }
        bytes.extend(&self.after);
        bytes
    }

    /// The bodies as parts for the writer.
    pub fn parts(&self) -> Parts {
        let body = |record: usize| self.records[record].body.clone();
        Parts {
            k: body(0)[0],
            left: body(1),
            right: body(2),
            run: body(3),
            question: body(4),
        }
    }

    /// Puts another body into a record, with a true length.
    pub fn set_body(&mut self, record: usize, body: Vec<u8>) {
        self.records[record].length = body.len() as u16 + 2;
        self.records[record].body = body;
    }
}

/// A sound book of a random small or other shape.
pub fn random_book(random: &mut Random) -> Book {
    let shape = if random.once_in(8) {
        Shape::any(random)
    } else {
        Shape::small(random)
    };
    Book::of(&sound_parts(random, shape))
}

/// A body of a length that no record of this kind has, sound as far as it goes.
pub fn unfit_body(book: &Book, record: usize, random: &mut Random) -> Vec<u8> {
    let mut body = book.records[record].body.clone();
    match (record, random.below(4)) {
        (_, 0) => body.clear(),
        (1 | 2, 1) => {
            let shape = Shape::maximal(book.k);
            body = random_table(random, shape, 64).to_bytes();
            body.extend([63, 30, 63]);
        }
        (3, 1) => {
            body.truncate(2);
            body.extend([IDLE, body[0], body[1]].repeat(201));
        }
        (4, 1) => {
            body = [2, 0].repeat(QUESTION_NODES);
            body.extend([0, 0]);
        }
        (4, _) => body.push(0),
        (_, more) => body.extend(vec![0; more - 1]),
    }
    body
}
