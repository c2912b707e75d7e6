//! Faults that are put into sound casebooks on purpose, each with the number it must get.

use crate::book::{random_book, Book};
use reference::casebook::fits;
use reference::formula::{Formula, MOST_NESTING, QUESTION_NODES};
use reference::generate::{random_formula, random_rows};
use reference::label::{highest, IDLE};
use reference::random::Random;

/// One kind of damage.
#[derive(Clone, Copy, PartialEq, Eq, Debug)]
pub enum Fault {
    Lost,
    Kind,
    Length,
    Pairs,
    States,
    RowRange,
    RowOrder,
    NinthRow,
    Start,
    Step,
    Tree,
    Nesting,
    After,
}

/// The faults of a table's contents.
pub const OF_TABLES: [Fault; 4] = [
    Fault::States,
    Fault::RowRange,
    Fault::RowOrder,
    Fault::NinthRow,
];

/// All faults.
pub const ALL: [Fault; 13] = [
    Fault::Lost,
    Fault::Kind,
    Fault::Length,
    Fault::Pairs,
    Fault::States,
    Fault::RowRange,
    Fault::RowOrder,
    Fault::NinthRow,
    Fault::Start,
    Fault::Step,
    Fault::Tree,
    Fault::Nesting,
    Fault::After,
];

impl Fault {
    /// The number that this fault alone must get.
    pub fn number(self) -> u8 {
        match self {
            Fault::Lost => 1,
            Fault::Kind => 2,
            Fault::Length => 3,
            Fault::Pairs => 4,
            Fault::States | Fault::RowRange => 5,
            Fault::RowOrder => 6,
            Fault::NinthRow => 7,
            Fault::Start | Fault::Step => 8,
            Fault::Tree => 9,
            Fault::Nesting => 10,
            Fault::After => 11,
        }
    }

    /// The records, counted from 0, in which this fault can stand.
    pub fn records(self) -> &'static [usize] {
        match self {
            Fault::Lost | Fault::Kind | Fault::Length => &[0, 1, 2, 3, 4],
            Fault::Pairs => &[0],
            Fault::States | Fault::RowRange | Fault::RowOrder | Fault::NinthRow => &[1, 2],
            Fault::Start | Fault::Step => &[3],
            Fault::Tree | Fault::Nesting | Fault::After => &[4],
        }
    }

    /// When a record's check comes to this fault: kind, length, body, contents, what follows.
    pub fn stage(self) -> u8 {
        match self {
            Fault::Kind => 0,
            Fault::Length => 1,
            Fault::Lost => 2,
            Fault::After => 4,
            _ => 3,
        }
    }

    /// Puts the fault into a record; false if this book has no place for it.
    pub fn make(self, book: &mut Book, record: usize, random: &mut Random) -> bool {
        match self {
            Fault::Lost => lose_bytes(book, record, random),
            Fault::Kind => change_kind(book, record, random),
            Fault::Length => change_length(book, record, random),
            Fault::Pairs => set_byte(book, 0, 0, random.byte(16, 255)),
            Fault::States => set_states(book, record, random),
            Fault::RowRange => leave_range(book, record, random),
            Fault::RowOrder => break_order(book, record, random),
            Fault::NinthRow => add_ninth_row(book, record, random),
            Fault::Start => leave_start(book, random),
            Fault::Step => break_step(book, random),
            Fault::Tree => break_tree(book, random),
            Fault::Nesting => nest_too_deep(book, random),
            Fault::After => add_after(book, random),
        }
    }
}

/// A book with one fault, tried on sound books until one has a place for it.
pub fn faulty_book(fault: Fault, record: usize, random: &mut Random) -> Book {
    loop {
        let mut book = random_book(random);
        if fault.make(&mut book, record, random) {
            return book;
        }
    }
}

/// Sets one byte of a body.
fn set_byte(book: &mut Book, record: usize, at: usize, value: u8) -> bool {
    book.records[record].body[at] = value;
    true
}

/// Ends the bytes inside a record's body, or with its header.
fn lose_bytes(book: &mut Book, record: usize, random: &mut Random) -> bool {
    let keep = random.below(book.records[record].body.len().max(1));
    book.records[record].body.truncate(keep);
    book.records.truncate(record + 1);
    book.after.clear();
    true
}

/// Gives a record another kind, near or far.
fn change_kind(book: &mut Book, record: usize, random: &mut Random) -> bool {
    let due = record as u16 + 1;
    let near = random.from_to(0, 6) as u16;
    let far = due + 256 * random.from_to(1, 255) as u16;
    book.records[record].kind = *random.pick(&[near, far]);
    book.records[record].kind != due
}

/// Gives a record a length that its kind does not have, often with a body of that length.
fn change_length(book: &mut Book, record: usize, random: &mut Random) -> bool {
    let most = *random.pick(&[10, 140, 620, 1600, 65535]);
    let length = random.from_to(0, most) as u16;
    book.records[record].length = length;
    if random.once_in(2) {
        let body = (length as usize).saturating_sub(2);
        book.records[record].body.resize(body, 0);
    }
    !fits(record as u16 + 1, length as usize)
}

/// Gives a table no state or too many.
fn set_states(book: &mut Book, record: usize, random: &mut Random) -> bool {
    let over = random.byte(65, 255);
    let states = *random.pick(&[0, 65, over]);
    set_byte(book, record, 0, states)
}

/// The number of rows of a table's body.
fn row_count(book: &Book, record: usize) -> usize {
    (book.records[record].body.len() - 1) / 3
}

/// Puts a state or label of one row out of range.
fn leave_range(book: &mut Book, record: usize, random: &mut Random) -> bool {
    let rows = row_count(book, record);
    if rows == 0 {
        return false;
    }
    let states = book.records[record].body[0];
    let lowest_wrong = [states, highest(book.k) + 1, states];
    let place = random.below(3);
    let most = *random.pick(&[lowest_wrong[place], 255]);
    let wrong = random.byte(lowest_wrong[place], most);
    set_byte(book, record, 1 + 3 * random.below(rows) + place, wrong)
}

/// Repeats a row in the next one's place, or swaps two neighbours.
fn break_order(book: &mut Book, record: usize, random: &mut Random) -> bool {
    let rows = row_count(book, record);
    if rows < 2 {
        return false;
    }
    let at = 1 + 3 * random.below(rows - 1);
    let body = &mut book.records[record].body;
    if random.once_in(2) {
        body.copy_within(at..at + 3, at + 3);
    } else {
        let (first, second) = body[at..at + 6].split_at_mut(3);
        first.swap_with_slice(second);
    }
    true
}

/// Gives one state nine rows and drops the rows of the states above it.
fn add_ninth_row(book: &mut Book, record: usize, random: &mut Random) -> bool {
    let states = book.records[record].body[0];
    if (highest(book.k) as usize + 1) * (states as usize) < 9 {
        return false;
    }
    let state = random.byte(0, states - 1);
    let mut body = vec![states];
    for row in book.records[record].body[1..].chunks(3) {
        if row[0] < state {
            body.extend(row);
        }
    }
    for row in random_rows(random, book.k, states, state, 9) {
        body.extend([row.from, row.label, row.to]);
    }
    let room = fits(record as u16 + 1, body.len() + 2);
    book.set_body(record, body);
    room
}

/// Puts one of the start states out of range.
fn leave_start(book: &mut Book, random: &mut Random) -> bool {
    let side = random.below(2);
    let states = book.records[1 + side].body[0];
    let far = random.byte(states, 255);
    let wrong = *random.pick(&[states, far]);
    set_byte(book, 3, side, wrong)
}

/// Makes one step unreal: a label that no table has, a state that is none, or an idle that moves.
fn break_step(book: &mut Book, random: &mut Random) -> bool {
    let steps = (book.records[3].body.len() - 2) / 3;
    if steps == 0 {
        return false;
    }
    let at = 2 + 3 * random.below(steps);
    let states = [book.records[1].body[0], book.records[2].body[0]];
    let side = random.below(2);
    match random.below(3) {
        0 => set_byte(book, 3, at, random.byte(highest(book.k) + 1, 254)),
        1 => set_byte(book, 3, at + 1 + side, random.byte(states[side], 255)),
        _ => {
            // The state before: in the step before, or in the start.
            let before = if at == 2 { side } else { at - 2 + side };
            let moved = book.records[3].body[before] ^ 1;
            set_byte(book, 3, at, IDLE) && set_byte(book, 3, at + 1 + side, moved)
        }
    }
}

/// Makes a question that is not one whole tree of sound nodes.
fn break_tree(book: &mut Book, random: &mut Random) -> bool {
    let mut body = book.records[4].body.clone();
    let nodes = body.len() / 2;
    let at = 2 * random.below(nodes);
    let labelled = body[at] == 5 || body[at] == 6;
    let possible = match random.below(5) {
        0 => {
            body[at] = random.byte(9, 255);
            true
        }
        1 => {
            body[at + 1] = random.byte(highest(book.k) + 1, 255);
            labelled
        }
        2 => {
            body[at + 1] = random.byte(1, 255);
            !labelled
        }
        3 => {
            body.truncate(2 * nodes - 2);
            nodes > 1
        }
        _ => {
            body.extend([random.byte(0, 8), 0]);
            nodes < QUESTION_NODES
        }
    };
    book.set_body(4, body);
    possible
}

/// Puts another question with five or more forward modalities on one branch.
fn nest_too_deep(book: &mut Book, random: &mut Random) -> bool {
    let mut nodes = random.from_to(1, 6);
    let mut formula = random_formula(random, book.k, nodes, MOST_NESTING);
    while formula.nesting() <= MOST_NESTING || random.once_in(2) {
        let label = random.byte(0, highest(book.k));
        let inner = Box::new(formula);
        nodes += 1;
        formula = match random.below(6) {
            0 => Formula::Not(inner),
            1 => Formula::Back(label, inner),
            2 => Formula::BackIdle(inner),
            3 => Formula::Forward(label, inner),
            4 => Formula::ForwardIdle(inner),
            _ => {
                nodes += 1;
                Formula::And(Box::new(Formula::True), inner)
            }
        };
    }
    book.set_body(4, formula.to_bytes());
    nodes <= QUESTION_NODES
}

/// Puts bytes after the question record.
fn add_after(book: &mut Book, random: &mut Random) -> bool {
    let count = *random.pick(&[1, 1, 2, 4, 60]);
    book.after = random.bytes(count);
    true
}
