//! Faults that are put into sound halves of a book's machines on purpose. The left half is number 0, the right one 1.

use crate::book::Book;
use reference::label::{highest, IDLE};
use reference::random::Random;

/// Makes one step of a half wrong: a label that no table has, a state that is none, or an idle that moves.
pub fn break_step(random: &mut Random, book: &Book, halves: &mut [Vec<u8>; 2], side: usize) {
    let states = book.records[1 + side].body[0];
    let half = &mut halves[side];
    if half.len() == 1 {
        half.extend([IDLE, half[0] ^ 1]);
        return;
    }
    let at = 1 + 2 * random.below((half.len() - 1) / 2);
    match random.below(3) {
        0 => half[at] = random.byte(highest(book.k) + 1, 254),
        1 => half[at + 1] = random.byte(states, 255),
        _ => {
            half[at] = IDLE;
            half[at + 1] = half[at - 1] ^ 1;
        }
    }
}

/// Takes steps off the end of a half; false if it has none.
pub fn drop_steps(random: &mut Random, half: &mut Vec<u8>) -> bool {
    let steps = (half.len() - 1) / 2;
    if steps == 0 {
        return false;
    }
    let any = random.below(steps);
    let left = *random.pick(&[steps - 1, any, 0]);
    half.truncate(1 + 2 * left);
    true
}

/// Adds idles to the end of a half, up to 200 steps; a half of 200 steps loses one instead.
pub fn add_idles(random: &mut Random, half: &mut Vec<u8>) {
    let room = 200 - (half.len() - 1) / 2;
    if room == 0 {
        half.truncate(399);
        return;
    }
    let any = random.from_to(1, room);
    let more = *random.pick(&[1, 1, any]);
    let last = half[half.len() - 1];
    half.extend([IDLE, last].repeat(more));
}

/// Makes two moves meet that are no partners, by rows that the machines have where the halves come to some step, with
/// idles behind them; false if there are none.
pub fn unmatch(random: &mut Random, book: &Book, halves: &mut [Vec<u8>; 2]) -> bool {
    let steps = (halves[0].len() - 1) / 2;
    let at = random.from_to(0, steps.min(199));
    let rows = [0, 1].map(|side| leaving(book, side, halves[side][2 * at]));
    if rows.iter().any(Vec::is_empty) {
        return false;
    }
    let [own, other] = [random.pick(&rows[0]), random.pick(&rows[1])];
    let lower = own[0].min(other[0]);
    if lower % 2 == 1 && own[0].max(other[0]) == lower + 1 {
        return false;
    }
    let idles = random.from_to(0, 199 - at);
    for (half, [label, to]) in halves.iter_mut().zip([own, other]) {
        half.truncate(1 + 2 * at);
        half.extend([*label, *to]);
        half.extend([IDLE, *to].repeat(idles));
    }
    true
}

/// Label and target of each row of one of the tables that leaves a state.
fn leaving(book: &Book, side: usize, state: u8) -> Vec<[u8; 2]> {
    let rows = book.records[1 + side].body[1..].chunks(3);
    let leaving = rows.filter(|row| row[0] == state);
    leaving.map(|row| [row[1], row[2]]).collect()
}
