//! Refused splittings and joins: each number alone, every pair of faulty arguments, and all later arguments faulty.

use crate::book::{unfit_body, Book};
use crate::both::{number_of, Tally};
use crate::faults::{Fault, OF_TABLES};
use crate::half_faults::{add_idles, break_step, drop_steps, unmatch};
use crate::splitting_both::{count_both, join_both, joint_length, split_both, Halves, Log};
use crate::splitting_logs::{large_shape, many_ways, random_halves, small_shape};
use crate::verdict_refused::{change_parity, long_half, pairs};
use reference::casebook::Parts;
use reference::generate::Shape;
use reference::random::Random;
use reference::Refusal;

/// A call that may be damaged: a book's parts, a number and two halves, and the rooms of the outputs.
#[derive(Clone, Debug)]
struct Call {
    book: Book,
    number: usize,
    room: [usize; 2],
    halves: [Vec<u8>; 2],
    join_room: usize,
}

/// How many splittings the log of a call may have.
#[derive(Clone, Copy, PartialEq, Eq, Debug)]
enum Size {
    Numbered,
    TooMany,
}

impl Call {
    /// A sound call for a splitting by number, or one with too many splittings; its halves match in both cases.
    fn random(random: &mut Random, size: Size) -> Call {
        let log = match size {
            Size::Numbered => numbered(random),
            Size::TooMany => too_many(random),
        };
        let count = count_both(&log).unwrap_or(70_000);
        let halves = random_halves(random, &log);
        let exact = log.half_length();
        let join_room = log.run.len() + random.from_to(0, 3);
        Call {
            number: random.below(count),
            room: [0, 1].map(|_| exact + random.from_to(0, 2)),
            halves,
            join_room,
            book: Book::of(&Parts {
                k: log.k,
                left: log.left,
                right: log.right,
                run: log.run,
                question: vec![0, 0],
            }),
        }
    }

    /// The log of a count or a split.
    fn log(&self) -> Log {
        Log::of(self.book.parts())
    }

    /// The halves of a join.
    fn joined(&self) -> Halves {
        self.log().halves(self.halves.clone())
    }
}

/// A log with at most 65,535 splittings.
fn numbered(random: &mut Random) -> Log {
    let seed = random.below(48);
    let shape = match random.below(8) {
        0 => large_shape(random, seed),
        _ => small_shape(random, seed),
    };
    many_ways(random, shape, 65_535)
}

/// A log with over 65,535 splittings, whose tables have places for every fault.
fn too_many(random: &mut Random) -> Log {
    loop {
        let seed = random.below(48);
        let shape = Shape {
            steps: random.from_to(20, 200),
            rows: random.from_to(1, 8),
            ..small_shape(random, seed)
        };
        let log = many_ways(random, shape, usize::MAX >> 8);
        if count_both(&log) == Err(13) {
            return log;
        }
    }
}

/// One kind of damage to a call.
#[derive(Clone, Copy, PartialEq, Eq, Debug)]
enum Flaw {
    /// A fault in the contents of a part, by its record.
    Part(Fault, usize),
    /// A table or joint run of unfit length, by its record.
    Length(usize),
    /// Over 65,535 splittings.
    TooMany,
    /// A number that is not below the count.
    Number,
    /// The left output, the right output or both too short for a half.
    Room(bool, bool),
    /// A half of even length, the left one (0) or the right one (1).
    EvenHalf(usize),
    /// A half of over 200 steps.
    LongHalf(usize),
    /// A half with a start state that is none.
    HalfStart(usize),
    /// A half with a step that its machine cannot take.
    HalfStep(usize),
    /// A half that is shorter than the other by some steps.
    Shorter(usize),
    /// A half that is longer than the other by some idles.
    Longer(usize),
    /// A handshake whose right half says the left's label, or another pair's.
    Unmatched,
    /// The output of a join too short.
    JoinRoom,
}

/// The flaws of the arguments of a count, in the order in which they are judged.
fn count_flaws() -> Vec<Vec<Flaw>> {
    let run = vec![
        Flaw::Length(3),
        Flaw::Part(Fault::Start, 3),
        Flaw::Part(Fault::Step, 3),
    ];
    let pairs = vec![Flaw::Part(Fault::Pairs, 0)];
    vec![
        pairs,
        table_flaws(1),
        table_flaws(2),
        run,
        vec![Flaw::TooMany],
    ]
}

/// The flaws of the arguments of a split, in the order in which they are judged.
fn split_flaws() -> Vec<Vec<Flaw>> {
    let rooms = [(true, false), (false, true), (true, true)];
    let mut flaws = count_flaws();
    flaws.push(vec![Flaw::Number]);
    flaws.push(rooms.map(|(left, right)| Flaw::Room(left, right)).into());
    flaws
}

/// The flaws of the arguments of a join, in the order in which they are judged.
fn join_flaws() -> Vec<Vec<Flaw>> {
    let of_half = |side| {
        [
            Flaw::EvenHalf(side),
            Flaw::LongHalf(side),
            Flaw::HalfStart(side),
            Flaw::HalfStep(side),
        ]
    };
    let unequal = |side| [Flaw::Shorter(side), Flaw::Longer(side)];
    let mut unmatched = [unequal(0), unequal(1)].concat();
    unmatched.push(Flaw::Unmatched);
    vec![
        vec![Flaw::Part(Fault::Pairs, 0)],
        table_flaws(1),
        table_flaws(2),
        [of_half(0), of_half(1)].concat(),
        unmatched,
        vec![Flaw::JoinRoom],
    ]
}

/// The flaws of a table.
fn table_flaws(record: usize) -> Vec<Flaw> {
    let mut flaws = vec![Flaw::Length(record)];
    flaws.extend(OF_TABLES.map(|fault| Flaw::Part(fault, record)));
    flaws
}

impl Flaw {
    /// The number that this flaw gets.
    fn number(self) -> Refusal {
        match self {
            Flaw::Part(fault, _) => fault.number(),
            Flaw::Length(_) => 3,
            Flaw::TooMany => 13,
            Flaw::Number => 14,
            Flaw::EvenHalf(_) | Flaw::LongHalf(_) => 15,
            Flaw::HalfStart(_) | Flaw::HalfStep(_) => 15,
            Flaw::Shorter(_) | Flaw::Longer(_) | Flaw::Unmatched => 16,
            Flaw::Room(..) | Flaw::JoinRoom => 18,
        }
    }

    /// Puts the flaw into a call; false if this call has no place for it.
    fn make(self, call: &mut Call, random: &mut Random) -> bool {
        match self {
            Flaw::Part(fault, record) => fault.make(&mut call.book, record, random),
            Flaw::Length(record) => {
                let body = unfit_body(&call.book, record, random);
                call.book.set_body(record, body);
                true
            }
            // The call was made so.
            Flaw::TooMany => true,
            Flaw::Number => {
                call.number = beyond(random, count_both(&call.log()).unwrap_or(65_536));
                true
            }
            Flaw::Room(left, right) => {
                shorten_rooms(random, call, [left, right]);
                true
            }
            Flaw::JoinRoom => {
                call.join_room = shorter(random, joint_length(&call.joined()));
                true
            }
            Flaw::Unmatched => unmatch(random, &call.book, &mut call.halves),
            Flaw::Shorter(side) => drop_steps(random, &mut call.halves[side]),
            _ => {
                damage_half(self, call, random);
                true
            }
        }
    }
}

/// A number that is not below the count, near or far.
pub fn beyond(random: &mut Random, count: usize) -> usize {
    let far = count + random.from_to(2, 70_000);
    *random.pick(&[count, count, count + 1, far, count + (1 << 32), usize::MAX])
}

/// A room below what is needed.
fn shorter(random: &mut Random, exact: usize) -> usize {
    let any = random.below(exact);
    *random.pick(&[exact - 1, exact - 1, any, 0])
}

/// Makes the outputs of a split too short, where wanted.
fn shorten_rooms(random: &mut Random, call: &mut Call, short: [bool; 2]) {
    let exact = call.log().half_length();
    for side in [0, 1] {
        if short[side] {
            call.room[side] = shorter(random, exact);
        }
    }
}

/// Puts a flaw of one half alone into it.
fn damage_half(flaw: Flaw, call: &mut Call, random: &mut Random) {
    match flaw {
        Flaw::EvenHalf(side) => change_parity(random, &mut call.halves[side]),
        Flaw::LongHalf(side) => call.halves[side] = long_half(random, call.halves[side][0]),
        Flaw::HalfStart(side) => {
            let states = call.book.records[1 + side].body[0];
            call.halves[side][0] = random.byte(states, 255);
        }
        Flaw::HalfStep(side) => break_step(random, &call.book, &mut call.halves, side),
        Flaw::Longer(side) => add_idles(random, &mut call.halves[side]),
        other => unreachable!("{other:?} is about more than one half"),
    }
}

/// A call with all these flaws, given in the order judged; later arguments are damaged first, and a join's output is
/// made too short last, when it is known what it should hold.
fn flawed(random: &mut Random, flaws: &[Flaw]) -> Call {
    let size = match flaws.contains(&Flaw::TooMany) {
        true => Size::TooMany,
        false => Size::Numbered,
    };
    let is_room = |flaw: &&Flaw| **flaw == Flaw::JoinRoom;
    let others = flaws.iter().rev().filter(|flaw| !is_room(flaw));
    let in_turn: Vec<&Flaw> = others.chain(flaws.iter().filter(is_room)).collect();
    loop {
        let mut call = Call::random(random, size);
        if in_turn.iter().all(|flaw| flaw.make(&mut call, random)) {
            return call;
        }
    }
}

/// Counts, splits or joins a call and gives the number.
type Ask = fn(&Call) -> Refusal;

fn ask_count(call: &Call) -> Refusal {
    number_of(&count_both(&call.log()))
}

fn ask_split(call: &Call) -> Refusal {
    number_of(&split_both(&call.log(), call.number, call.room))
}

fn ask_join(call: &Call) -> Refusal {
    number_of(&join_both(&call.joined(), call.join_room))
}

/// The three calls with their flaws and how they are asked.
fn calls() -> [(Vec<Vec<Flaw>>, Ask); 3] {
    [
        (count_flaws(), ask_count),
        (split_flaws(), ask_split),
        (join_flaws(), ask_join),
    ]
}

/// Demands the first flaw's number of a call with these flaws.
fn gives(tally: &mut Tally, random: &mut Random, flaws: &[Flaw], ask: Ask) {
    let call = flawed(random, flaws);
    assert_eq!(ask(&call), flaws[0].number(), "{flaws:?} in {call:?}");
    tally.note(flaws[0].number());
}

/// The sound calls that are damaged below are answered.
#[test]
fn sound_calls_are_answered() {
    let mut random = Random::new(141);
    for _ in 0..400 {
        let call = Call::random(&mut random, Size::Numbered);
        assert_eq!(
            [ask_count(&call), ask_split(&call), ask_join(&call)],
            [0; 3]
        );
        let call = Call::random(&mut random, Size::TooMany);
        assert_eq!(
            [ask_count(&call), ask_split(&call), ask_join(&call)],
            [13, 13, 0]
        );
    }
}

/// Each flaw alone gets its number.
#[test]
fn each_flaw_alone() {
    let mut tally = Tally::new("counts, splits and joins refused for one flaw");
    let mut random = Random::new(142);
    for (flaws, ask) in calls() {
        for flaw in flaws.into_iter().flatten() {
            for _ in 0..200 {
                gives(&mut tally, &mut random, &[flaw], ask);
            }
        }
    }
    tally.saw_exactly(&[3, 4, 5, 6, 7, 8, 13, 14, 15, 16, 18]);
}

/// Two flaws at once: the argument that is judged first gives the number.
#[test]
fn every_pair_of_flaws() {
    let mut tally = Tally::new("counts, splits and joins refused for two flaws at once");
    let mut random = Random::new(143);
    for (flaws, ask) in calls() {
        for flaws in pairs(&flaws) {
            for _ in 0..24 {
                gives(&mut tally, &mut random, &flaws, ask);
            }
        }
    }
    tally.saw_exactly(&[3, 4, 5, 6, 7, 8, 13, 14, 15, 16]);
}

/// From one argument on, all are faulty: the first of them gives the number.
#[test]
fn everything_faulty_from_one_argument_on() {
    let mut tally = Tally::new("counts, splits and joins with all later arguments faulty");
    let mut random = Random::new(144);
    for (flaws, ask) in calls() {
        for from in 0..flaws.len() {
            for _ in 0..200 {
                let some: Vec<Flaw> = flaws[from..].iter().map(|f| *random.pick(f)).collect();
                gives(&mut tally, &mut random, &some, ask);
            }
        }
    }
    tally.saw_exactly(&[3, 4, 5, 6, 7, 8, 13, 14, 15, 16, 18]);
}

/// Both halves unfit at once, or one unfit and of another length than the other: 15 before 16.
#[test]
fn two_flaws_of_halves() {
    let mut tally = Tally::new("joins of two halves with flaws of both");
    let mut random = Random::new(145);
    let flaws = join_flaws()[3].clone();
    for left in &flaws[..4] {
        for right in &flaws[4..] {
            for _ in 0..40 {
                gives(&mut tally, &mut random, &[*left, *right], ask_join);
            }
        }
    }
    tally.saw_exactly(&[15]);
}

/// Every k: 4 over 15, and below it the labels that it gives.
#[test]
fn every_k() {
    let mut tally = Tally::new("counts, splits and joins of case A with every k");
    for k in 0..=255 {
        let log = Log {
            k,
            left: vec![2, 0, 1, 1, 0, 3, 1],
            right: vec![2, 0, 2, 1, 0, 4, 1],
            run: vec![0, 0, 0, 1, 1],
        };
        let expected = match k {
            0 | 1 => 5,
            2..=15 => 0,
            _ => 4,
        };
        let halves = log.halves([vec![0, 3, 1], vec![0, 4, 1]]);
        let numbers = [
            number_of(&count_both(&log)),
            number_of(&split_both(&log, 1, [3, 4])),
            number_of(&join_both(&halves, 6)),
        ];
        assert_eq!(numbers, [expected; 3], "k {k}");
        tally.note(expected);
    }
    tally.saw_exactly(&[0, 4, 5]);
}
