//! Refused quotients and line offices: each number alone, every pair of faulty arguments, and all later arguments
//! faulty.

use crate::book::{unfit_body, Book};
use crate::both::{number_of, Tally};
use crate::faults::{Fault, OF_TABLES};
use crate::half_faults::{add_idles, break_step, drop_steps, unmatch};
use crate::quotient_both::{
    numbered_both, office_both, quotient_both, Given, Logged, Stop, LARGEST, SIDES,
};
use crate::quotient_inputs::with_question;
use crate::splitting_both::{count_both, Log};
use crate::splitting_logs::{many_ways, random_halves};
use crate::splitting_refused::beyond;
use crate::verdict_refused::{change_parity, long_half, pairs, times};
use reference::casebook::Parts;
use reference::formula::QUOTIENT_NODES;
use reference::generate::Shape;
use reference::random::Random;
use reference::Refusal;

/// A call that may be damaged: a book's parts, a number, two halves, the known side and the point, and the output.
#[derive(Clone, Debug)]
struct Call {
    book: Book,
    number: usize,
    halves: [Vec<u8>; 2],
    stop: Stop,
    room: usize,
}

/// What a call is made with from the beginning, since it cannot be put in afterwards.
#[derive(Clone, Copy, PartialEq, Eq, Debug)]
struct Size {
    /// Over 65,535 splittings.
    too_many: bool,
    /// A quotient of over 4,096 nodes, by either half and wherever it ends.
    too_large: bool,
}

/// Which of the two halves.
#[derive(Clone, Copy, PartialEq, Eq, Debug)]
enum Role {
    Known,
    Other,
}

impl Call {
    /// A sound call but for its size.
    fn random(random: &mut Random, size: Size) -> Call {
        let log = log_of_size(random, size);
        let count = count_both(&log).unwrap_or(70_000);
        let halves = random_halves(random, &log);
        let stop = Stop {
            side: *random.pick(&SIDES),
            point: random.from_to(0, log.steps()),
        };
        let nodes = random.from_to(1, 6);
        let Logged { log, mut question } = with_question(random, log, nodes);
        if size.too_large {
            question = times(4, [5, 0], &times(random.from_to(8, 50), [2, 0], &[0, 0]));
        }
        let more = random.from_to(0, 3);
        Call {
            number: random.below(count),
            halves,
            stop,
            room: LARGEST + more,
            book: Book::of(&Parts {
                k: log.k,
                left: log.left,
                right: log.right,
                run: log.run,
                question,
            }),
        }
    }

    /// The place of a half among the two.
    fn place(&self, role: Role) -> usize {
        match (role, self.stop.knows_left()) {
            (Role::Known, true) | (Role::Other, false) => 0,
            _ => 1,
        }
    }

    /// The call by number.
    fn logged(&self) -> Logged {
        let parts = self.book.parts();
        let question = parts.question.clone();
        let log = Log::of(parts);
        Logged { log, question }
    }

    /// The call by halves.
    fn given(&self) -> Given {
        self.logged().with(self.halves.clone())
    }

    /// The steps of the log, and of the half that is known.
    fn steps(&self, by: By) -> usize {
        match by {
            By::Number => self.logged().log.steps(),
            _ => self.halves[self.place(Role::Known)].len().saturating_sub(1) / 2,
        }
    }
}

/// A log whose tables have places for every fault. From each state go at least four rows where the quotient is to be
/// too large: four nested forward by 0 over nine nodes then have over 5^4 * 9 nodes.
fn log_of_size(random: &mut Random, size: Size) -> Log {
    loop {
        let shape = Shape {
            k: random.byte(1, 4),
            left_states: random.byte(2, 4),
            right_states: random.byte(2, 4),
            rows: if size.too_large {
                random.from_to(4, 7)
            } else {
                random.from_to(1, 4)
            },
            full: true,
            steps: if size.too_many {
                random.from_to(20, 200)
            } else {
                random.from_to(0, 8)
            },
            nodes: 1,
        };
        let most = if size.too_many {
            usize::MAX >> 8
        } else {
            65_535
        };
        let log = many_ways(random, shape, most);
        if (count_both(&log) == Err(13)) == size.too_many {
            return log;
        }
    }
}

/// Which of the three calls is made.
#[derive(Clone, Copy, PartialEq, Eq, Debug)]
enum By {
    Halves,
    Number,
    Office,
}

/// One kind of damage to a call.
#[derive(Clone, Copy, PartialEq, Eq, Debug)]
enum Flaw {
    /// A fault in the contents of a part, by its record.
    Part(Fault, usize),
    /// A table or joint run of unfit length, by its record.
    Length(usize),
    /// A question of odd length, of none, or of over 64 nodes.
    QuestionLength,
    /// A point beyond the known half or the log.
    Point,
    /// A half of even length.
    EvenHalf(Role),
    /// Over 65,535 splittings.
    TooMany,
    /// A number that is not below the count.
    Number,
    /// A half of over 200 steps.
    LongHalf(Role),
    /// A half with a start state that is none.
    HalfStart(Role),
    /// A half with a step that its machine cannot take.
    HalfStep(Role),
    /// A half that is shorter than the other by some steps.
    Shorter(Role),
    /// A half that is longer than the other by some idles.
    Longer(Role),
    /// Two moves that meet and are no partners.
    Unmatched,
    /// A quotient of over 4,096 nodes.
    TooLarge,
    /// An output too short.
    Room,
}

/// The flaws of a table.
fn table_flaws(record: usize) -> Vec<Flaw> {
    let mut flaws = vec![Flaw::Length(record)];
    flaws.extend(OF_TABLES.map(|fault| Flaw::Part(fault, record)));
    flaws
}

/// The flaws of a question.
fn question_flaws() -> Vec<Flaw> {
    vec![
        Flaw::QuestionLength,
        Flaw::Part(Fault::Tree, 4),
        Flaw::Part(Fault::Nesting, 4),
    ]
}

/// The flaws of a call's arguments, in the order in which they are judged.
fn flaws_of(by: By) -> Vec<Vec<Flaw>> {
    let pairs = vec![Flaw::Part(Fault::Pairs, 0)];
    let mut flaws = vec![pairs, table_flaws(1), table_flaws(2)];
    match by {
        By::Number => flaws.extend(number_flaws()),
        By::Halves | By::Office => flaws.extend(half_flaws()),
    }
    flaws.push(vec![Flaw::TooLarge]);
    if by != By::Office {
        flaws.push(vec![Flaw::Room]);
    }
    flaws
}

/// What a call by number judges between the tables and the size.
fn number_flaws() -> Vec<Vec<Flaw>> {
    let run = vec![
        Flaw::Length(3),
        Flaw::Part(Fault::Start, 3),
        Flaw::Part(Fault::Step, 3),
    ];
    vec![
        run,
        question_flaws(),
        vec![Flaw::Point],
        vec![Flaw::TooMany],
        vec![Flaw::Number],
    ]
}

/// What a call with halves judges between the tables and the size.
fn half_flaws() -> Vec<Vec<Flaw>> {
    let mut no_runs = vec![Flaw::EvenHalf(Role::Other)];
    let mut unmatched = vec![Flaw::Unmatched];
    for role in [Role::Known, Role::Other] {
        no_runs.extend([
            Flaw::LongHalf(role),
            Flaw::HalfStart(role),
            Flaw::HalfStep(role),
        ]);
        unmatched.extend([Flaw::Shorter(role), Flaw::Longer(role)]);
    }
    vec![
        question_flaws(),
        vec![Flaw::Point, Flaw::EvenHalf(Role::Known)],
        no_runs,
        unmatched,
    ]
}

impl Flaw {
    /// The number that this flaw gets.
    fn number(self) -> Refusal {
        match self {
            Flaw::Part(fault, _) => fault.number(),
            Flaw::Length(_) => 3,
            Flaw::QuestionLength => 9,
            Flaw::Point | Flaw::EvenHalf(Role::Known) => 12,
            Flaw::TooMany => 13,
            Flaw::Number => 14,
            Flaw::EvenHalf(Role::Other) | Flaw::LongHalf(_) => 15,
            Flaw::HalfStart(_) | Flaw::HalfStep(_) => 15,
            Flaw::Shorter(_) | Flaw::Longer(_) | Flaw::Unmatched => 16,
            Flaw::TooLarge => 17,
            Flaw::Room => 18,
        }
    }

    /// When the flaw is put in: what a later one looks at must be there before it.
    fn turn(self) -> u8 {
        match self {
            Flaw::Number => 0,
            Flaw::Shorter(_) | Flaw::Longer(_) | Flaw::Unmatched => 1,
            Flaw::LongHalf(_) | Flaw::HalfStart(_) | Flaw::HalfStep(_) => 2,
            Flaw::EvenHalf(_) => 3,
            Flaw::QuestionLength | Flaw::Part(_, 3 | 4) | Flaw::Length(3) => 4,
            Flaw::Part(..) | Flaw::Length(_) => 5,
            _ => 6,
        }
    }

    /// Puts the flaw into a call; false if this call has no place for it.
    fn make(self, call: &mut Call, random: &mut Random) -> bool {
        match self {
            Flaw::Part(fault, record) => return fault.make(&mut call.book, record, random),
            Flaw::Length(record) => {
                let body = unfit_body(&call.book, record, random);
                call.book.set_body(record, body);
            }
            Flaw::QuestionLength => {
                let body = unfit_question(random, &call.book.records[4].body);
                call.book.set_body(4, body);
            }
            Flaw::Number => {
                let count = count_both(&call.logged().log).unwrap_or(65_536);
                call.number = beyond(random, count);
            }
            Flaw::Unmatched => return unmatch(random, &call.book, &mut call.halves),
            Flaw::Shorter(role) => {
                let place = call.place(role);
                return drop_steps(random, &mut call.halves[place]);
            }
            // The call was made so, or point and output are set when all else is known.
            Flaw::TooMany | Flaw::TooLarge | Flaw::Point | Flaw::Room => (),
            Flaw::EvenHalf(role) | Flaw::LongHalf(role) | Flaw::HalfStart(role) => {
                damage_half(self, role, call, random)
            }
            Flaw::HalfStep(role) | Flaw::Longer(role) => damage_half(self, role, call, random),
        }
        true
    }
}

/// A question that no length check lets pass.
fn unfit_question(random: &mut Random, question: &[u8]) -> Vec<u8> {
    match random.below(5) {
        0 => Vec::new(),
        1 => [question, &[0]].concat(),
        2 => question[..question.len() - 1].to_vec(),
        // A sound formula, but not a question: 65 nodes, and as many as a quotient may have.
        3 => times(64, [2, 0], &[0, 0]),
        _ => times(QUOTIENT_NODES - 1, [2, 0], &[0, 0]),
    }
}

/// An output shorter than the answer; where there is none, shorter than the largest.
fn short_room(random: &mut Random, by: By, call: &Call) -> usize {
    let answer = match by {
        By::Number => numbered_both(&call.logged(), call.number, call.stop, LARGEST),
        _ => quotient_both(&call.given(), call.stop, LARGEST),
    };
    let exact = answer.map_or(LARGEST, |quotient| quotient.len());
    let any = random.below(exact);
    *random.pick(&[exact - 1, exact - 1, any, 0])
}

/// Puts a flaw of one half alone into it.
fn damage_half(flaw: Flaw, role: Role, call: &mut Call, random: &mut Random) {
    let place = call.place(role);
    let half = &mut call.halves[place];
    match flaw {
        Flaw::EvenHalf(_) => change_parity(random, half),
        Flaw::LongHalf(_) => *half = long_half(random, half[0]),
        Flaw::HalfStart(_) => half[0] = random.byte(call.book.records[1 + place].body[0], 255),
        Flaw::HalfStep(_) => break_step(random, &call.book, &mut call.halves, place),
        Flaw::Longer(_) => add_idles(random, half),
        other => unreachable!("{other:?} is about more than one half"),
    }
}

/// A call with all these flaws.
fn flawed(random: &mut Random, by: By, flaws: &[Flaw]) -> Call {
    let size = Size {
        too_many: flaws.contains(&Flaw::TooMany),
        too_large: flaws.contains(&Flaw::TooLarge),
    };
    let mut in_turn = flaws.to_vec();
    in_turn.sort_by_key(|flaw| flaw.turn());
    loop {
        let mut call = Call::random(random, size);
        if in_turn.iter().all(|flaw| flaw.make(&mut call, random)) {
            set_point(random, &mut call, by, flaws.contains(&Flaw::Point));
            if flaws.contains(&Flaw::Room) {
                call.room = short_room(random, by, &call);
            }
            return call;
        }
    }
}

/// Puts the point beyond what the call judges it by, near or far, or lets it be one of its points.
fn set_point(random: &mut Random, call: &mut Call, by: By, is_beyond: bool) {
    let steps = call.steps(by);
    let far = steps + random.from_to(1, 300);
    call.stop.point = match is_beyond {
        true => *random.pick(&[steps + 1, steps + 1, far, steps + (1 << 32), usize::MAX]),
        false => random.from_to(0, steps),
    };
}

/// The number that a call gets.
fn ask(by: By, call: &Call) -> Refusal {
    match by {
        By::Halves => number_of(&quotient_both(&call.given(), call.stop, call.room)),
        By::Number => number_of(&numbered_both(
            &call.logged(),
            call.number,
            call.stop,
            call.room,
        )),
        By::Office => number_of(&office_both(&call.given(), call.stop)),
    }
}

/// Demands the first flaw's number of a call with these flaws, given in the order judged.
fn gives(tally: &mut Tally, random: &mut Random, by: By, flaws: &[Flaw]) {
    let call = flawed(random, by, flaws);
    let number = flaws[0].number();
    assert_eq!(ask(by, &call), number, "{flaws:?} {by:?} in {call:?}");
    tally.note(number);
}

/// All three calls.
const CALLS: [By; 3] = [By::Halves, By::Number, By::Office];

/// The sound calls that are damaged below are answered, or refused for their size alone.
#[test]
fn sound_calls_are_answered() {
    let mut random = Random::new(191);
    for round in 0..400 {
        let (too_many, too_large) = (round % 2 == 1, round / 2 % 2 == 1);
        let size = Size {
            too_many,
            too_large,
        };
        let call = Call::random(&mut random, size);
        let by_halves = if too_large { 17 } else { 0 };
        let by_number = if too_many { 13 } else { by_halves };
        let numbers = CALLS.map(|by| ask(by, &call));
        assert_eq!(numbers, [by_halves, by_number, by_halves], "{size:?}");
    }
}

/// Each flaw alone gets its number.
#[test]
fn each_flaw_alone() {
    let mut tally = Tally::new("quotients and line offices refused for one flaw");
    let mut random = Random::new(192);
    for by in CALLS {
        for flaw in flaws_of(by).into_iter().flatten() {
            for _ in 0..100 {
                gives(&mut tally, &mut random, by, &[flaw]);
            }
        }
    }
    tally.saw_exactly(&[3, 4, 5, 6, 7, 8, 9, 10, 12, 13, 14, 15, 16, 17, 18]);
}

/// Two flaws at once: the argument that is judged first gives the number.
#[test]
fn every_pair_of_flaws() {
    let mut tally = Tally::new("quotients and line offices refused for two flaws at once");
    let mut random = Random::new(193);
    for by in CALLS {
        for flaws in pairs(&flaws_of(by)) {
            for _ in 0..12 {
                gives(&mut tally, &mut random, by, &flaws);
            }
        }
    }
    tally.saw_exactly(&[3, 4, 5, 6, 7, 8, 9, 10, 12, 13, 14, 15, 16, 17]);
}

/// From one argument on, all are faulty: the first of them gives the number.
#[test]
fn everything_faulty_from_one_argument_on() {
    let mut tally = Tally::new("quotients and line offices with all later arguments faulty");
    let mut random = Random::new(194);
    for by in CALLS {
        let flaws = flaws_of(by);
        for from in 0..flaws.len() {
            for _ in 0..60 {
                let some: Vec<Flaw> = flaws[from..].iter().map(|f| *random.pick(f)).collect();
                gives(&mut tally, &mut random, by, &some);
            }
        }
    }
    tally.saw_exactly(&[3, 4, 5, 6, 7, 8, 9, 10, 12, 13, 14, 15, 16, 17, 18]);
}

/// Both halves no runs at once: 15 all the same.
#[test]
fn two_halves_that_are_no_runs() {
    let mut tally = Tally::new("quotients by two halves that are no runs");
    let mut random = Random::new(195);
    let of = |role| {
        [
            Flaw::LongHalf(role),
            Flaw::HalfStart(role),
            Flaw::HalfStep(role),
        ]
    };
    for flaws in pairs(&[of(Role::Known).to_vec(), of(Role::Other).to_vec()]) {
        for by in [By::Halves, By::Office] {
            for _ in 0..20 {
                gives(&mut tally, &mut random, by, &flaws);
            }
        }
    }
    tally.saw_exactly(&[15]);
}

/// Every k on case A: 4 over 15, and below it the labels that it gives.
#[test]
fn every_k() {
    let mut tally = Tally::new("quotients on case A with every k");
    for k in 0..=255 {
        let log = Log {
            k,
            left: vec![2, 0, 1, 1, 0, 3, 1],
            right: vec![2, 0, 2, 1, 0, 4, 1],
            run: vec![0, 0, 0, 1, 1],
        };
        let question = vec![6, 0, 0, 0];
        let logged = Logged { log, question };
        let given = logged.with([vec![0, 3, 1], vec![0, 4, 1]]);
        let expected = match k {
            0 | 1 => 5,
            2..=15 => 0,
            _ => 4,
        };
        let stop = Stop { side: 2, point: 1 };
        let numbers = [
            number_of(&quotient_both(&given, stop, 4)),
            number_of(&numbered_both(&logged, 1, stop, 5)),
            number_of(&office_both(&given, stop)),
        ];
        assert_eq!(numbers, [expected; 3], "k {k}");
        tally.note(expected);
    }
    tally.saw_exactly(&[0, 4, 5]);
}

/// Questions at their limits, each with its number: 1 to 64 nodes, though a verdict's formula may have more, and at
/// most four nested forwards.
fn limits() -> Vec<(Vec<u8>, Refusal)> {
    let nots = |count| times(count, [2, 0], &[0, 0]);
    let forwards = |count| times(count, [7, 0], &[0, 0]);
    let ands = |nodes: usize| times(nodes / 2, [3, 0], &[0, 0].repeat(nodes / 2 + 1));
    vec![
        (vec![], 9),
        (vec![0], 9),
        (vec![0, 0], 0),
        (vec![0, 0, 0], 9),
        (nots(62), 0),
        (nots(63), 0),
        (nots(64), 9),
        (nots(4095), 9),
        (ands(63), 0),
        (ands(65), 9),
        (forwards(4), 0),
        (forwards(5), 10),
        (forwards(63), 10),
        (forwards(64), 9),
        (vec![5, 2, 0, 0], 0),
        (vec![5, 3, 0, 0], 9),
        (vec![6, 3, 0, 0], 9),
        (vec![9, 0], 9),
        (vec![0, 1], 9),
    ]
}

/// Each limit of a question in all three calls.
#[test]
fn question_limits() {
    let mut tally = Tally::new("questions at their limits");
    for (question, expected) in limits() {
        let log = Log {
            k: 1,
            left: vec![1, 0, 0, 0],
            right: vec![1, 0, 1, 0],
            run: vec![0, 0, 0, 0, 0],
        };
        let logged = Logged { log, question };
        let given = logged.with([vec![0, 0, 0], vec![0, 255, 0]]);
        for side in [0, 1, 2] {
            let stop = Stop { side, point: 1 };
            let numbers = [
                number_of(&quotient_both(&given, stop, LARGEST)),
                number_of(&numbered_both(&logged, 0, stop, LARGEST)),
                number_of(&office_both(&given, stop)),
            ];
            assert_eq!(numbers, [expected; 3], "{:?}", logged.question);
            tally.note(expected);
        }
    }
    tally.saw_exactly(&[0, 9, 10]);
}
