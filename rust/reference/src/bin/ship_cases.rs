//! Writes the shipped casebooks and their sheets into the folder given, `cases` at the root of the repository:
//! `cargo run --release -p reference --bin ship_cases -- ../cases`, or `make outputs` at the root. The sheets are found
//! line by line.

use std::env;
use std::fs;
use std::path::Path;

use reference::casebook::Parts;
use reference::sheet::sheet;

/// A casebook under a name that says what is in it.
type Case = (&'static str, Vec<u8>);

/// Bytes from hexadecimal; blanks are only for the eye.
fn unhex(text: &str) -> Vec<u8> {
    let digits: Vec<char> = text.chars().filter(|c| !c.is_whitespace()).collect();
    let byte = |pair: &[char]| u8::from_str_radix(&String::from_iter(pair), 16).unwrap();
    digits.chunks(2).map(byte).collect()
}

/// The casebook of k, the two tables, the log and the question.
fn book(k: u8, left: &str, right: &str, run: &str, question: &str) -> Vec<u8> {
    let [left, right, run, question] = [left, right, run, question].map(unhex);
    let parts = Parts {
        k,
        left,
        right,
        run,
        question,
    };
    parts.to_bytes()
}

/// Case A's records, with one of them (counted from 0) put in another's place.
fn case_a(record: usize, other: &str) -> Vec<u8> {
    let mut records = [
        "0300 0100 02",
        "0900 0200 02 000101 000301",
        "0900 0300 02 000201 000401",
        "0700 0400 0000 000101",
        "0600 0500 06000000",
    ];
    records[record] = other;
    unhex(&records.concat())
}

/// One state with a loop of label 1.
const LOOP: &str = "01 000100";
/// One state with a loop of each of the labels 1 to 8.
const EIGHT_LOOPS: &str = "01 000100 000200 000300 000400 000500 000600 000700 000800";

/// The same with a silent loop: one row too many.
const NINE_LOOPS: &str = "01 000000 000100 000200 000300 000400 000500 000600 000700 000800";

/// A casebook refused by each of the numbers 1 to 11, and a count refused by 13.
fn refused() -> Vec<Case> {
    let last = "0600 0500 06000000";
    vec![
        ("refused_1_ends_early", case_a(4, "0600 0500 0600")),
        (
            "refused_2_wrong_kind",
            case_a(1, "0900 0300 02 000101 000301"),
        ),
        (
            "refused_3_wrong_length",
            case_a(1, "0800 0200 02 000101 0003"),
        ),
        ("refused_4_sixteen_pairs", case_a(0, "0300 0100 10")),
        (
            "refused_5_label_out_of_range",
            case_a(1, "0900 0200 02 000101 000501"),
        ),
        (
            "refused_6_rows_fall",
            case_a(2, "0900 0300 02 000401 000201"),
        ),
        (
            "refused_7_ninth_row",
            book(4, NINE_LOOPS, LOOP, "0000", "0000"),
        ),
        (
            "refused_8_step_not_real",
            case_a(3, "0700 0400 0000 000100"),
        ),
        ("refused_9_two_trees", case_a(4, "0800 0500 0600 0000 0000")),
        (
            "refused_10_five_forwards",
            case_a(4, "0e00 0500 0500 0501 0700 0502 0500 0000"),
        ),
        ("refused_11_bytes_after", case_a(4, &format!("{last} 00"))),
        (
            "refused_13_sixteen_two_way_steps",
            book(
                1,
                LOOP,
                LOOP,
                &format!("0000 {}", "010000".repeat(16)),
                "0601 0000",
            ),
        ),
    ]
}

/// Looking back and ahead in the small.
fn small() -> Vec<Case> {
    let a = ["02 000101 000301", "02 000201 000401"];
    // The left goes round by 1, 3 and 0, the right by 2, 4 and 0; the silent steps have several ways.
    let round = [
        "03 000000 000101 000301 010000 010302 020000",
        "03 000000 000201 000401 010000 010402 020000",
    ];
    let around = "0000 000000 000101 000202 000002 000000 000101 000001";
    vec![
        ("a", case_a(4, "0600 0500 06000000")),
        ("loops", book(1, LOOP, LOOP, "0000 010000", "0601 0000")),
        ("no_steps", book(2, a[0], a[1], "0000", "0500 0000")),
        (
            "a_forward_by_2",
            book(2, a[0], a[1], "0000 000101", "0502 0000"),
        ),
        (
            "joint_idles",
            book(
                2,
                a[0],
                a[1],
                "0000 ff0000 ff0000 000101 ff0101",
                "0400 0800 0600 0000 0800 0800 0000",
            ),
        ),
        (
            "handshakes",
            book(
                2,
                round[0],
                round[1],
                around,
                "0600 0600 0400 0600 0000 0500 0000",
            ),
        ),
        (
            "not_and_or",
            book(
                2,
                round[0],
                round[1],
                around,
                "0300 0200 0600 0200 0100 0400 0600 0600 0000 0200 0500 0600 0000",
            ),
        ),
        (
            "back_by_idle",
            book(
                1,
                LOOP,
                LOOP,
                "0000 010000 ff0000 010000",
                "0400 0800 0000 0601 0800 0601 0000",
            ),
        ),
        (
            "loop_is_no_idle",
            book(
                1,
                LOOP,
                "01",
                "0000 010000 010000",
                "0300 0200 0800 0000 0601 0700 0800 0000",
            ),
        ),
        (
            "back_by_1_after_a_handshake_on_1",
            book(
                1,
                "02 000101",
                "02 000201",
                "0000 000101",
                "0400 0601 0000 0600 0000",
            ),
        ),
        (
            "nine_ways_of_one_step",
            book(
                15,
                "01 000000 000100 000300 000500 000700 000900 000b00 000d00",
                "01 000000 000200 000400 000600 000800 000a00 000c00 000e00",
                "0000 000000 000000",
                "0600 0600 0000",
            ),
        ),
    ]
}

/// Sizes at the edges.
fn at_the_edges() -> Vec<Case> {
    let two_way = |steps: usize| format!("0000 {}", "010000".repeat(steps));
    // The right leaves the state with eight loops by its ninth label at the second step.
    let leaves = "02 000100 000200 000300 000400 000500 000600 000700 000901";
    vec![
        (
            "largest_quotient_3734_nodes",
            book(
                4,
                "01",
                EIGHT_LOOPS,
                "0000",
                "0500 0500 0500 0200 0200 0000",
            ),
        ),
        (
            "too_large_4463_nodes",
            book(
                4,
                "01",
                EIGHT_LOOPS,
                "0000",
                "0500 0500 0500 0200 0200 0200 0000",
            ),
        ),
        (
            "too_large_at_some_points",
            book(
                5,
                LOOP,
                leaves,
                "0000 010000 090001 010001",
                &format!("0500 0500 0500 {} 0000", "0200".repeat(8)),
            ),
        ),
        (
            "too_large_in_some_splittings",
            book(
                4,
                LOOP,
                EIGHT_LOOPS,
                &two_way(3),
                "0200 0800 0500 0500 0500 0200 0200 0200 0000",
            ),
        ),
        (
            "nested_backs",
            book(
                1,
                LOOP,
                LOOP,
                &two_way(6),
                &format!("{} 0000", "0601".repeat(6)),
            ),
        ),
        (
            "twenty_nested_backs_and_idles",
            book(
                1,
                LOOP,
                LOOP,
                &format!("{} ff0000 {}", two_way(4), "010000 ff0000".repeat(3)),
                &format!("0400 0800 0000 {} 0000", "0601 0800".repeat(10)),
            ),
        ),
        (
            "four_forwards",
            book(
                2,
                "03 000001 000102 010300 020202",
                "02 000201 010400 010401",
                "0000 000201 040201",
                "0500 0700 0502 0500 0600 0000",
            ),
        ),
        (
            "question_of_64_nodes",
            book(
                1,
                LOOP,
                LOOP,
                &two_way(2),
                &format!("{} 0601 0000", "0200".repeat(62)),
            ),
        ),
        (
            "seven_two_way_steps",
            book(1, LOOP, LOOP, &two_way(7), "0601 0601 0601 0000"),
        ),
    ]
}

/// A machine of 64 states; from each, rows of these labels to other states.
fn states_64(labels: &[u8]) -> Vec<u8> {
    let mut table = vec![64];
    for from in 0..64u8 {
        for (label, place) in labels.iter().zip(1..) {
            table.extend([from, *label, (from + 7 * place) % 64]);
        }
    }
    table
}

/// Tables of 64 states, a log of 200 steps, and all fifteen pairs.
fn large() -> Vec<Case> {
    let (left, right) = (states_64(&[0, 1, 2, 29, 30]), states_64(&[0, 1, 2, 29, 30]));
    // Where labels lead: 0 by 7, 1 by 14, 2 by 21, 29 by 28, 30 by 35.
    let step = |run: &mut Vec<u8>, label: u8, left: u8, right: u8| {
        let [.., p, q] = run[..] else { unreachable!() };
        run.extend([label, (p + left) % 64, (q + right) % 64]);
    };
    let mut long = vec![5, 60];
    for _ in 0..50 {
        step(&mut long, 1, 14, 0);
        step(&mut long, 0, 28, 35);
        step(&mut long, 30, 0, 35);
        step(&mut long, 255, 0, 0);
    }
    let mut short = vec![63, 0];
    step(&mut short, 0, 14, 21);
    step(&mut short, 0, 7, 0);
    step(&mut short, 2, 0, 21);
    step(&mut short, 0, 35, 28);
    let parts = |run: &[u8], question: &str| Parts {
        k: 15,
        left: left.clone(),
        right: right.clone(),
        run: run.to_vec(),
        question: unhex(question),
    };
    let back = "0800 061e 0600 0601".repeat(7);
    vec![
        (
            "long_log_of_200_steps",
            parts(&long, &format!("{back} 0000")).to_bytes(),
        ),
        (
            "fifteen_pairs_and_64_states",
            parts(&short, "0400 0600 0602 0600 0000 0500 061d 0000").to_bytes(),
        ),
    ]
}

fn main() {
    let folder = env::args().nth(1).expect("the folder to write into");
    let folder = Path::new(&folder);
    fs::create_dir_all(folder).unwrap();
    let cases = [refused(), small(), at_the_edges(), large()].concat();
    for (name, casebook) in cases {
        let text = sheet(&casebook);
        println!(
            "{name}: {} lines, {} bytes",
            text.split(|b| *b == b'\n').count() - 1,
            text.len()
        );
        fs::write(folder.join(name).with_extension("casebook"), casebook).unwrap();
        fs::write(folder.join(name).with_extension("sheet"), text).unwrap();
    }
}
