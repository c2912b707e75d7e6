//! Standard input that comes in pieces, standard output that takes no more.

use std::fs::{self, File, OpenOptions};
use std::io::Read;
use std::os::unix::process::ExitStatusExt;
use std::process::{Command, ExitStatus, Stdio};
use std::thread;
use std::time::Duration;

use crate::inputs::{back_along, looping, TRUE};
use crate::program::{finish, lend, path, plain, root, same, start, wait};
use reference::generate::{many_ways_parts, Shape};
use reference::random::Random;

/// The signal of a broken pipe.
const PIPE: i32 = 13;

/// A casebook with a sheet of some 15 megabytes.
fn large() -> Vec<u8> {
    let labels = [1; 15];
    looping(&labels, back_along(&labels, 3, &TRUE)).to_bytes()
}

/// Case A.
fn case_a() -> Vec<u8> {
    fs::read(root().join("cases/a.casebook")).unwrap()
}

/// Lends a casebook in pieces of these lengths, again and again, with a pause after each.
fn in_pieces(casebook: &[u8], lengths: &[usize], pause: Duration) {
    let mut child = start();
    let mut rest = casebook;
    for length in lengths.iter().cycle() {
        let (piece, after) = rest.split_at(rest.len().min(*length));
        lend(&mut child, piece);
        thread::sleep(pause);
        rest = after;
        if rest.is_empty() {
            break;
        }
    }
    drop(child.stdin.take());
    let (text, status) = finish(child);
    assert!(status.success(), "{status}");
    same(casebook, &text, &plain(casebook));
}

/// A casebook that comes byte by byte, or in pieces that end inside headers and rows.
#[test]
fn input_in_pieces() {
    let mut random = Random::new(421);
    let millisecond = Duration::from_millis(1);
    in_pieces(&case_a(), &[1], millisecond);
    in_pieces(&case_a(), &[3, 1, 7], 5 * millisecond);
    for seed in 0..6 {
        let largest = many_ways_parts(&mut random, Shape::maximal(seed), 2).to_bytes();
        in_pieces(&largest, &[1000, 1, 823, 2], 2 * millisecond);
        in_pieces(&largest, &[random.from_to(30, 99)], millisecond);
        in_pieces(&[&largest[..], &[0; 300]].concat(), &[611], millisecond);
        in_pieces(&largest[..largest.len() - 1], &[764, 765], millisecond);
    }
}

/// Input and output are files; what stands in the output file before is kept, and the sheet comes behind it.
#[test]
fn files() {
    let folder = std::env::temp_dir().join(format!("yenuslap-sheets-{}", std::process::id()));
    fs::create_dir_all(&folder).unwrap();
    let (input, output) = (folder.join("casebook"), folder.join("sheet"));
    for casebook in [case_a(), large(), Vec::new()] {
        fs::write(&input, &casebook).unwrap();
        fs::write(&output, "before\n").unwrap();
        let appending = OpenOptions::new().append(true).open(&output).unwrap();
        let mut command = Command::new(path());
        command.stdin(File::open(&input).unwrap()).stdout(appending);
        assert!(wait(&mut command.spawn().unwrap()).success());
        let text = fs::read(&output).unwrap();
        same(
            &casebook,
            &text,
            &[b"before\n", &plain(&casebook)[..]].concat(),
        );
    }
    fs::remove_dir_all(&folder).unwrap();
}

/// A reader that takes its time gets the whole sheet.
#[test]
fn slow_reader() {
    let casebook = large();
    let mut child = start();
    lend(&mut child, &casebook);
    drop(child.stdin.take());
    let mut first = [0; 40_000];
    thread::sleep(Duration::from_millis(50));
    let stdout = child.stdout.as_mut().unwrap();
    stdout.read_exact(&mut first[..1]).unwrap();
    thread::sleep(Duration::from_millis(50));
    stdout.read_exact(&mut first[1..]).unwrap();
    thread::sleep(Duration::from_millis(50));
    let (rest, status) = finish(child);
    assert!(status.success());
    same(&casebook, &[&first[..], &rest].concat(), &plain(&casebook));
}

/// Demands that the program ended by itself or by the signal of a broken pipe, which is how programs end there.
fn ended(status: ExitStatus) {
    let signal = status.signal();
    assert!(signal.is_none() || signal == Some(PIPE), "{status}");
}

/// Nobody reads, from the start or after some bytes: the program ends.
#[test]
fn closed_output() {
    for casebook in [case_a(), large(), Vec::new()] {
        for wanted in [0, 1, 100_000] {
            let mut child = start();
            let mut stdout = child.stdout.take().unwrap().take(wanted);
            if wanted == 0 {
                drop(stdout);
                lend(&mut child, &casebook);
            } else {
                lend(&mut child, &casebook);
                drop(child.stdin.take());
                let mut read = Vec::new();
                stdout.read_to_end(&mut read).unwrap();
                assert!(plain(&casebook).starts_with(&read));
                drop(stdout);
            }
            drop(child.stdin.take());
            ended(wait(&mut child));
        }
    }
}

/// The program started by a shell that sets up its signals and outputs.
fn by_shell(script: &str, casebook: &[u8], output: Stdio) -> ExitStatus {
    let mut command = Command::new("sh");
    command.args(["-c", script]).arg(path());
    command.stdin(Stdio::piped()).stdout(output);
    let mut child = command.spawn().unwrap();
    drop(child.stdout.take());
    lend(&mut child, casebook);
    drop(child.stdin.take());
    wait(&mut child)
}

/// Demands that the program was started and ended by no signal; 126 and 127 say that the shell did not find it.
fn ended_by_itself(status: ExitStatus) {
    let code = status.code();
    assert!(code.is_some_and(|code| code < 126), "{status}");
}

/// A failed write comes back as an error, since the signal is ignored, the disk is full or there is no output at all: the
/// program ends by itself.
#[test]
fn failing_output() {
    for casebook in [case_a(), large(), Vec::new()] {
        let ignoring = by_shell("trap '' PIPE; exec \"$0\"", &casebook, Stdio::piped());
        ended_by_itself(ignoring);
        let full = OpenOptions::new().write(true).open("/dev/full").unwrap();
        let full = by_shell("exec \"$0\"", &casebook, full.into());
        ended_by_itself(full);
        let none = by_shell("exec \"$0\" >&-", &casebook, Stdio::null());
        ended_by_itself(none);
    }
}

/// No input at all, and arguments that mean nothing: the sheet of the empty casebook, and case A's; nothing on standard
/// error.
#[test]
fn no_input_and_needless_arguments() {
    let mut command = Command::new(path());
    let output = command.stdin(Stdio::null()).output().unwrap();
    assert_eq!(output.stdout, b"R 1\n");
    assert!(output.status.success() && output.stderr.is_empty());
    let file = File::open(root().join("cases/a.casebook")).unwrap();
    let mut command = Command::new(path());
    let output = command.args(["-", "17"]).stdin(file).output().unwrap();
    assert_eq!(output.stdout, plain(&case_a()));
    assert!(output.status.success() && output.stderr.is_empty());
}
