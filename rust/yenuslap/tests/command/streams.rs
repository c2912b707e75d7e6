//! Standard streams: closed pipes, full devices, terminals.

use std::fs::{self, OpenOptions};
use std::io::Read;
use std::path::PathBuf;
use std::process::{Command, Stdio};
use std::thread;
use std::time::Duration;

use crate::books::{case_a_with, CASE_A};
use crate::program::{command, lend, root, run_with};
use crate::sheet::long_book;

/// A reader that goes away ends a long sheet quietly.
#[test]
fn closed_pipe() {
    let mut child = command(&["sheet", "-"]).spawn().unwrap();
    lend(&mut child, &long_book());
    let mut out = child.stdout.take().unwrap();
    let mut first = [0; 13];
    out.read_exact(&mut first).unwrap();
    drop(out);
    let rest = child.wait_with_output().unwrap();
    assert_eq!(&first, b"0 0 F 0100 F\n");
    assert_eq!((rest.status.code(), rest.stderr.len()), (Some(0), 0));
}

/// A refusal is told, also where nobody reads the sheet, and also where nobody hears it.
#[test]
fn closed_pipe_and_refused() {
    for deaf in [false, true] {
        let mut child = command(&["sheet", "-"]).spawn().unwrap();
        drop(child.stdout.take());
        if deaf {
            drop(child.stderr.take());
        }
        lend(&mut child, &case_a_with(&[(4, 16)]));
        let ended = child.wait_with_output().unwrap();
        assert_eq!(ended.status.code(), Some(1));
        assert_eq!(ended.stderr.is_empty(), deaf);
    }
}

/// A device that takes no more is told.
#[test]
fn full_device() {
    for arguments in [
        ["sheet", "-"],
        ["check", "-"],
        ["show", "-"],
        ["split", "-"],
    ] {
        let full = OpenOptions::new().write(true).open("/dev/full").unwrap();
        let mut child = command(&arguments).stdout(full).spawn().unwrap();
        lend(&mut child, &CASE_A);
        let ended = child.wait_with_output().unwrap();
        let complaint = "yenuslap: standard output: No space left on device\n";
        assert_eq!(String::from_utf8_lossy(&ended.stderr), complaint);
        assert_eq!(ended.status.code(), Some(2));
    }
}

/// Input without end is not read to its end.
#[test]
fn endless_input() {
    let zeros = OpenOptions::new().read(true).open("/dev/zero").unwrap();
    let child = command(&["check", "-"]).stdin(zeros).spawn().unwrap();
    let ended = child.wait_with_output().unwrap();
    let line = "standard input: refused 2: kind 0 (bytes 2 to 3: 00 00) where the pairs record is due, which has kind 1\n";
    assert_eq!(String::from_utf8_lossy(&ended.stdout), line);
    assert_eq!(ended.status.code(), Some(1));
}

/// The deepest formula, with room for little stack: the command does not depend on the system's limit.
#[test]
fn little_stack() {
    let program = env!("CARGO_BIN_EXE_yenuslap");
    let deep = format!("{}true", "<-0> ".repeat(4_095));
    let verdict = format!("{program} verdict cases/a.casebook --point 1 --formula '{deep}'");
    let sheet = format!("{program} sheet cases/a.casebook");
    let mut shell = Command::new("sh");
    shell
        .args(["-c", &format!("ulimit -s 256; {verdict} && {sheet}")])
        .current_dir(root());
    let output = shell.output().unwrap();
    let lines = String::from_utf8_lossy(&output.stdout).into_owned();
    assert!(
        lines.starts_with("point 1: F\n0 0 F 0100 F\n"),
        "{output:?}"
    );
    assert_eq!(output.status.code(), Some(0));
}

/// How long a reader waits before it reads: longer than it takes until progress is shown.
const WAIT: Duration = Duration::from_millis(400);

/// What a shell command shows on a terminal that is read after a while, as `script` records it; nothing if there is no
/// `script` here.
fn on_a_terminal(shell: &str) -> Option<String> {
    let mut script = Command::new("script");
    script
        .args(["-qec", shell, "/dev/null"])
        .current_dir(root())
        .stdin(Stdio::null())
        .stdout(Stdio::piped());
    let Ok(child) = script.spawn() else {
        eprintln!("no `script` here: what a terminal shows is not tested");
        return None;
    };
    thread::sleep(WAIT);
    let output = child.wait_with_output().ok()?;
    Some(String::from_utf8_lossy(&output.stdout).into_owned())
}

/// A file with the long casebook, whose sheet has 15 points and 16,384 splittings; it goes when it is dropped.
struct LongFile(PathBuf);

impl LongFile {
    /// A file that no other test has.
    fn new(name: &str) -> LongFile {
        let path = std::env::temp_dir().join(format!("yenuslap-{name}-{}", std::process::id()));
        fs::write(&path, long_book()).unwrap();
        LongFile(path)
    }

    /// The shell command that prints its sheet.
    fn sheet(&self) -> String {
        let program = env!("CARGO_BIN_EXE_yenuslap");
        format!("{program} sheet {}", self.0.display())
    }
}

impl Drop for LongFile {
    fn drop(&mut self) {
        let _ = fs::remove_file(&self.0);
    }
}

/// Progress is shown on a terminal beside a slow sheet, counts towards the lines due, and is wiped.
#[test]
fn progress_on_a_terminal() {
    let file = LongFile::new("progress");
    let slow = format!("{} | (sleep 0.4; cat > /dev/null)", file.sheet());
    let Some(shown) = on_a_terminal(&slow) else {
        return;
    };
    assert!(shown.contains(" of 245760 lines"), "{shown:?}");
    let wiped = "\r\u{1b}[K";
    assert!(
        shown.starts_with(wiped) && shown.ends_with(wiped),
        "{shown:?}"
    );
    assert!(!shown.contains('\n'));
}

/// A short sheet shows none, and neither does a slow one that goes to the terminal itself.
#[test]
fn no_progress_within_the_sheet() {
    let file = LongFile::new("no-progress");
    let Some(shown) = on_a_terminal(&file.sheet()) else {
        return;
    };
    assert_eq!(shown.lines().count(), 245_760);
    assert!(!shown.contains('\u{1b}'));
    let program = env!("CARGO_BIN_EXE_yenuslap");
    let short = on_a_terminal(&format!("{program} sheet cases/a.casebook | cat"));
    let short = short.unwrap_or_default();
    assert_eq!(short.lines().count(), 4);
    assert!(!short.contains('\u{1b}'), "{short:?}");
}

/// A pipe gets no progress, however slow its sheet is.
#[test]
fn no_progress_on_a_pipe() {
    let mut child = command(&["sheet", "-"]).spawn().unwrap();
    lend(&mut child, &long_book());
    thread::sleep(WAIT);
    let ended = child.wait_with_output().unwrap();
    assert_eq!(
        ended.stdout.iter().filter(|byte| **byte == b'\n').count(),
        245_760
    );
    assert_eq!(String::from_utf8_lossy(&ended.stderr), "");
}

/// A casebook's bytes are not printed to a terminal, unless that is wanted.
#[test]
fn bytes_on_a_terminal() {
    let program = env!("CARGO_BIN_EXE_yenuslap");
    let text = "pairs 0\\nleft 1\\nright 1\\nlog 0 0\\nquestion true";
    let write =
        |options: &str| on_a_terminal(&format!("printf '{text}' | {program} write - {options}"));
    let (Some(refused), Some(wanted)) = (write(""), write("-o -")) else {
        return;
    };
    let complaint = "yenuslap: write: a casebook is no text for a terminal: name a file with -o, or -o - to print it anyway; see yenuslap write --help";
    assert_eq!(refused.trim_end(), complaint);
    assert!(wanted.starts_with("\u{3}\0\u{1}\0\0"), "{wanted:?}");
    let piped = run_with(&["write", "-"], text.replace("\\n", "\n").as_bytes());
    assert_eq!(piped.out.len(), 5 + 5 + 5 + 6 + 6);
}
