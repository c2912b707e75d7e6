//! Runs the engine's program and holds what it prints to the plain sheet.

use std::env;
use std::io::{self, Read, Write};
use std::path::{Path, PathBuf};
use std::process::{Child, Command, ExitStatus, Stdio};
use std::sync::mpsc;
use std::thread;
use std::time::{Duration, Instant};

use reference::casebook::LONGEST;
use reference::sheet::{sheet, write_sheet};

/// A program that takes longer hangs.
const PATIENCE: Duration = Duration::from_secs(30);
/// The sheets of casebooks with at most so many lines are also found line by line.
const FEW_LINES: usize = 40;

/// The root of the repository.
pub fn root() -> PathBuf {
    Path::new(env!("CARGO_MANIFEST_DIR")).join("../..")
}

/// Where the engine's program lies.
pub fn path() -> PathBuf {
    let path = match env::var_os("YENUSLAP_SHEET") {
        Some(path) => PathBuf::from(path),
        None => root().join("target/bin/sheet"),
    };
    assert!(path.exists(), "no sheet program at {}", path.display());
    path
}

/// The program with its standard input and output given by pipes.
pub fn start() -> Child {
    let mut command = Command::new(path());
    command.stdin(Stdio::piped()).stdout(Stdio::piped());
    command.spawn().expect("the program starts")
}

/// Waits for the program's end; one that hangs is killed and is a failure.
pub fn wait(child: &mut Child) -> ExitStatus {
    let begin = Instant::now();
    loop {
        if let Some(status) = child.try_wait().unwrap() {
            return status;
        }
        if begin.elapsed() > PATIENCE {
            child.kill().unwrap();
            panic!("the program hangs");
        }
        thread::sleep(Duration::from_micros(100));
    }
}

/// Reads all that the program prints and waits for its end; one that hangs is killed and is a failure.
pub fn finish(mut child: Child) -> (Vec<u8>, ExitStatus) {
    let mut stdout = child.stdout.take().unwrap();
    let (sender, printed) = mpsc::channel();
    thread::spawn(move || {
        let mut bytes = Vec::new();
        let read = stdout.read_to_end(&mut bytes).map(|_| bytes);
        sender.send(read)
    });
    match printed.recv_timeout(PATIENCE) {
        Ok(bytes) => (bytes.unwrap(), wait(&mut child)),
        Err(_) => {
            child.kill().unwrap();
            panic!("the program hangs");
        }
    }
}

/// Lends bytes to the program. It may have seen enough before it has read all of them.
pub fn lend(child: &mut Child, bytes: &[u8]) {
    let stdin = child.stdin.as_mut().unwrap();
    match stdin.write_all(bytes).and_then(|_| stdin.flush()) {
        Err(error) if error.kind() == io::ErrorKind::BrokenPipe => (),
        done => done.unwrap(),
    }
}

/// What the program prints for a casebook; it ends with status 0, refused or not.
pub fn printed(casebook: &[u8]) -> Vec<u8> {
    let mut child = start();
    lend(&mut child, casebook);
    drop(child.stdin.take());
    let (text, status) = finish(child);
    assert!(status.success(), "{status} for {}", hex(casebook));
    text
}

/// The plain sheet, by both functions where there are few lines.
pub fn plain(casebook: &[u8]) -> Vec<u8> {
    let mut text = Vec::new();
    write_sheet(casebook, &mut text).unwrap();
    if text.iter().filter(|byte| **byte == b'\n').count() <= FEW_LINES {
        assert!(sheet(casebook) == text, "{}", hex(casebook));
    }
    text
}

/// Demands that the program prints the plain sheet, and gives it.
pub fn agree(casebook: &[u8]) -> Vec<u8> {
    let expected = plain(casebook);
    same(casebook, &printed(casebook), &expected);
    expected
}

/// Demands the expected text, and else shows the first line that differs.
pub fn same(casebook: &[u8], printed: &[u8], expected: &[u8]) {
    if printed == expected {
        return;
    }
    let lines = |text: &[u8]| -> Vec<Vec<u8>> {
        let lines = text.split_inclusive(|byte| *byte == b'\n');
        lines.map(<[u8]>::to_vec).collect()
    };
    let (printed, expected) = (lines(printed), lines(expected));
    let line = (0..).find(|at| printed.get(*at) != expected.get(*at));
    let line = line.unwrap_or(0);
    let shown = |lines: &[Vec<u8>]| match lines.get(line) {
        Some(line) => format!("{:?}", String::from_utf8_lossy(line)),
        None => "no line".to_string(),
    };
    panic!(
        "line {line} of {} for {}: printed {}, expected {}",
        expected.len(),
        hex(casebook),
        shown(&printed),
        shown(&expected)
    );
}

/// Bytes in hexadecimal, for messages; not more than a sound casebook can have.
pub fn hex(bytes: &[u8]) -> String {
    let shown = &bytes[..bytes.len().min(LONGEST)];
    let digits: String = shown.iter().map(|byte| format!("{byte:02x}")).collect();
    format!("{digits} ({} bytes)", bytes.len())
}

/// What was seen in the sheets that were compared.
pub struct Seen {
    name: &'static str,
    pub sheets: usize,
    pub lines: usize,
    pub holding: usize,
    pub too_large: usize,
    /// Sheets that have lines with a quotient and lines without.
    pub mixed: usize,
    /// How often each number was the whole sheet.
    pub refused: [usize; 19],
}

impl Seen {
    pub fn new(name: &'static str) -> Seen {
        Seen {
            name,
            sheets: 0,
            lines: 0,
            holding: 0,
            too_large: 0,
            mixed: 0,
            refused: [0; 19],
        }
    }

    /// Compares the sheet of a casebook and counts what is in it.
    pub fn compare(&mut self, casebook: &[u8]) {
        self.note(&agree(casebook));
    }

    /// Counts what is in a sheet.
    pub fn note(&mut self, sheet: &[u8]) {
        self.sheets += 1;
        if let Some(number) = refusal(sheet) {
            self.refused[number] += 1;
            return;
        }
        let (mut lines, mut too_large) = (0, 0);
        for line in sheet.split_inclusive(|byte| *byte == b'\n') {
            lines += 1;
            too_large += usize::from(line.ends_with(b" 17 -\n"));
            self.holding += usize::from(line.ends_with(b" T\n"));
        }
        self.lines += lines;
        self.too_large += too_large;
        self.mixed += usize::from(too_large > 0 && too_large < lines);
    }

    /// Prints how much was compared.
    pub fn show(&self) {
        let given = self
            .refused
            .iter()
            .enumerate()
            .filter(|(_, times)| **times > 0);
        let refused: Vec<String> = given
            .map(|(number, times)| format!("R {number}: {times}"))
            .collect();
        println!(
            "compared {}: {} sheets, {} lines ({} hold, {} are 17), {}",
            self.name,
            self.sheets,
            self.lines,
            self.holding,
            self.too_large,
            refused.join(", ")
        );
    }

    /// Demands so many lines, of which a tenth hold and a tenth fail, and that nothing was refused.
    pub fn at_least(&self, lines: usize) {
        self.show();
        assert!(self.lines >= lines, "{} lines", self.lines);
        let failing = self.lines - self.holding - self.too_large;
        assert!(
            self.holding.min(failing) * 10 >= self.lines,
            "{} hold",
            self.holding
        );
        assert_eq!(self.refused, [0; 19]);
    }

    /// Demands that each of these numbers was the whole sheet so often.
    pub fn refused_at_least(&self, least: usize, numbers: &[usize]) {
        self.show();
        for number in numbers {
            assert!(
                self.refused[*number] >= least,
                "R {number} in {}",
                self.name
            );
        }
    }
}

/// The number that is the whole sheet, if it is one.
pub fn refusal(sheet: &[u8]) -> Option<usize> {
    let text = std::str::from_utf8(sheet).ok()?;
    text.strip_prefix("R ")?.strip_suffix('\n')?.parse().ok()
}
