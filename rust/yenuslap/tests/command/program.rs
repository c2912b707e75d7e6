//! Running the command with arguments and standard input.

use std::ffi::OsStr;
use std::io::Write;
use std::path::PathBuf;
use std::process::{Child, Command, Stdio};

/// What a run of the command gave.
#[derive(Clone, PartialEq, Eq, Debug)]
pub struct Ran {
    pub status: Option<i32>,
    pub out: Vec<u8>,
    pub err: String,
}

impl Ran {
    /// Standard output as text.
    pub fn text(&self) -> String {
        String::from_utf8_lossy(&self.out).into_owned()
    }
}

/// The root of the repository, where the examples of the help texts are run.
pub fn root() -> PathBuf {
    PathBuf::from(env!("CARGO_MANIFEST_DIR")).join("../..")
}

/// The command at the root of the repository, with these arguments and pipes.
pub fn command(arguments: &[impl AsRef<OsStr>]) -> Command {
    let mut command = Command::new(env!("CARGO_BIN_EXE_yenuslap"));
    command
        .args(arguments)
        .current_dir(root())
        .stdin(Stdio::piped())
        .stdout(Stdio::piped())
        .stderr(Stdio::piped());
    command
}

/// Lends bytes to a child's standard input and closes it; a child that has read enough may have closed it before.
pub fn lend(child: &mut Child, bytes: &[u8]) {
    if let Some(mut input) = child.stdin.take() {
        let _ = input.write_all(bytes);
    }
}

/// Runs the command with bytes on standard input.
pub fn run_with(arguments: &[impl AsRef<OsStr>], input: &[u8]) -> Ran {
    let mut child = command(arguments).spawn().expect("the command starts");
    lend(&mut child, input);
    let output = child.wait_with_output().expect("the command ends");
    Ran {
        status: output.status.code(),
        out: output.stdout,
        err: String::from_utf8_lossy(&output.stderr).into_owned(),
    }
}

/// Runs the command without input.
pub fn run(arguments: &[impl AsRef<OsStr>]) -> Ran {
    run_with(arguments, &[])
}

/// Demands status 0, this output, and nothing on standard error.
pub fn prints(arguments: &[&str], input: &[u8], expected: &str) {
    let ran = run_with(arguments, input);
    assert_eq!(ran.text(), expected, "{arguments:?}: {}", ran.err);
    assert_eq!(
        (ran.status, ran.err.as_str()),
        (Some(0), ""),
        "{arguments:?}"
    );
}

/// Demands a status, no output, and this complaint.
pub fn complains(arguments: &[&str], input: &[u8], status: i32, expected: &str) {
    let ran = run_with(arguments, input);
    assert_eq!(ran.err, format!("yenuslap: {expected}\n"), "{arguments:?}");
    assert_eq!(ran.status, Some(status), "{arguments:?}");
    assert_eq!(ran.text(), "", "{arguments:?}");
}
