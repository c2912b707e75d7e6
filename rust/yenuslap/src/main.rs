//! The command for people: casebooks checked, shown, written and marked. Every answer is the engine's.

mod command;

use std::process::ExitCode;
use std::thread;

/// The stack that the command runs on, whatever the system's limit is: a verdict nests as deep as its formula.
const STACK: usize = 16 << 20;

fn main() -> ExitCode {
    let command = || command::run(std::env::args_os().skip(1).collect());
    let started = thread::Builder::new().stack_size(STACK).spawn(command);
    let ended = started.map(|thread| thread.join());
    match ended {
        Ok(Ok(status)) => status,
        Ok(Err(_)) => command::failed("stopped by a defect of its own"),
        Err(_) => command::failed("there is no memory to start with"),
    }
}
