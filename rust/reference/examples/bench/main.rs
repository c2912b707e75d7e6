//! Times the engine and the reference on the same inputs in one run. Both do the whole call from bytes, with all
//! checks.
//! To add benches, write a module like `verdicts` that gives groups of them and name it in `all_groups`.
//! Words given as arguments choose the benches whose group or text holds one of them.

mod aldebaran;
mod inputs;
mod quotients;
mod sheets;
mod splittings;
mod timing;
mod verdicts;

use std::env;
use std::thread;

use timing::Group;

/// Every group of benches, in the order printed.
fn all_groups() -> Vec<Group> {
    let mut groups = verdicts::groups();
    groups.extend(splittings::groups());
    groups.extend(quotients::groups());
    groups.extend(aldebaran::groups());
    groups
}

fn main() {
    let words: Vec<String> = env::args().skip(1).collect();
    // The reference reads, judges and drops trees by recursion, and formulas may be 4,096 nodes deep.
    let thread = thread::Builder::new().stack_size(256 << 20);
    let run = move || {
        timing::run(all_groups(), &words);
        sheets::run(&words);
    };
    thread.spawn(run).unwrap().join().unwrap();
}
