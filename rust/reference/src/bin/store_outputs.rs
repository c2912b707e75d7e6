//! Writes what the programs `crates/cases`, `crates/ground_cases` and `crates/sheet` are given and must print into the
//! repository whose root is named: `cargo run --release -p reference --bin store_outputs -- ..`, or `make outputs` at
//! the root.

use std::env;
use std::fs;
use std::path::Path;

use reference::stored::files;

fn main() {
    let root = env::args().nth(1).expect("the root of the repository");
    for (path, bytes) in files() {
        fs::write(Path::new(&root).join(path), &bytes).expect(path);
        println!("{path}: {} bytes", bytes.len());
    }
}
