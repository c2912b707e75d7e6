//! Compares the sheets that the engine's program prints with those of the plain implementation, byte for byte.
//! The program is the one that the environment variable YENUSLAP_SHEET names, else `target/bin/sheet` at the root of the
//! repository. `cargo test --release --test sheets -- --nocapture` also prints how many casebooks of each kind were
//! compared.

#[path = "sheets/blocks.rs"]
mod blocks;
#[path = "compare/book.rs"]
#[allow(dead_code)]
mod book;
#[path = "sheets/damaged.rs"]
mod damaged;
#[path = "compare/faults.rs"]
#[allow(dead_code)]
mod faults;
#[path = "sheets/inputs.rs"]
mod inputs;
#[path = "sheets/program.rs"]
mod program;
#[path = "sheets/shipped.rs"]
mod shipped;
#[path = "sheets/sound.rs"]
mod sound;
#[path = "sheets/streams.rs"]
mod streams;
