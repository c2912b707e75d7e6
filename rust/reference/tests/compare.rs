//! Compares the engine, through its wrapper, with the reference on seeded inputs, sound and damaged.
//! `cargo test --release -- --nocapture` also prints how many inputs of each kind were compared.

#[path = "compare/aldebaran_both.rs"]
mod aldebaran_both;
#[path = "compare/aldebaran_changes.rs"]
mod aldebaran_changes;
#[path = "compare/aldebaran_document.rs"]
mod aldebaran_document;
#[path = "compare/aldebaran_faults.rs"]
mod aldebaran_faults;
#[path = "compare/aldebaran_labels.rs"]
mod aldebaran_labels;
#[path = "compare/aldebaran_large.rs"]
mod aldebaran_large;
#[path = "compare/aldebaran_numbers.rs"]
mod aldebaran_numbers;
#[path = "compare/aldebaran_order.rs"]
mod aldebaran_order;
#[path = "compare/aldebaran_sound.rs"]
mod aldebaran_sound;
#[path = "compare/aldebaran_texts.rs"]
mod aldebaran_texts;
#[path = "compare/aldebaran_writing.rs"]
mod aldebaran_writing;
#[path = "compare/alone.rs"]
mod alone;
#[path = "compare/book.rs"]
mod book;
#[path = "compare/both.rs"]
mod both;
#[path = "compare/changes.rs"]
mod changes;
#[path = "compare/contents.rs"]
mod contents;
#[path = "compare/cutting.rs"]
mod cutting;
#[path = "compare/faults.rs"]
mod faults;
#[path = "compare/half_faults.rs"]
mod half_faults;
#[path = "compare/handmade.rs"]
mod handmade;
#[path = "compare/headers.rs"]
mod headers;
#[path = "compare/order.rs"]
mod order;
#[path = "compare/pairs.rs"]
mod pairs;
#[path = "compare/quotient_both.rs"]
mod quotient_both;
#[path = "compare/quotient_damaged.rs"]
mod quotient_damaged;
#[path = "compare/quotient_document.rs"]
mod quotient_document;
#[path = "compare/quotient_inputs.rs"]
mod quotient_inputs;
#[path = "compare/quotient_large.rs"]
mod quotient_large;
#[path = "compare/quotient_refused.rs"]
mod quotient_refused;
#[path = "compare/quotient_small.rs"]
mod quotient_small;
#[path = "compare/quotient_sound.rs"]
mod quotient_sound;
#[path = "compare/quotient_verdicts.rs"]
mod quotient_verdicts;
#[path = "compare/sheet_blocks.rs"]
mod sheet_blocks;
#[path = "compare/sheet_both.rs"]
mod sheet_both;
#[path = "compare/sheet_damaged.rs"]
mod sheet_damaged;
#[path = "compare/sheet_document.rs"]
mod sheet_document;
#[path = "compare/sheet_far.rs"]
mod sheet_far;
#[path = "sheets/inputs.rs"]
#[allow(dead_code)]
mod sheet_inputs;
#[path = "compare/sound.rs"]
mod sound;
#[path = "compare/splitting_both.rs"]
mod splitting_both;
#[path = "compare/splitting_counts.rs"]
mod splitting_counts;
#[path = "compare/splitting_damaged.rs"]
mod splitting_damaged;
#[path = "compare/splitting_document.rs"]
mod splitting_document;
#[path = "compare/splitting_join.rs"]
mod splitting_join;
#[path = "compare/splitting_logs.rs"]
mod splitting_logs;
#[path = "compare/splitting_refused.rs"]
mod splitting_refused;
#[path = "compare/splitting_small.rs"]
mod splitting_small;
#[path = "compare/splitting_sound.rs"]
mod splitting_sound;
#[path = "compare/verdict_both.rs"]
mod verdict_both;
#[path = "compare/verdict_damaged.rs"]
mod verdict_damaged;
#[path = "compare/verdict_document.rs"]
mod verdict_document;
#[path = "compare/verdict_large.rs"]
mod verdict_large;
#[path = "compare/verdict_refused.rs"]
mod verdict_refused;
#[path = "compare/verdict_small.rs"]
mod verdict_small;
#[path = "compare/verdict_sound.rs"]
mod verdict_sound;
#[path = "compare/worlds.rs"]
mod worlds;
#[path = "compare/writing.rs"]
mod writing;
