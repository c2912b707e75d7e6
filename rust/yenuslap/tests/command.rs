//! Runs the command and holds it to what documents 01 and 02 and its own promises say.

#[path = "command/aut.rs"]
mod aut;
#[path = "command/books.rs"]
mod books;
#[path = "command/check.rs"]
mod check;
#[path = "command/halves.rs"]
mod halves;
#[path = "command/help.rs"]
mod help;
#[path = "command/misuse.rs"]
mod misuse;
#[path = "command/places.rs"]
mod places;
#[path = "command/plain_places.rs"]
mod plain_places;
#[path = "command/program.rs"]
mod program;
#[path = "command/quotient.rs"]
mod quotient;
#[path = "command/random.rs"]
mod random;
#[path = "command/readme.rs"]
mod readme;
#[path = "command/sheet.rs"]
mod sheet;
#[path = "command/show.rs"]
mod show;
#[path = "command/streams.rs"]
mod streams;
#[path = "command/table.rs"]
mod table;
#[path = "command/text.rs"]
mod text;
#[path = "command/text_places.rs"]
mod text_places;
#[path = "command/tidy.rs"]
mod tidy;
#[path = "command/unnamed.rs"]
mod unnamed;
#[path = "command/verdict.rs"]
mod verdict;
#[path = "command/wrong_text.rs"]
mod wrong_text;
