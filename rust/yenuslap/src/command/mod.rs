//! The subcommands, and everything that they share.

mod aldebaran_faults;
mod aldebaran_line;
mod aldebaran_text;
mod answer;
mod arguments;
mod asked;
mod aut;
mod book;
mod check;
mod contents;
mod dot;
mod explain;
mod failure;
mod faults;
mod formula_faults;
mod half_faults;
mod halves;
mod help;
mod hex;
mod input;
mod join;
mod judge;
mod label_map;
mod lanes;
mod operators;
mod output;
mod quotient;
mod records;
mod repairs;
mod sheet;
mod show;
mod spelling;
mod split;
mod statement;
mod statement_parser;
mod table;
mod text_form;
mod text_parser;
mod tokens;
mod verdict;
mod words;
mod write;

use std::ffi::OsString;
use std::process::ExitCode;

use arguments::{Arguments, Flag};
use failure::{misused, Ending, Failure};
use output::Output;
use words::quoted;

/// A subcommand.
struct Subcommand {
    /// Its name.
    name: &'static str,
    /// Its options.
    flags: &'static [Flag],
    /// What it does.
    run: fn(&Arguments, &mut Output) -> Result<Ending, Failure>,
    /// Its help.
    help: &'static str,
}

/// Every subcommand has this option.
const HELP: Flag = Flag::plain("help").short('h');

/// The subcommands.
const SUBCOMMANDS: [Subcommand; 10] = [
    Subcommand {
        name: "check",
        flags: &[HELP],
        run: check::run,
        help: help::CHECK,
    },
    Subcommand {
        name: "show",
        flags: &[
            HELP,
            Flag::plain("all"),
            Flag::valued("splitting"),
            Flag::plain("dot"),
            Flag::plain("text"),
        ],
        run: show::run,
        help: help::SHOW,
    },
    Subcommand {
        name: "sheet",
        flags: &[HELP],
        run: sheet::run,
        help: help::SHEET,
    },
    Subcommand {
        name: "split",
        flags: &[HELP, Flag::valued("number"), Flag::plain("hex")],
        run: split::run,
        help: help::SPLIT,
    },
    Subcommand {
        name: "join",
        flags: &[
            HELP,
            Flag::valued("left"),
            Flag::valued("right"),
            Flag::plain("hex"),
        ],
        run: join::run,
        help: help::JOIN,
    },
    Subcommand {
        name: "verdict",
        flags: &[
            HELP,
            Flag::valued("point"),
            Flag::valued("formula"),
            Flag::valued("splitting"),
            Flag::valued("left"),
            Flag::valued("right"),
            Flag::valued("half").also("side"),
            Flag::plain("line-office"),
            Flag::valued("known"),
        ],
        run: verdict::run,
        help: help::VERDICT,
    },
    Subcommand {
        name: "quotient",
        flags: &[
            HELP,
            Flag::valued("splitting"),
            Flag::valued("left"),
            Flag::valued("right"),
            Flag::valued("known"),
            Flag::valued("point"),
            Flag::plain("hex"),
        ],
        run: quotient::run,
        help: help::QUOTIENT,
    },
    Subcommand {
        name: "write",
        flags: &[HELP, Flag::valued("output").short('o')],
        run: write::run,
        help: help::WRITE,
    },
    Subcommand {
        name: "table",
        flags: &[
            HELP,
            Flag::plain("left"),
            Flag::plain("right"),
            Flag::plain("dot"),
            Flag::plain("tidy"),
            Flag::valued("labels"),
            Flag::valued("output").short('o'),
        ],
        run: table::run,
        help: help::TABLE,
    },
    Subcommand {
        name: "aut",
        flags: &[
            HELP,
            Flag::plain("left"),
            Flag::plain("right"),
            Flag::valued("first"),
            Flag::valued("output").short('o'),
        ],
        run: aut::run,
        help: help::AUT,
    },
];

/// Runs the command and gives its exit status.
pub fn run(arguments: Vec<OsString>) -> ExitCode {
    let mut out = Output::new();
    let done = dispatch(&arguments, &mut out);
    // What was printed goes out before anything is said of it.
    let flushed = out.flush().map(|()| Ending::Fine);
    let report = |ended: Result<Ending, Failure>| ended.unwrap_or_else(|failure| failure.report());
    let ending = report(done).max(report(flushed));
    ExitCode::from(ending.status())
}

/// Tells why the command could not run, and gives its exit status.
pub fn failed(why: &str) -> ExitCode {
    let failure = Failure::Misused(why.to_string());
    ExitCode::from(failure.report().status())
}

/// Finds the subcommand and runs it.
fn dispatch(arguments: &[OsString], out: &mut Output) -> Result<Ending, Failure> {
    let Some((first, rest)) = arguments.split_first() else {
        return misused(format!("a subcommand is missing\n{}", help::USAGE));
    };
    match first.to_str() {
        Some("--help" | "-h") => print(out, help::ALL),
        Some("help") => print(out, help_on(rest)),
        Some("--version" | "-V") => print(out, &version()),
        _ => match SUBCOMMANDS
            .iter()
            .find(|subcommand| first == subcommand.name)
        {
            Some(subcommand) => run_one(subcommand, rest, out),
            None => misused(format!(
                "there is no subcommand {}; see yenuslap --help",
                quoted(&first.to_string_lossy())
            )),
        },
    }
}

/// The help on the subcommand that is named, else on all.
fn help_on(names: &[OsString]) -> &'static str {
    let named =
        |subcommand: &&Subcommand| names.first().is_some_and(|name| name == subcommand.name);
    SUBCOMMANDS
        .iter()
        .find(named)
        .map_or(help::ALL, |subcommand| subcommand.help)
}

/// Runs a subcommand, or prints its help.
fn run_one(
    subcommand: &Subcommand,
    arguments: &[OsString],
    out: &mut Output,
) -> Result<Ending, Failure> {
    let name = subcommand.name;
    let parsed = Arguments::parse(subcommand.flags, arguments);
    let done = parsed.and_then(|parsed| {
        if parsed.has("help") {
            print(out, subcommand.help)
        } else {
            (subcommand.run)(&parsed, out)
        }
    });
    done.map_err(|failure| match failure {
        Failure::Usage(text) => {
            Failure::Usage(format!("{name}: {text}; see yenuslap {name} --help"))
        }
        other => other,
    })
}

/// Prints a text.
fn print(out: &mut Output, text: &str) -> Result<Ending, Failure> {
    out.bytes(text.as_bytes())?;
    Ok(Ending::Fine)
}

/// The command's name and version.
fn version() -> String {
    format!("yenuslap {}\n", env!("CARGO_PKG_VERSION"))
}
