//! `yenuslap write`: the text form turned into a casebook's bytes.

use std::io::{self, IsTerminal};

use yenuslap::{write_casebook, Casebook, Refusal, MOST_CASEBOOK};

use super::answer::answer;
use super::arguments::{usage, Arguments};
use super::failure::{misused, Ending, Failure};
use super::faults::{find_fault, Fault, Item, Part};
use super::input::{read_text, shown_name};
use super::output::Output;
use super::text_parser::{parse_text, Draft, Section};
use super::tokens::Place;

/// Reads the text and writes the casebook.
pub fn run(arguments: &Arguments, out: &mut Output) -> Result<Ending, Failure> {
    let file = arguments.file()?;
    let target = arguments.value("output");
    if target.is_none() && io::stdout().is_terminal() {
        return usage(
            "a casebook is no text for a terminal: name a file with -o, or -o - to print it anyway"
                .to_string(),
        );
    }
    let bytes = casebook_of(&shown_name(file), &read_text(file)?)?;
    out.deliver(target, &bytes)?;
    Ok(Ending::Fine)
}

/// The casebook that a text spells.
fn casebook_of(name: &str, text: &str) -> Result<Vec<u8>, Failure> {
    let draft = match parse_text(text) {
        Ok(draft) => draft,
        Err(error) => return misused(format!("{name}: {error}")),
    };
    let parts = parts_of(&draft);
    answer(MOST_CASEBOOK, |out| {
        let (left, right) = (parts.left, parts.right);
        write_casebook(parts.k, left, right, parts.run, parts.question, out)
    })
    .map_err(|refusal| refused(name, &draft, refusal))
}

/// The parts that a text has.
fn parts_of(draft: &Draft) -> Casebook<'_> {
    Casebook {
        k: draft.k,
        left: &draft.left.bytes,
        right: &draft.right.bytes,
        run: &draft.log.bytes,
        question: &draft.question.bytes,
    }
}

/// A refusal with the place in the text where the fault lies.
fn refused(name: &str, draft: &Draft, refusal: Refusal) -> Failure {
    let sentence = match find_fault(&parts_of(draft)) {
        Some(fault) => {
            let place = place_of(draft, &fault);
            let item = fault.part.item_name(fault.item);
            format!("{place}: {item}: {}", fault.sentence)
        }
        None => refusal.meaning().to_string(),
    };
    Failure::refused(name, refusal, &sentence)
}

/// Where a fault lies in the text.
fn place_of(draft: &Draft, fault: &Fault) -> Place {
    match fault.part {
        Part::Pairs => draft.pairs,
        Part::Left => place_in(&draft.left, fault.item),
        Part::Right => place_in(&draft.right, fault.item),
        Part::Log => place_in(&draft.log, fault.item),
        Part::Question => entry(&draft.question.places, fault.item).unwrap_or(draft.question_head),
    }
}

/// Where a piece of a section lies in the text.
fn place_in(section: &Section, item: Item) -> Place {
    entry(&section.entries, item).unwrap_or(section.head)
}

/// The place of an entry.
fn entry(places: &[Place], item: Item) -> Option<Place> {
    match item {
        Item::Entry(number) => places.get(number - 1).copied(),
        Item::Head | Item::Whole => None,
    }
}
