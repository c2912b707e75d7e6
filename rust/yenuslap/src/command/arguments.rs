//! Options and operands of one subcommand.

use std::ffi::{OsStr, OsString};

use super::failure::Failure;
use super::words::quoted;

/// An option that a subcommand takes.
#[derive(Clone, Copy, PartialEq, Eq, Debug)]
pub struct Flag {
    /// Its long name, without the two hyphens.
    pub name: &'static str,
    /// Another long name, if it has one.
    pub also: Option<&'static str>,
    /// Its short name, if it has one.
    pub short: Option<char>,
    /// Does a value follow it?
    pub valued: bool,
}

impl Flag {
    /// An option that is there or not.
    pub const fn plain(name: &'static str) -> Flag {
        Flag {
            name,
            also: None,
            short: None,
            valued: false,
        }
    }

    /// An option with a value.
    pub const fn valued(name: &'static str) -> Flag {
        Flag {
            name,
            also: None,
            short: None,
            valued: true,
        }
    }

    /// The same option with another long name.
    pub const fn also(self, name: &'static str) -> Flag {
        Flag {
            also: Some(name),
            ..self
        }
    }

    /// The same option with a short name.
    pub const fn short(self, short: char) -> Flag {
        Flag {
            short: Some(short),
            ..self
        }
    }
}

/// What was given to a subcommand.
#[derive(Clone, PartialEq, Eq, Debug, Default)]
pub struct Arguments {
    given: Vec<(&'static str, OsString)>,
    /// Everything that is no option, in order.
    pub operands: Vec<OsString>,
}

impl Arguments {
    /// Takes the arguments behind a subcommand apart.
    pub fn parse(flags: &[Flag], arguments: &[OsString]) -> Result<Arguments, Failure> {
        let mut parsed = Arguments::default();
        let mut rest = arguments.iter();
        while let Some(argument) = rest.next() {
            if argument == "--" {
                parsed.operands.extend(rest.by_ref().cloned());
            } else if argument.as_encoded_bytes().starts_with(b"-") && argument != "-" {
                let (flag, value) = option(flags, argument)?;
                parsed.take(flag, value, &mut rest)?;
            } else {
                parsed.operands.push(argument.clone());
            }
        }
        Ok(parsed)
    }

    /// Notes an option, with the value given with it or else the next argument.
    fn take<'a>(
        &mut self,
        flag: Flag,
        value: Option<String>,
        rest: &mut impl Iterator<Item = &'a OsString>,
    ) -> Result<(), Failure> {
        let name = flag.name;
        if self.has(name) {
            return usage(format!("option --{name} is given twice"));
        }
        let value = match (flag.valued, value) {
            (true, Some(value)) => OsString::from(value),
            (true, None) => match rest.next() {
                Some(value) => value.clone(),
                None => return usage(format!("option --{name} needs a value")),
            },
            (false, Some(_)) => return usage(format!("option --{name} takes no value")),
            (false, None) => OsString::new(),
        };
        self.given.push((name, value));
        Ok(())
    }

    /// Was the option given?
    pub fn has(&self, name: &str) -> bool {
        self.given.iter().any(|(given, _)| *given == name)
    }

    /// The option's value as it came.
    pub fn value(&self, name: &str) -> Option<&OsStr> {
        let mut given = self.given.iter();
        given
            .find(|(given, _)| *given == name)
            .map(|(_, value)| value.as_os_str())
    }

    /// The option's value as text.
    pub fn text(&self, name: &str) -> Result<Option<&str>, Failure> {
        match self.value(name).map(OsStr::to_str) {
            Some(None) => usage(format!("option --{name} needs a value in UTF-8")),
            Some(Some(text)) => Ok(Some(text)),
            None => Ok(None),
        }
    }

    /// The option's value as a number.
    pub fn number(&self, name: &str) -> Result<Option<usize>, Failure> {
        let Some(text) = self.text(name)? else {
            return Ok(None);
        };
        let digits = !text.is_empty() && text.bytes().all(|byte| byte.is_ascii_digit());
        match text.parse() {
            Ok(number) if digits => Ok(Some(number)),
            _ => usage(format!(
                "option --{name} needs a number, not {}",
                quoted(text)
            )),
        }
    }

    /// The one file that a subcommand works on.
    pub fn file(&self) -> Result<&OsStr, Failure> {
        match &self.operands[..] {
            [file] => Ok(file),
            [] => usage("a file is missing (- is standard input)".to_string()),
            [_, second, ..] => usage(format!(
                "one file is enough: {}",
                quoted(&second.to_string_lossy())
            )),
        }
    }

    /// Refuses options that do not go together.
    pub fn not_both(&self, first: &str, second: &str) -> Result<(), Failure> {
        if self.has(first) && self.has(second) {
            usage(format!(
                "options --{first} and --{second} do not go together"
            ))
        } else {
            Ok(())
        }
    }

    /// Refuses an option without the one that it needs.
    pub fn needs(&self, option: &str, needed: &str) -> Result<(), Failure> {
        if self.has(option) && !self.has(needed) {
            usage(format!("option --{option} needs --{needed}"))
        } else {
            Ok(())
        }
    }
}

/// Finds the option that an argument names, and the value that the argument holds with it.
fn option(flags: &[Flag], argument: &OsStr) -> Result<(Flag, Option<String>), Failure> {
    let Some(text) = argument.to_str() else {
        return unknown(&argument.to_string_lossy());
    };
    if let Some(long) = text.strip_prefix("--") {
        let (name, value) = match long.split_once('=') {
            Some((name, value)) => (name, Some(value.to_string())),
            None => (long, None),
        };
        let named = |flag: &&Flag| flag.name == name || flag.also == Some(name);
        return match flags.iter().find(named) {
            Some(flag) => Ok((*flag, value)),
            None => unknown(&format!("--{name}")),
        };
    }
    let mut signs = text.chars().skip(1);
    let sign = signs.next();
    let value: String = signs.collect();
    match flags.iter().find(|flag| flag.short == sign) {
        Some(flag) if value.is_empty() => Ok((*flag, None)),
        Some(flag) => Ok((*flag, Some(value))),
        None => unknown(text),
    }
}

/// An option that the subcommand does not have.
fn unknown<T>(option: &str) -> Result<T, Failure> {
    usage(format!("unknown option {option}"))
}

/// Wrong options or operands.
pub fn usage<T>(text: String) -> Result<T, Failure> {
    Err(Failure::Usage(text))
}
