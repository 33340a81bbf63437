//! The command line, read by a command's line of the table.

use super::nearest::hint;
use super::table::{Command, Opt};
use crate::say::failure::Failure;
use crate::say::shown;
use lexopt::{Arg, Parser};
use std::collections::HashMap;
use std::ffi::{OsStr, OsString};
use std::path::Path;

/// The words and options that were given.
pub struct Args {
    command: &'static Command,
    words: Vec<OsString>,
    options: HashMap<&'static str, OsString>,
}

fn usage<T>(command: &Command, what: String) -> Result<T, Failure> {
    let what = if what.ends_with(['?', '.']) { what } else { what + "." };
    Err(Failure::Usage(format!("{what} `rinzo {} --help` says more", command.name)))
}

/// Reads the words after the command's name; none where help is asked for.
pub fn parse(command: &'static Command, given: &[OsString]) -> Result<Option<Args>, Failure> {
    let mut args = Args { command, words: Vec::new(), options: HashMap::new() };
    let mut parser = Parser::from_args(given.to_vec());
    while let Some(arg) = next(&mut parser)? {
        match arg {
            Found::Word(word) => args.words.push(word),
            Found::Option(name) if name == "help" => return Ok(None),
            Found::Option(name) => args.option(&name, &mut parser)?,
            // a number below zero is a word, if a wrong one
            Found::Short(letter) if letter.is_ascii_digit() => {
                let mut word = OsString::from(format!("-{letter}"));
                word.push(parser.optional_value().unwrap_or_default());
                args.words.push(word);
            }
            Found::Short(letter) => {
                let what =
                    format!("-{letter} is no option of {}; a word that begins with - goes after --", command.name);
                return usage(command, what);
            }
        }
    }
    args.count_words()?;
    Ok(Some(args))
}

/// What comes next on the command line.
enum Found {
    Word(OsString),
    Option(String),
    Short(char),
}

fn next(parser: &mut Parser) -> Result<Option<Found>, Failure> {
    let found = match parser.next() {
        Ok(None) => return Ok(None),
        Ok(Some(Arg::Value(word))) => Found::Word(word),
        Ok(Some(Arg::Long(name))) => Found::Option(name.to_string()),
        Ok(Some(Arg::Short('h'))) => Found::Option("help".to_string()),
        Ok(Some(Arg::Short(letter))) => Found::Short(letter),
        Err(error) => return Err(Failure::Usage(error.to_string())),
    };
    Ok(Some(found))
}

impl Args {
    /// Takes `--name`, `--name value` or `--name=value`.
    fn option(&mut self, name: &str, parser: &mut Parser) -> Result<(), Failure> {
        let Some(option) = self.command.all_options().find(|option| option.name == name) else {
            let near = hint(name, "--", self.command.all_options().map(|option| option.name));
            return usage(self.command, format!("--{name} is no option of {}{near}", self.command.name));
        };
        let value = self.value_of(option, parser)?;
        if self.options.insert(option.name, value).is_some() {
            return usage(self.command, format!("--{name} is given twice"));
        }
        Ok(())
    }

    fn value_of(&self, option: &Opt, parser: &mut Parser) -> Result<OsString, Failure> {
        let Some(what) = option.value else {
            return match parser.optional_value() {
                None => Ok(OsString::new()),
                Some(_) => usage(self.command, format!("--{} takes no value", option.name)),
            };
        };
        match parser.value() {
            Ok(value) => Ok(value),
            Err(_) => usage(self.command, format!("--{} wants a value, {what}", option.name)),
        }
    }

    fn count_words(&self) -> Result<(), Failure> {
        let wanted = self.command.words;
        let needed = wanted.iter().filter(|word| !word.starts_with('[')).count();
        let repeats = wanted.last().is_some_and(|word| word.ends_with("..."));
        if let Some(extra) = self.words.get(wanted.len())
            && !repeats
        {
            return usage(
                self.command,
                format!("{} is one word too many: rinzo {}", shown::name(Path::new(extra)), self.command.usage()),
            );
        }
        if self.words.len() < needed {
            return usage(
                self.command,
                format!(
                    "{} is missing: rinzo {}",
                    wanted[self.words.len()].trim_end_matches('.'),
                    self.command.usage()
                ),
            );
        }
        Ok(())
    }

    /// The word at this place, as a path.
    pub fn path(&self, place: usize) -> &Path {
        Path::new(&self.words[place])
    }

    /// The word at this place, if it is given.
    pub fn word(&self, place: usize) -> Option<&OsStr> {
        self.words.get(place).map(OsString::as_os_str)
    }

    /// All words, as paths.
    pub fn paths(&self) -> impl Iterator<Item = &Path> {
        self.words.iter().map(Path::new)
    }

    /// The word at this place, as a slot's number.
    pub fn slot(&self, place: usize) -> Result<u64, Failure> {
        let word = &self.words[place];
        whole(word).or_else(|why| usage(self.command, format!("SLOT is a whole number from 1 on, and {why}")))
    }

    /// Whether a flag is given.
    pub fn has(&self, name: &str) -> bool {
        self.options.contains_key(name)
    }

    /// The value of an option.
    pub fn value(&self, name: &str) -> Option<&OsStr> {
        self.options.get(name).map(OsString::as_os_str)
    }

    /// The value of an option, read by a function that answers none for what it cannot read.
    pub fn read<T>(&self, name: &str, what: &str, read: impl Fn(&str) -> Option<T>) -> Result<Option<T>, Failure> {
        let Some(value) = self.value(name) else { return Ok(None) };
        match value.to_str().and_then(read) {
            Some(value) => Ok(Some(value)),
            None => {
                let value = shown::name(Path::new(value));
                usage(self.command, format!("--{name} wants {what}, and {value} is none"))
            }
        }
    }

    /// The value of an option that is a count.
    pub fn count(&self, name: &str) -> Result<Option<u64>, Failure> {
        let Some(value) = self.value(name) else { return Ok(None) };
        let count =
            whole(value).or_else(|why| usage(self.command, format!("--{name} wants a whole number, and {why}")));
        count.map(Some)
    }

    /// A wrong use that only the command can see.
    pub fn wrong<T>(&self, what: &str) -> Result<T, Failure> {
        usage(self.command, what.to_string())
    }
}

/// A whole number, or why a word is none.
fn whole(word: &OsStr) -> Result<u64, String> {
    let text = shown::name(Path::new(word));
    let is_digits = |text: &str| !text.is_empty() && text.bytes().all(|digit| digit.is_ascii_digit());
    match text.strip_prefix('-') {
        Some(digits) if is_digits(digits) => Err(format!("{text} is below zero")),
        _ if !is_digits(&text) => Err(format!("{text} is none")),
        _ => text.parse().map_err(|_| format!("{text} is larger than any number of slots or records")),
    }
}
