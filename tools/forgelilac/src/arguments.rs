//! A command's arguments: options by name, operands by place, and the page that `--help` prints.

use crate::failure::{input, usage, Failure, Outcome};
use std::fmt::Write;
use std::io::Read;
use std::{fs, io};

/// An option of a command.
pub struct Choice {
    pub name: &'static str,
    /// What its value is, nothing for one without.
    pub value: Option<&'static str>,
    pub about: &'static str,
}

pub struct Command {
    pub name: &'static str,
    /// One line for each way to call it, behind its name.
    pub forms: &'static [&'static str],
    /// One line for the list of all commands.
    pub about: &'static str,
    pub details: &'static str,
    pub choices: &'static [Choice],
    pub run: fn(&Arguments) -> Result<Outcome, Failure>,
}

impl Command {
    pub fn help(&self) -> String {
        let mut page = String::new();
        for (at, form) in self.forms.iter().enumerate() {
            let _ = writeln!(page, "{}forgelilac {} {form}", if at == 0 { "usage: " } else { "       " }, self.name);
        }
        let _ = write!(page, "\n{}\n", self.details.trim_end());
        let left = |choice: &Choice| format!("--{} {}", choice.name, choice.value.unwrap_or("")).trim_end().to_owned();
        let width = self.choices.iter().map(|choice| left(choice).len()).max().unwrap_or(0).max("--help".len());
        page.push('\n');
        for choice in self.choices {
            let _ = writeln!(page, "  {:width$}  {}", left(choice), choice.about);
        }
        let _ = writeln!(page, "  {:width$}  this page", "--help");
        page
    }

    /// The arguments behind the command's name.
    pub fn read(&self, words: &[String]) -> Result<Arguments, Failure> {
        let mut arguments = Arguments { command: self.name, operands: Vec::new(), given: Vec::new() };
        let mut words = words.iter();
        while let Some(word) = words.next() {
            if word == "--" {
                arguments.operands.extend(words.by_ref().cloned());
            } else if word == "--help" || word == "-h" {
                arguments.given.push(("help", String::new()));
            } else if let Some(option) = word.strip_prefix("--") {
                arguments.given.push(self.option(option, &mut words)?);
            } else if word.starts_with('-') && word.len() > 1 {
                return usage(format!("{}: no option {word}; options have two dashes", self.name));
            } else {
                arguments.operands.push(word.clone());
            }
        }
        Ok(arguments)
    }

    fn option<'a>(
        &self, option: &str, rest: &mut impl Iterator<Item = &'a String>,
    ) -> Result<(&'static str, String), Failure> {
        let (name, value) = match option.split_once('=') {
            Some((name, value)) => (name, Some(value.to_owned())),
            None => (option, None),
        };
        let Some(choice) = self.choices.iter().find(|choice| choice.name == name) else {
            return usage(format!("{}: no option --{name}", self.name));
        };
        match (choice.value, value) {
            (None, None) => Ok((choice.name, String::new())),
            (None, Some(_)) => usage(format!("{}: --{name} takes no value", self.name)),
            (Some(_), Some(value)) => Ok((choice.name, value)),
            (Some(what), None) => match rest.next() {
                Some(value) => Ok((choice.name, value.clone())),
                None => usage(format!("{}: --{name} lacks its value, {what}", self.name)),
            },
        }
    }
}

#[derive(Debug)]
pub struct Arguments {
    command: &'static str,
    pub operands: Vec<String>,
    given: Vec<(&'static str, String)>,
}

impl Arguments {
    pub fn has(&self, name: &str) -> bool {
        self.given.iter().any(|(given, _)| *given == name)
    }

    /// The value of an option, the last where it is given more than once.
    pub fn value(&self, name: &str) -> Option<&str> {
        self.given.iter().rev().find(|(given, _)| *given == name).map(|(_, value)| value.as_str())
    }

    /// The value of an option as a number within bounds.
    pub fn number(&self, name: &str, low: u32, high: u32) -> Result<Option<u32>, Failure> {
        let Some(value) = self.value(name) else { return Ok(None) };
        match number(value) {
            Some(number) if (low..=high).contains(&number) => Ok(Some(number)),
            _ => usage(format!("{}: --{name} is {value:?}, not a number from {low} to {high}", self.command)),
        }
    }

    /// That there are as many operands as one of these numbers.
    pub fn count(&self, allowed: std::ops::RangeInclusive<usize>, wanted: &str) -> Result<(), Failure> {
        if allowed.contains(&self.operands.len()) {
            return Ok(());
        }
        let given = match self.operands.len() {
            0 => "nothing is given".to_owned(),
            1 => "one word is given".to_owned(),
            count => format!("{count} words are given"),
        };
        usage(format!("{}: wanted is {wanted}; {given} (forgelilac {} --help)", self.command, self.command))
    }
}

/// A number without sign, blank or leading zero.
pub fn number(field: &str) -> Option<u32> {
    let digits = !field.is_empty() && field.bytes().all(|byte| byte.is_ascii_digit());
    let plain = digits && (field == "0" || !field.starts_with('0'));
    plain.then(|| field.parse().ok()).flatten()
}

/// The bytes of a file, or of standard input where its name is a dash.
pub fn bytes_of(path: &str) -> Result<Vec<u8>, Failure> {
    let read = if path == "-" {
        let mut bytes = Vec::new();
        io::stdin().lock().read_to_end(&mut bytes).map(|_| bytes)
    } else {
        fs::read(path)
    };
    read.or_else(|error| input(format!("cannot read {path}: {}", plain(&error))))
}

/// Writes a file that was asked for.
pub fn write_to(path: &str, text: &str) -> Result<(), Failure> {
    fs::write(path, text).or_else(|error| input(format!("cannot write {path}: {}", plain(&error))))
}

/// What an error of the system says, without its number.
pub fn plain(error: &io::Error) -> String {
    let words = error.to_string();
    words.split(" (os error").next().unwrap_or(&words).to_owned()
}
