//! The reading of arguments, the same for every command: options stand anywhere behind it, `--` ends them.

use crate::commands::{COMMANDS, Choice, Command, VERSION};
use crate::text::Stop;

/// What a call asks for.
pub enum Asked {
    Command(Options),
    /// The help of a command, or of all.
    Help(Option<&'static Command>),
    Version,
}

/// A command's arguments and options, as many and such as the table of commands says.
pub struct Options {
    pub command: &'static Command,
    arguments: Vec<String>,
    chosen: Vec<(&'static Choice, String)>,
}

impl Options {
    /// The first arguments.
    pub fn arguments<const N: usize>(&self) -> [&str; N] {
        std::array::from_fn(|at| self.argument(at).unwrap_or_default())
    }

    /// An argument that may be absent.
    pub fn argument(&self, at: usize) -> Option<&str> {
        self.arguments.get(at).map(String::as_str)
    }

    /// The arguments behind the first.
    pub fn behind(&self, first: usize) -> &[String] {
        self.arguments.get(first..).unwrap_or_default()
    }

    pub fn has(&self, name: &str) -> bool {
        self.value(name).is_some()
    }

    /// The value of an option, the last one where it is given more than once.
    pub fn value(&self, name: &str) -> Option<&str> {
        self.chosen.iter().rev().find(|(choice, _)| choice.name == name).map(|(_, value)| value.as_str())
    }

    /// The value of an option that is a whole number.
    pub fn number(&self, name: &str) -> Result<Option<usize>, Stop> {
        let whole =
            |text: &str| text.parse().map_err(|_| Stop::Failed(format!("--{name}: '{text}' is no whole number")));
        self.value(name).map(whole).transpose()
    }

    /// The same, where there are as many arguments as the command takes.
    fn checked(self) -> Result<Options, Stop> {
        let command = self.command;
        if command.takes(self.arguments.len()) {
            return Ok(self);
        }
        Err(Stop::Failed(format!("{}; `light {} --help` says more", command.usage(), command.name)))
    }
}

/// Whether a word is an option. Numbers below 0, and `-` for standard input, are none.
fn is_option(word: &str) -> bool {
    let behind = word.strip_prefix('-').unwrap_or_default();
    behind.starts_with(|c: char| c == '-' || c.is_alphabetic()) && !word.contains(char::is_whitespace)
}

/// What the arguments ask for.
pub fn read(words: &[String]) -> Result<Asked, Stop> {
    let first = words.first().map(String::as_str).unwrap_or_default();
    match first {
        "--help" | "-h" => return Ok(Asked::Help(None)),
        "--version" | "-V" => return Ok(Asked::Version),
        _ => {}
    }
    let command = command(first)?;
    let mut options = Options { command, arguments: Vec::new(), chosen: Vec::new() };
    let mut rest = words[1..].iter();
    while let Some(word) = rest.next() {
        if word == "--" {
            options.arguments.extend(rest.by_ref().cloned());
        } else if !is_option(word) {
            options.arguments.push(word.clone());
        } else if ["--help", "-h"].contains(&word.as_str()) {
            return Ok(Asked::Help(Some(command)));
        } else {
            options.chosen.push(chosen(command, word, || rest.next().cloned())?);
        }
    }
    options.checked().map(Asked::Command)
}

/// The option that a word is, with its value, which may be the next word.
fn chosen(
    command: &Command,
    word: &str,
    next: impl FnOnce() -> Option<String>,
) -> Result<(&'static Choice, String), Stop> {
    let (name, value) = word.split_once('=').map_or((word, None), |(name, value)| (name, Some(value.to_string())));
    let named = |choice: &&Choice| name.strip_prefix("--") == Some(choice.name);
    let Some(choice) = command.all_choices().find(named) else {
        let names = command.all_choices().map(|choice| format!("--{}", choice.name));
        return Err(unknown(&format!("light {}: {name} is no option of it", command.name), name, names));
    };
    match (choice.value, value) {
        (None, None) => Ok((choice, String::new())),
        (None, Some(_)) => Err(Stop::Failed(format!("light {}: {name} has no value", command.name))),
        (Some(what), value) => {
            let missing = || Stop::Failed(format!("light {}: {name} wants a value, {name} {what}", command.name));
            value.or_else(next).map(|value| (choice, value)).ok_or_else(missing)
        }
    }
}

/// The command of a name.
pub fn command(word: &str) -> Result<&'static Command, Stop> {
    Command::named(word).ok_or_else(|| no_command(word))
}

fn no_command(word: &str) -> Stop {
    let names =
        COMMANDS.iter().map(|command| command.name.to_string()).chain([format!("--{}", VERSION.name), "--help".into()]);
    match word {
        "" => Stop::Failed("light COMMAND ...; `light --help` says more".into()),
        _ => unknown(&format!("light: '{word}' is no command"), word, names),
    }
}

/// What is wrong with a word, and the known one that is nearest to it.
fn unknown(wrong: &str, word: &str, known: impl Iterator<Item = String>) -> Stop {
    let nearest = known.min_by_key(|name| distance(word, name)).unwrap_or_default();
    Stop::Failed(format!("{wrong}; the nearest is {nearest}; `light --help` says more"))
}

/// How many characters are to be put in, left out or changed to make one word of the other.
fn distance(a: &str, b: &str) -> usize {
    let b: Vec<char> = b.chars().collect();
    let mut row: Vec<usize> = (0..=b.len()).collect();
    for (at, x) in (1..).zip(a.chars()) {
        let mut corner = std::mem::replace(&mut row[0], at);
        for (place, y) in b.iter().enumerate() {
            let changed = corner + usize::from(x != *y);
            corner = row[place + 1];
            row[place + 1] = changed.min(corner + 1).min(row[place] + 1);
        }
    }
    row[b.len()]
}
