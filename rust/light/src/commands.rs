//! The commands and their options: the one table of which the reading of arguments, the help, the man page and the
//! completions are made.

use crate::help;
use crate::options::Options;
use crate::output::Output;
use crate::text::Stop;
use crate::{block, check, completions, draw, man, plan, report, sheet, table, words};

/// What may stand in an argument's or an option's place.
pub enum Values {
    File,
    /// One of these.
    Words(&'static [&'static str]),
    Command,
    /// Text of which nothing is known beforehand.
    Text,
}

/// How often an argument stands there.
#[derive(Clone, Copy, PartialEq)]
pub enum Often {
    Once,
    OnceOrNot,
    OnceOrMore,
}

pub struct Argument {
    pub name: &'static str,
    pub often: Often,
    pub values: Values,
}

pub struct Choice {
    /// Without its dashes.
    pub name: &'static str,
    /// What its value is called, none where it has none.
    pub value: Option<&'static str>,
    pub text: &'static str,
}

pub struct Command {
    pub name: &'static str,
    pub arguments: &'static [Argument],
    /// What is written to a file or a pipe, where that is all that is printed.
    pub writes: Option<&'static str>,
    /// One line.
    pub text: &'static str,
    /// The rest of its help.
    pub more: &'static str,
    pub choices: &'static [Choice],
    pub run: fn(&Options, &mut Output) -> Result<(), Stop>,
}

const ROOM: Argument = Argument { name: "ROOM", often: Often::Once, values: Values::File };
const BENCHES: Argument = Argument { name: "BENCHES", often: Often::Once, values: Values::File };

/// Which every command has, and the program by itself.
pub const HELP: Choice = Choice { name: "help", value: None, text: "this text" };
/// Which only the program by itself has.
pub const VERSION: Choice = Choice { name: "version", value: None, text: "which version this is" };

pub const COMMANDS: &[Command] = &[
    Command {
        name: "report",
        arguments: &[ROOM, BENCHES],
        writes: None,
        text: "a lamp drawn for each bench, with its chance, in two ways",
        more: help::REPORT,
        choices: sheet::CHOICES,
        run: report::report,
    },
    Command {
        name: "draw",
        arguments: &[
            ROOM,
            Argument { name: "BENCH", often: Often::Once, values: Values::File },
            Argument { name: "U", often: Often::OnceOrMore, values: Values::Text },
        ],
        writes: None,
        text: "lamps drawn for one bench by numbers from 0 to 1",
        more: help::DRAW,
        choices: sheet::CHOICES,
        run: draw::draw,
    },
    Command {
        name: "block",
        arguments: &[ROOM],
        writes: None,
        text: "where each lamp is, which way it shines, its power, its cone",
        more: help::BLOCK,
        choices: &[table::CSV, table::JSON],
        run: block::block,
    },
    Command {
        name: "check",
        arguments: &[ROOM, Argument { name: "BENCHES", often: Often::OnceOrNot, values: Values::File }],
        writes: None,
        text: "all that is wrong or doubtful with a room and its benches",
        more: help::CHECK,
        choices: check::CHOICES,
        run: check::check,
    },
    Command {
        name: "plan",
        arguments: &[ROOM, BENCHES],
        writes: Some("PAGE"),
        text: "a page to look at: the floor plan and what each bench looks at",
        more: help::PLAN,
        choices: &[Choice { name: "bench", value: Some("LINE"), text: "only the bench at that line of BENCHES" }],
        run: plan::plan,
    },
    Command {
        name: "list",
        arguments: &[ROOM],
        writes: Some("LIST"),
        text: "the lamps as words, for the proved program lamps_to_block",
        more: help::LIST,
        choices: &[],
        run: words::list,
    },
    Command {
        name: "columns",
        arguments: &[ROOM, BENCHES],
        writes: Some("WORDS"),
        text: "bounds and benches as words, for the proved program columns",
        more: help::COLUMNS,
        choices: &[],
        run: words::columns,
    },
    Command {
        name: "help",
        arguments: &[Argument { name: "COMMAND", often: Often::OnceOrNot, values: Values::Command }],
        writes: None,
        text: "what a command does, or all of them",
        more: help::HELP,
        choices: &[],
        run: help::help,
    },
    Command {
        name: "man",
        arguments: &[],
        writes: None,
        text: "the manual page, for man",
        more: help::MAN,
        choices: &[],
        run: man::man,
    },
    Command {
        name: "completions",
        arguments: &[Argument { name: "SHELL", often: Often::Once, values: Values::Words(completions::SHELLS) }],
        writes: None,
        text: "what a shell needs to complete commands, options and files",
        more: help::COMPLETIONS,
        choices: &[],
        run: completions::completions,
    },
];

impl Command {
    pub fn named(name: &str) -> Option<&'static Command> {
        COMMANDS.iter().find(|command| command.name == name)
    }

    /// "light report ROOM BENCHES".
    pub fn usage(&self) -> String {
        let arguments: String = self.arguments.iter().map(|argument| format!(" {}", argument.usage())).collect();
        let writes = self.writes.map_or(String::new(), |what| format!(" >{what}"));
        format!("light {}{arguments}{writes}", self.name)
    }

    /// Its own options and those that every command has.
    pub fn all_choices(&self) -> impl Iterator<Item = &'static Choice> {
        self.choices.iter().chain([&HELP])
    }

    /// Whether it takes so many arguments.
    pub fn takes(&self, count: usize) -> bool {
        let least = self.arguments.iter().filter(|argument| argument.often != Often::OnceOrNot).count();
        let many = self.arguments.iter().any(|argument| argument.often == Often::OnceOrMore);
        count >= least && (many || count <= self.arguments.len())
    }
}

impl Argument {
    fn usage(&self) -> String {
        match self.often {
            Often::Once => self.name.into(),
            Often::OnceOrNot => format!("[{}]", self.name),
            Often::OnceOrMore => format!("{}...", self.name),
        }
    }
}

impl Choice {
    /// "--bench LINE".
    pub fn usage(&self) -> String {
        match self.value {
            Some(value) => format!("--{} {value}", self.name),
            None => format!("--{}", self.name),
        }
    }
}
