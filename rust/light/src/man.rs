//! The manual page, made of the table of commands.

use crate::commands::COMMANDS;
use crate::help;
use crate::options::Options;
use crate::output::Output;
use crate::text::Stop;

/// `light man`.
pub fn man(_options: &Options, output: &mut Output) -> Result<(), Stop> {
    output.text(&page());
    Ok(())
}

fn page() -> String {
    let mut page = format!(".TH LIGHT 1 \"\" \"{}\"\n", help::version());
    page += &format!(".SH NAME\nlight \\- {}\n", escaped(help::WHAT));
    page += ".SH SYNOPSIS\n";
    for command in COMMANDS {
        page += &format!(".B {}\n.br\n", escaped(&command.usage()));
    }
    page += &format!(".SH DESCRIPTION\n{}", as_it_is(help::ROOMS));
    page += ".SH COMMANDS\n";
    for command in COMMANDS {
        page += &format!(".SS {}\n{}", escaped(&command.usage()), as_it_is(&help::body(command)));
    }
    page += &format!(".SH EXIT STATUS\n{}", as_it_is(help::STATUS));
    page
}

/// Lines as they stand.
fn as_it_is(text: &str) -> String {
    let lines: String = text.lines().map(|line| escaped(line) + "\n").collect();
    format!(".nf\n{lines}.fi\n")
}

/// What roff would read as its own.
fn escaped(text: &str) -> String {
    let plain = text.replace('\\', "\\e").replace('-', "\\-").replace('`', "\\(ga");
    if plain.starts_with(['.', '\'']) { format!("\\&{plain}") } else { plain }
}
