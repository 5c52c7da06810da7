//! What shells need to complete a command, made of the table of commands.

use crate::commands::{Argument, COMMANDS, Choice, Command, HELP, VERSION, Values};
use crate::options::Options;
use crate::output::Output;
use crate::text::Stop;

pub const SHELLS: &[&str] = &["bash", "zsh", "fish"];

/// `light completions SHELL`.
pub fn completions(options: &Options, output: &mut Output) -> Result<(), Stop> {
    let [shell] = options.arguments();
    output.text(&match shell {
        "bash" => bash(),
        "zsh" => zsh(),
        "fish" => fish(),
        other => return Err(Stop::Failed(format!("light completions: '{other}' is none of {}", SHELLS.join(", ")))),
    });
    Ok(())
}

fn names() -> Vec<&'static str> {
    COMMANDS.iter().map(|command| command.name).collect()
}

/// The words that an argument may be, none where files or any text may stand there.
fn words(argument: &Argument) -> Vec<&'static str> {
    match argument.values {
        Values::Words(words) => words.to_vec(),
        Values::Command => names(),
        Values::File | Values::Text => Vec::new(),
    }
}

fn options(choices: impl Iterator<Item = &'static Choice>) -> Vec<String> {
    choices.map(|choice| format!("--{}", choice.name)).collect()
}

fn bash() -> String {
    let mut cases = String::new();
    for command in COMMANDS {
        let all: Vec<&str> = command.arguments.iter().flat_map(words).collect();
        let options = options(command.all_choices()).join(" ");
        cases += &format!("    {}) options='{options}' words='{}' ;;\n", command.name, all.join(" "));
    }
    let (names, program) = (names().join(" "), options([&HELP, &VERSION].into_iter()).join(" "));
    format!(
        "\
# light completions bash
_light() {{
    local word=${{COMP_WORDS[COMP_CWORD]}} options='' words=''
    COMPREPLY=()
    if [ \"$COMP_CWORD\" -eq 1 ]; then
        mapfile -t COMPREPLY < <(compgen -W '{names} {program}' -- \"$word\")
        return
    fi
    case ${{COMP_WORDS[1]}} in
{cases}    esac
    if [[ $word == -* ]]; then
        mapfile -t COMPREPLY < <(compgen -W \"$options\" -- \"$word\")
    elif [ -n \"$words\" ]; then
        mapfile -t COMPREPLY < <(compgen -W \"$words\" -- \"$word\")
    else
        mapfile -t COMPREPLY < <(compgen -f -- \"$word\")
    fi
}}
complete -o filenames -F _light light
"
    )
}

/// What stands in single quotes in a shell, brackets and colons as `_arguments` of zsh takes them.
fn quoted(text: &str) -> String {
    text.replace('\'', "'\\''")
}

fn zsh() -> String {
    let listed: String =
        COMMANDS.iter().map(|command| format!("    '{}:{}'\n", command.name, quoted(command.text))).collect();
    let cases: String = COMMANDS.iter().map(zsh_case).collect();
    format!(
        "\
#compdef light
# light completions zsh
_light() {{
    local -a commands=(
{listed}    )
    if (( CURRENT == 2 )); then
        _describe command commands
        _values option '--help[{}]' '--version[{}]'
        return
    fi
    local command=$words[2]
    shift words
    (( CURRENT-- ))
    case $command in
{cases}    esac
}}
# run from a folder of $fpath it is the function itself, sourced it is told of
if [ \"$funcstack[1]\" = _light ]; then _light \"$@\"; else compdef _light light; fi
",
        HELP.text, VERSION.text
    )
}

fn zsh_case(command: &Command) -> String {
    let choices = command.all_choices().map(|choice| {
        let value = choice.value.map_or(String::new(), |value| format!(":{value}:"));
        let equals = if choice.value.is_some() { "=" } else { "" };
        format!(" '--{}{equals}[{}]{value}'", choice.name, quoted(choice.text))
    });
    let arguments = command.arguments.iter().map(|argument| {
        let action = match argument.values {
            Values::File => "_files".into(),
            Values::Text => String::new(),
            Values::Words(_) | Values::Command => format!("({})", words(argument).join(" ")),
        };
        let many = if argument.often == crate::commands::Often::OnceOrMore { "*" } else { "" };
        format!(" '{many}:{}:{action}'", argument.name)
    });
    let all: String = choices.chain(arguments).collect();
    format!("    {}) _arguments{all} ;;\n", command.name)
}

fn fish() -> String {
    let mut lines = String::from("# light completions fish\n");
    for choice in [&HELP, &VERSION] {
        lines +=
            &format!("complete -c light -n __fish_use_subcommand -l {} -d '{}'\n", choice.name, quoted(choice.text));
    }
    for command in COMMANDS {
        let seen = format!("'__fish_seen_subcommand_from {}'", command.name);
        lines += &format!(
            "complete -c light -n __fish_use_subcommand -f -a {} -d '{}'\n",
            command.name,
            quoted(command.text)
        );
        for choice in command.all_choices() {
            let value = if choice.value.is_some() { " -x" } else { "" };
            lines += &format!("complete -c light -n {seen} -l {}{value} -d '{}'\n", choice.name, quoted(choice.text));
        }
        for argument in command.arguments.iter().filter(|argument| !words(argument).is_empty()) {
            lines += &format!("complete -c light -n {seen} -f -a '{}'\n", words(argument).join(" "));
        }
    }
    lines
}
