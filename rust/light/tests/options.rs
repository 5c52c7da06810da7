//! How arguments are read, and what is made of the table of commands: help, version, manual page, completions.

mod common;

use common::{EXAMPLES, bad, good};
use light::commands::COMMANDS;
use std::process::Command;

/// Options stand anywhere behind the command, before `--`.
#[test]
fn anywhere() {
    let table = good(&["report", "laboratory.txt", "benches.txt", "--csv"], "");
    assert_eq!(good(&["report", "--csv", "laboratory.txt", "benches.txt"], ""), table);
    assert_eq!(good(&["report", "laboratory.txt", "--csv", "--", "benches.txt"], ""), table);
    assert_eq!(good(&["report", "--csv", "--csv", "laboratory.txt", "benches.txt"], ""), table);
    assert!(bad(2, &["block", "--", "--csv"], "").starts_with("--csv: "));
    // numbers below 0, and `-`, are arguments
    let drawn = good(&["draw", "room.txt", "-1 0 1 -", "-0"], "");
    assert!(drawn.contains("\n     -0 "), "{drawn}");
    assert!(good(&["draw", "-", "-.5 0 1 -", "0x3f000000"], "point 0 0 0 1 1").contains("1 drawn"));
}

#[test]
fn wrong_options() {
    for (arguments, said) in [
        (
            &["report", "--cvs", "a", "b"][..],
            "light report: --cvs is no option of it; the nearest is --csv; `light --help` says more",
        ),
        (
            &["block", "--strict", "a"],
            "light block: --strict is no option of it; the nearest is --csv; `light --help` says more",
        ),
        (
            &["plan", "--bnech=3", "a", "b"],
            "light plan: --bnech is no option of it; the nearest is --bench; `light --help` says more",
        ),
        (
            &["report", "-x", "a", "b"],
            "light report: -x is no option of it; the nearest is --csv; `light --help` says more",
        ),
        (&["report", "--csv=1", "a", "b"], "light report: --csv has no value"),
        (&["plan", "a", "b", "--bench"], "light plan: --bench wants a value, --bench LINE"),
        (&["plan", "room.txt", "benches.txt", "--bench", "x"], "--bench: 'x' is no whole number"),
        (&["plan", "room.txt", "benches.txt", "--bench=-1"], "--bench: '-1' is no whole number"),
        (&["rapport"], "light: 'rapport' is no command; the nearest is report; `light --help` says more"),
        (&["--versoin"], "light: '--versoin' is no command; the nearest is --version; `light --help` says more"),
        (&["help", "blok"], "light: 'blok' is no command; the nearest is block; `light --help` says more"),
        (&[], "light COMMAND ...; `light --help` says more"),
        (&["help", "block", "list"], "light help [COMMAND]; `light help --help` says more"),
        (&["completions", "tcsh"], "light completions: 'tcsh' is none of bash, zsh, fish"),
    ] {
        assert_eq!(bad(2, arguments, ""), said);
    }
    // a word that is no text
    let word = <std::ffi::OsStr as std::os::unix::ffi::OsStrExt>::from_bytes(b"a\xff");
    let output = Command::new(env!("CARGO_BIN_EXE_light")).arg("block").arg(word).output().unwrap();
    assert_eq!((output.status.code(), output.stderr), (Some(2), "a\u{fffd}: no text in UTF-8\n".into()));
}

#[test]
fn help_and_version() {
    assert_eq!(good(&["--version"], ""), format!("light {}\n", env!("CARGO_PKG_VERSION")));
    assert_eq!(good(&["-V"], ""), good(&["--version"], ""));
    let all = good(&["help"], "");
    assert_eq!([&["--help"][..], &["-h"], &["--help", "x"]].map(|words| good(words, "")), [&all; 3].map(String::clone));
    for command in COMMANDS {
        let help = good(&["help", command.name], "");
        assert_eq!(good(&[command.name, "nowhere.txt", "--help"], ""), help);
        assert!(help.starts_with(&format!("{}\n\n", command.usage())), "{help}");
        assert!(help.lines().all(|line| line.chars().count() <= 100 && line.trim_end() == line), "{help}");
        assert!(
            all.contains(&format!("    {}", &command.usage()["light ".len()..])) && all.contains(command.text),
            "{all}"
        );
        for choice in command.all_choices() {
            assert!(help.contains(&format!("    {}", choice.usage())) && help.contains(choice.text), "{help}");
        }
    }
}

/// Every command and option stands in the manual page.
#[test]
fn manual_page() {
    let page = good(&["man"], "");
    for command in COMMANDS {
        assert!(page.contains(&format!(".SS light {}", command.name)), "{page}");
        for choice in command.all_choices() {
            assert!(page.contains(&format!("\\-\\-{}", choice.name.replace('-', "\\-"))), "{page}");
        }
    }
    // no line of the text is read as roff's own
    let own = [".TH ", ".SH ", ".SS ", ".B ", ".br", ".nf", ".fi"];
    let dotted = page.lines().filter(|line| line.starts_with(['.', '\'']));
    assert!(
        dotted.clone().count() > 0 && dotted.clone().all(|line| own.iter().any(|own| line.starts_with(own))),
        "{page}"
    );
}

/// What bash completes.
fn completed(words: &[&str]) -> String {
    let script = "source <(\"$0\" completions bash); COMP_WORDS=(\"$@\"); COMP_CWORD=$(($# - 1)); _light; \
        echo \"${COMPREPLY[*]}\"";
    let mut bash = Command::new("bash");
    bash.args(["-c", script, env!("CARGO_BIN_EXE_light"), "light"]).args(words).current_dir(EXAMPLES);
    let output = bash.output().unwrap();
    assert_eq!((output.status.code(), output.stderr.len()), (Some(0), 0));
    common::text(&output.stdout).trim_end().into()
}

#[test]
fn completions() {
    assert_eq!(completed(&["re"]), "report");
    assert_eq!(completed(&["--"]), "--help --version");
    assert_eq!(completed(&["report", "--"]), "--csv --json --no-sum --strict --help");
    assert_eq!(completed(&["report", "--csv", "lab"]), "laboratory.txt");
    assert_eq!(completed(&["plan", "--b"]), "--bench");
    assert_eq!(completed(&["help", "che"]), "check");
    assert_eq!(completed(&["completions", ""]), "bash zsh fish");
    for shell in ["zsh", "fish"] {
        let script = good(&["completions", shell], "");
        for command in COMMANDS {
            assert!(
                script.contains(command.text) && command.choices.iter().all(|choice| script.contains(choice.text)),
                "{script}"
            );
        }
    }
}
