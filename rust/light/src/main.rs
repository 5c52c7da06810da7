//! `light`: rooms and their lamps. `light --help` says what it does.

use light::output::Output;
use light::text::Stop;
use std::process::ExitCode;

fn main() -> ExitCode {
    let mut output = Output::standard();
    let arguments: Result<Vec<String>, _> = std::env::args_os().skip(1).map(|word| word.into_string()).collect();
    let ended = match arguments {
        Ok(arguments) => light::run(&arguments, &mut output),
        Err(word) => Err(Stop::Failed(format!("{}: no text in UTF-8", word.display()))),
    };
    // rows before a wrong line are written all the same
    let flushed = output.flush();
    match ended.and(flushed) {
        Ok(()) => ExitCode::SUCCESS,
        Err(Stop::Refused(why)) => said(&why, 1),
        Err(Stop::Failed(why)) => said(&why, 2),
        Err(Stop::Unread) => ExitCode::from(2),
    }
}

fn said(why: &str, status: u8) -> ExitCode {
    eprintln!("{why}");
    ExitCode::from(status)
}
