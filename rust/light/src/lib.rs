//! What the program `light` does: rooms and their lamps, benches and what they look at. `light --help` tells of it.

pub mod bench;
pub mod block;
pub mod chances;
pub mod check;
pub mod commands;
pub mod completions;
pub mod draw;
pub mod help;
pub mod lamp;
pub mod man;
pub mod options;
pub mod output;
pub mod plan;
pub mod report;
pub mod room;
pub mod rows;
pub mod sheet;
pub mod source;
pub mod table;
pub mod text;
pub mod triangle;
pub mod words;

use options::Asked;
use output::Output;
use text::Stop;

/// Does what the arguments ask, those behind the program's name.
pub fn run(arguments: &[String], output: &mut Output) -> Result<(), Stop> {
    match options::read(arguments)? {
        Asked::Command(options) => (options.command.run)(&options, output),
        Asked::Help(command) => {
            output.text(&help::of(command));
            Ok(())
        }
        Asked::Version => {
            output.line(&help::version());
            Ok(())
        }
    }
}
