//! `bench PART`: the proved functions timed beside Rust's own or beside the reference with Rust's own library
//! functions, on the same inputs by the same driver. The table below is what `bench --help` shows. It is a
//! program and no part of the library, so that the compiler sees no more of a proved function's wrapper than
//! whoever links it does.

mod floats;
#[cfg(reference)]
mod reference;
mod timing;

use trials::parts::{self, Part, none};
use trials::with_reference;

/// A part that takes no arguments and prints rows.
macro_rules! table {
    ($rows:path) => {
        |arguments: &[String]| {
            none(arguments)?;
            $rows();
            Ok(true)
        }
    };
}

const PARTS: &[Part] = &[
    Part {
        name: "floats",
        takes: "",
        does: "The library functions and the words of slices, beside Rust's own, a row each.",
        time: "About 1 s.",
        call: table!(floats::rows),
    },
    Part {
        name: "bounds",
        takes: "",
        does: "Importance and union, beside the reference, on a mix of records and on those of a room.",
        time: "About 8 s.",
        call: with_reference!(table!(reference::bounds::rows)),
    },
    Part {
        name: "lamps",
        takes: "",
        does: "Blocks of lamp lists, beside the reference, by kinds of lamps.",
        time: "About 8 s.",
        call: with_reference!(table!(reference::lamps::rows)),
    },
    Part {
        name: "alias",
        takes: "",
        does: "Alias tables, beside the reference, by manners of weights.",
        time: "Less than 1 s.",
        call: with_reference!(table!(reference::alias::rows)),
    },
    Part {
        name: "trees",
        takes: "",
        does: "Builds, beside the reference, of rooms of 64, 512 and 4,096 lamps.",
        time: "About 2 s.",
        call: with_reference!(table!(reference::trees::rows)),
    },
    Part {
        name: "walks",
        takes: "",
        does: "Draws and chances by name, beside the reference, in rooms of 64, 512 and 4,096 lamps, with normals and without.",
        time: "About 5 s.",
        call: with_reference!(table!(reference::walks::rows)),
    },
    Part {
        name: "packing",
        takes: "",
        does: "Packings, beside the reference, of rooms of 64, 512 and 4,096 lamps.",
        time: "About 1 s.",
        call: with_reference!(table!(reference::packing::rows)),
    },
];

fn main() -> std::process::ExitCode {
    parts::main("bench", "the proved functions timed beside Rust's; a row is printed as soon as it is timed", PARTS)
}
