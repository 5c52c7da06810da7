//! `run PART …`: the runs by hand. The table below is what `run --help` shows.

use trials::parts::{self, Part};
use trials::runs::{demand3, exhaustive, fuzz, programs, progress};
use trials::with_reference;

const PARTS: &[Part] = &[
    Part {
        name: "bounds",
        takes: "COUNT [SEED]",
        does: "So many unions, importances and checks of records, proved against oracle, and so many of each function of angles.",
        time: "A million take about 5 s.",
        call: with_reference!(trials::runs::bounds::by_hand),
    },
    Part {
        name: "lamps",
        takes: "COUNT [SEED]",
        does: "So many lamp lists, proved against oracle, and so many checks of a block.",
        time: "A million take about 10 s.",
        call: with_reference!(trials::runs::lists::by_hand),
    },
    Part {
        name: "alias",
        takes: "COUNT [SEED]",
        does: "So many alias tables, proved against oracle.",
        time: "A million take about 3 s.",
        call: with_reference!(trials::runs::alias::by_hand),
    },
    Part {
        name: "trees",
        takes: "COUNT [SEED]",
        does: "So many builds of blocks, proved against oracle.",
        time: "A hundred thousand take about 15 s.",
        call: with_reference!(trials::runs::trees::by_hand),
    },
    Part {
        name: "walks",
        takes: "COUNT [SEED]",
        does: "So many draws and so many chances by name, proved against oracle; then each word of 20 trees made wrong in each way.",
        time: "A million take about 45 s.",
        call: with_reference!(trials::runs::walks::by_hand),
    },
    Part {
        name: "packing",
        takes: "COUNT [SEED]",
        does: "So many packings, proved against oracle; then each word of 10 trees made wrong in each way.",
        time: "A hundred thousand take about 10 s.",
        call: with_reference!(trials::runs::packing::by_hand),
    },
    Part {
        name: "demand3",
        takes: "COUNT [SEED]",
        does: "Looks for a violation of demand 3 on so many built trees, then in each of four broken copies of the draw.",
        time: "A hundred thousand take about 15 s.",
        call: demand3::by_hand,
    },
    Part {
        name: "exhaustive",
        takes: "[FUNCTION…]",
        does: "Library functions against stand-in and Rust's own: every argument of one 32-bit word, else 10^8 random cases.",
        time: "Random cases take under 10 s a function, every word 16 s (abs) to 150 s (sqrt) and of angles more; all where none is named.",
        call: exhaustive::by_hand,
    },
    Part {
        name: "fuzz",
        takes: "[CALLS [SEED]]",
        does: "Calls of the six C functions on damaged words, each slice beside a page that no call may touch; a million usually.",
        time: "A million take about 1 s.",
        call: fuzz::by_hand,
    },
    Part {
        name: "answers-again",
        takes: "[--store] [LIST…]",
        does: "The stored cases answered again by the oracle: which changed, and how; with --store the new answers are stored.",
        time: "All lists, which are meant where none is named, take less than 1 s.",
        call: with_reference!(trials::stored::again::answers_again),
    },
    Part {
        name: "answers-anew",
        takes: "LIST…",
        does: "Draws lists of stored answers anew, cases and all, and stores them: floats, bounds, lamps, alias, trees, walks, packed.",
        time: "All lists take about 8 s, nearly all of it for walks.",
        call: with_reference!(trials::stored::again::answers_anew),
    },
    Part {
        name: "columns-input",
        takes: "LAMPS GROUPS",
        does: "To standard output, an office's block and groups as the program columns reads them.",
        time: "A million groups take less than 1 s.",
        call: programs::columns_input,
    },
    Part {
        name: "block",
        takes: "LIST BLOCK",
        does: "To the file BLOCK, the oracle's block of the lamp list in the file LIST, as the program lamps_to_block writes it.",
        time: "Takes less than 1 s.",
        call: with_reference!(trials::runs::programs::block),
    },
];

fn main() -> std::process::ExitCode {
    progress::tell();
    parts::main(
        "run",
        "the proved functions against what they are held to, over as many inputs as are asked for",
        PARTS,
    )
}
