//! What `--help` and `light help` print: the table of commands, and texts that stand here.

use crate::commands::{COMMANDS, Choice, Command, HELP as HELP_CHOICE, VERSION};
use crate::options::Options;
use crate::output::Output;
use crate::text::Stop;

/// What the program is for.
pub const WHAT: &str = "which lamp a bench looks at, and with which chance";

pub const ROOMS: &str = "\
ROOM and BENCHES are text files, - is standard input. ROOM has a lamp a line; `#` starts a comment;
a number is a decimal or a float's word such as 0x3f800000. A lamp's handle is its place in the
table, from 0 on.
    point  X Y Z  INTENSITY SCALE
    spot   X Y Z  DX DY DZ  INTENSITY SCALE  COS_THETA_O COS_FALLOFF_END
    group  EMISSION SCALE one|two  |  AX AY AZ  BX BY BZ  CX CY CZ  AREA  NX NY NZ  |  ...
A spot shines along DX DY DZ; the angle where its light begins to fall off, and the greater one
where it ends, are told by their cosines. A group is a luminous surface of triangles, each behind a
`|`: three corners, the area, the normal; `one` or `two` says how many of its sides shine, `one`
being that of the normal. Where the area or the normal is - it is worked out from the corners, in
f32: the edges B - A and C - A, their cross product v = (y z' - z y', z x' - x z', x y' - y x'), its
length as the root of v.x v.x + v.y v.y + v.z v.z, added from left to right; the area is 0.5 times
the length, the normal each part of v times 1 / length. Seen from where it points to, the corners
run anticlockwise.

Lengths are in one unit of your choice, areas in its square, angles are told as cosines (60 degrees
is 0.5), intensity and emission are linear: twice the figure is twice the light, and SCALE
multiplies it. A line may begin with a name in double quotes, such as \"by the window\"; two quotes
are one within it. It is shown in every report.
";

pub const STATUS: &str = "\
It exits with 0 where it did what was asked, with 1 where a text is wrong or a room is refused, and
with 2 where something else failed; one line on standard error says why, but where nobody reads on.
";

pub const BLOCK: &str = "\
Prints the bounds block of a room, a lamp a line: handle, box, direction, power phi, the cosines of
its cone, sides, and names where some lamp has one. A NaN or an infinity is printed as its word.
With --csv or --json the fields are handle, name, line, then the same. `light --help` tells of ROOM.
";

pub const REPORT: &str = "\
Draws a lamp for each bench and prints, a bench a line:
    bench   its line in BENCHES
    lamp    the handle of the lamp that is drawn; none where there is none with power, or where the
            draw comes to a fork neither branch of which shines there
    line    the lamp's line in ROOM
    drawn   the chance with which it is drawn, multiplied on the way down the tree
    named   the same chance by the lamp's name, its handle, multiplied on the way up
    bits    the bits of both, in the same order
    apart   how many floats one is from the other; or wholly: one is NaN or infinite, or 0 beside
            one that is not
    sum of named   all lamps' chances by name together: about 1; less where a branch shines there by
            its bounds but none of its lamps does, and a draw may end with none
and the names of bench and lamp, where they have some; or `refused N` and why, and the report goes
on behind it. The last lines count the rows and say how far the chances part at the most. Both
multiply rounded shares, and the draw's share of a right branch is 1 less the left one's: most part
by a few floats, by more where a right branch has a tiny share. Where weights overflow they can part
wholly, and the sum is not about 1.

BENCHES has a bench a line: a point, a normal there, a number u from 0 to 1; `-` in place of the
normal is none. Comments, numbers and names are as in ROOM, of which `light --help` tells.
    X Y Z  NX NY NZ  U
    X Y Z  -         U

With --csv or --json a bench is a row with the fields
    bench bench_name u              its line, name and number
    status                          drawn, none or refused
    refusal refusal_text            the number and the reason, where it is refused
    lamp lamp_name lamp_line        the lamp that is drawn
    drawn named drawn_bits named_bits apart parts_wholly
    sum_of_named                    or, where a lamp has no chance by name, sum_refused_lamp and
                                    sum_refusal in its place
Every row has all fields, empty or null where there is nothing to say. A decimal is the shortest
that is read as the same float, NaN, Infinity and -Infinity are text. Lines of comma-separated
values end as RFC 4180 has it; JSON is one array. Rows are written as they come, and where a wrong
line ends the run the array is closed behind those before it.
";

pub const DRAW: &str = "\
Draws a lamp for one bench by each number U from 0 to 1, and prints them as `light report` does, a
number a line. BENCH is
    \"X Y Z  NX NY NZ\"   a point and a normal, in one argument
    \"X Y Z  -\"          a point with no normal
    BENCHES:LINE        the bench at that line of a file, whose own u is not used
The sum of named chances stands below, since all draws have it in common.
`light --help` tells of ROOM, `light report --help` of BENCHES.
";

pub const CHECK: &str = "\
Reads all of ROOM, and of BENCHES where it is named, and prints a line for all that it finds: file,
line, column, what is wrong and what to do. Faults are wrong lines and lamps, rooms and benches that
the proved functions refuse. Warnings are
  - a triangle whose area is not within 1 part in 1,000 of what its corners make, or whose normal
    is further than that from standing upright on it, on either side
  - a spot whose COS_FALLOFF_END is above its COS_THETA_O, as where the two are swapped
  - two lamps in one place
  - no lamp, no lamp with power, no bench
Where there is a fault no lamp is drawn, and of a bench only its text and its u are judged. It exits
with 0 where no fault is found, with 1 where there is one, with --strict for a warning too.
`light --help` tells of ROOM, `light report --help` of BENCHES.
";

pub const PLAN: &str = "\
Writes one page in HTML, to be looked at in any browser and printed, a sheet of A4 a bench. It needs
no network. An index of the benches comes first, unless --bench names one; then of each bench:
    the lamp that it looks at, with which chance, in both columns of the report, and how these part
    the plan and the heights: the bench, the lamps where they hang, each shaded by its chance
    the ten greatest chances
    the bar of all u from 0 to 1: which u draw which lamp, and which draw none
    the tree under it: each fork with the share of its left side, the way of the draw marked
Above 64 lamps the tree is cut off where it gets narrow, and the way is shown by itself. The page
says what is proved of all this, and what was looked for.
`light --help` tells of ROOM, `light report --help` of BENCHES.
";

pub const LIST: &str = "\
Writes the lamp list of a room, 32-bit words, the lowest byte first, as target/bin/lamps_to_block
reads it. `light --help` tells of ROOM.
";

pub const COLUMNS: &str = "\
Writes what target/bin/columns reads, 32-bit words, the lowest byte first: the bounds block of a
room, and for each bench seven floats, its point, its normal (0 0 0 for none) and u. That program
prints the handle and the bits of both chances, a bench a line, and every byte of it is proved. It
takes 512 lamps, and says `refused 2` where there are more.
    light columns ROOM BENCHES | target/bin/columns
`light --help` tells of ROOM, `light report --help` of BENCHES.
";

pub const HELP: &str = "\
Prints what a command does, as `light COMMAND --help` does, or of all commands what each is for.
";

pub const MAN: &str = "\
Prints the manual page. To read it, or to have it at hand:
    light man | man -l -
    light man >/usr/local/share/man/man1/light.1
";

pub const COMPLETIONS: &str = "\
Prints what bash, zsh or fish needs so that the tabulator key completes commands, options and files.
    source <(light completions bash)
    light completions zsh >DIRECTORY/_light, where DIRECTORY is one of $fpath
    light completions fish >~/.config/fish/completions/light.fish
";

/// `light help [COMMAND]`.
pub fn help(options: &Options, output: &mut Output) -> Result<(), Stop> {
    let command = match options.argument(0) {
        Some(name) => Some(crate::options::command(name)?),
        None => None,
    };
    output.text(&of(command));
    Ok(())
}

/// "light 0.1.0".
pub fn version() -> String {
    format!("light {}", env!("CARGO_PKG_VERSION"))
}

/// The help of a command, or of all.
pub fn of(command: Option<&Command>) -> String {
    match command {
        Some(command) => format!("{}\n\n{}", command.usage(), body(command)),
        None => all(),
    }
}

/// A command's help after its usage.
pub fn body(command: &Command) -> String {
    format!("{}\nOptions:\n{}", command.more, listed(command.all_choices().map(described)))
}

fn all() -> String {
    let commands = COMMANDS.iter().map(|command| (command.usage().replacen("light ", "", 1), command.text));
    let lines = listed(commands.chain([&HELP_CHOICE, &VERSION].map(described)));
    format!("light: {WHAT}\n\nlight COMMAND ...\n{lines}`light COMMAND --help` says more.\n\n{ROOMS}\n{STATUS}")
}

fn described(choice: &'static Choice) -> (String, &'static str) {
    (choice.usage(), choice.text)
}

/// Lines of two columns.
fn listed(lines: impl Iterator<Item = (String, &'static str)>) -> String {
    let lines: Vec<_> = lines.collect();
    let width = lines.iter().map(|(left, _)| left.len()).max().unwrap_or(0);
    lines.iter().map(|(left, right)| format!("    {left:width$}  {right}\n")).collect()
}
